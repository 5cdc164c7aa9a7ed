//! What the requests about sets of axes must contain.

use super::{ends, joined, refusals, roundings, row, Case, Condition, Rounds, Table};
use crate::draw::axes::WRONG_COUNTS;
use crate::draw::starts::SPAN_EDGES;
use crate::planner::{plan_axes, plan_axis, Axes, AxesPlan, AxesRefusal};
use crate::planner::{Move, Plan, LARGEST_BOUND, MOST_AXES};
use crate::profile::Sample;
use crate::request::Request;

pub fn plans() -> Table {
    let refused = joined([refusals(1..=7), refusals(13..=14), places(), order()]);
    joined([refused, largest(), at_rest(), lengths(), raised()])
}

pub fn samples() -> Table {
    let refused = joined([refusals(1..=7), refusals(9..=9), refusals(13..=14)]);
    let samples = joined([ends(), after_ends(), halves()]);
    joined([refused, places(), largest(), samples])
}

/// The axes that are read, with N of each by itself: 0 at rest, or if it is refused.
pub struct Set<'a> {
    case: &'a Case<'a>,
    axes: &'a Axes,
    read: &'a [Move],
    own: Vec<u64>,
}

impl Set<'_> {
    pub fn of<'a>(case: &'a Case) -> Option<Set<'a>> {
        let (Request::PlanAxes(axes) | Request::SampleAxes(axes, _)) = case.request else {
            return None;
        };
        let read = axes.counted().unwrap_or_default();
        let own = |motion| plan_axis(motion).map_or(0, |plan| plan.samples());
        let own = read.iter().map(own).collect();
        Some(Set {
            case,
            axes,
            read,
            own,
        })
    }

    /// The largest N: the common one, unless an axis is refused.
    pub fn n(&self) -> u64 {
        self.own.iter().copied().max().unwrap_or(0)
    }

    fn refusal(&self) -> i128 {
        self.case.refusal()
    }

    /// The axis that refuses the set.
    fn refused(&self) -> &Move {
        &self.read[self.case.field(1) as usize - 1]
    }

    /// What would be said if all eight were read.
    fn all_read(&self) -> Result<AxesPlan, AxesRefusal> {
        let (count, moves) = (MOST_AXES as u64, self.axes.moves);
        plan_axes(&Axes { count, moves })
    }

    /// Whether any axis, with its own N, is so.
    fn any(&self, is: impl Fn(&Move, u64) -> bool) -> bool {
        let mut axes = self.read.iter().zip(&self.own);
        axes.any(|(motion, own)| is(motion, *own))
    }

    fn axes_of(&self, length: u64) -> usize {
        self.own.iter().filter(|own| **own == length).count()
    }

    /// The axes that move, but are not as long as the longest.
    fn shorter(&self) -> usize {
        self.own.len() - self.axes_of(0) - self.axes_of(self.n())
    }

    /// Whether any shorter axis is so: X, its own plan, and the plan it has here.
    fn raised(&self, is: impl Fn(i64, Plan, Plan) -> bool) -> bool {
        let plans = plan_axes(self.axes).unwrap_or_default().plans;
        self.read.iter().zip(plans).any(|(motion, plan)| {
            let own = plan_axis(motion).unwrap_or_default();
            own.samples() < plan.samples() && is(motion.displacement, own, plan)
        })
    }

    /// Whether the position and the remainder of any shorter axis are so.
    fn any_shorter(&self, are: &Rounds) -> bool {
        let start = |place: usize| self.read[place].start;
        let at = |place| (self.case).rounding(2 + Sample::NUMBERS * place, start(place));
        (0..self.own.len()).any(|place| self.own[place] < self.n() && are(at(place)))
    }
}

fn set(name: impl Into<String>, met: impl Fn(&Set) -> bool + 'static) -> Condition {
    row(name, move |case| Set::of(case).is_some_and(|set| met(&set)))
}

fn planned(name: impl Into<String>, met: impl Fn(&Set) -> bool + 'static) -> Condition {
    set(name, move |set| set.case.accepted() && met(set))
}

/// Each count of axes, and each place of the one that is refused.
fn places() -> Table {
    let mut table = Vec::new();
    for number in 1..=MOST_AXES as u64 {
        let axes = move |set: &Set| set.axes.count == number;
        let refused = move |set: &Set| set.case.field(1) == number.into();
        table.push(planned(format!("{number} axes"), axes));
        table.push(set(format!("axis {number} is refused"), refused));
    }
    table
}

/// Refusals that would be others in a wrong order, or with a count that is cut.
fn order() -> Table {
    let with_13 = |name, met: fn(AxesRefusal) -> bool| {
        let met = move |set: &Set| set.refusal() == 13 && set.all_read().is_err_and(met);
        set(name, met)
    };
    let mut table = vec![
        with_13("13 and 1", |all| all.number == 1),
        with_13("13 and an axis", |all| all.place == 1),
    ];
    for count in WRONG_COUNTS {
        let alone = move |set: &Set| set.axes.count == count && set.all_read().is_ok();
        table.push(set(format!("{count} axes"), alone));
    }
    table
}

/// The displacements of the largest size, and an end that does not fit 64 bits.
fn largest() -> Table {
    let refused = |x| {
        let is = move |set: &Set| set.refusal() == 2 && set.refused().displacement == x;
        set(format!("X = {x}"), is)
    };
    let end = |set: &Set| set.refusal() == 14 && set.refused().ends()[1].abs() > 1 << 63;
    let [least, most] = [i64::MIN, i64::MAX].map(refused);
    vec![least, most, set("14, the end beyond 2^63", end)]
}

/// At rest the bounds and the start alone are asked, wherever the axis stands.
fn at_rest() -> Table {
    let mut table = vec![
        planned("rest first", |set| set.own.first() == Some(&0)),
        planned("rest last", |set| set.own.last() == Some(&0)),
        planned("rest between", |set| {
            let between = |own: &[u64]| own[0] > 0 && own[1] == 0 && own[2] > 0;
            set.own.windows(3).any(between)
        }),
    ];
    for (bound, name) in ["V", "A", "J", "S"].into_iter().enumerate() {
        for edge in [0, 1, LARGEST_BOUND, LARGEST_BOUND + 1] {
            let is = move |motion: &Move| motion.bounds()[bound] == edge;
            table.push(resting(format!("{name} = {edge}"), 3 + bound as i128, is));
        }
    }
    let starts = SPAN_EDGES.map(|(edge, _)| {
        let is = move |motion: &Move| motion.start == edge;
        resting(format!("start = {edge}"), 14, is)
    });
    table.extend(starts);
    table
}

/// An axis at rest is so, and the set is accepted or refused with this number for it.
fn resting(name: String, refusal: i128, is: impl Fn(&Move) -> bool + 'static) -> Condition {
    let is = move |motion: &Move| motion.displacement == 0 && is(motion);
    set(format!("{name} at rest"), move |set| match set.refusal() {
        0 => set.any(|motion, _| is(motion)),
        number => number == refusal && is(set.refused()),
    })
}

/// Which axis is the longest, alone or with others.
fn lengths() -> Table {
    let mut table = vec![
        planned("two are longest", |set| {
            set.axes_of(set.n()) == 2 && set.shorter() > 0
        }),
        planned("three, and none is shorter", |set| {
            set.axes_of(set.n()) == 3 && set.shorter() == 0
        }),
        planned("N = 4,096 beside a short axis", |set| {
            set.n() == 4_096 && set.any(|_, own| (8..=16).contains(&own))
        }),
    ];
    for place in 0..MOST_AXES {
        let longest = move |set: &Set| set.own.get(place) == Some(&set.n());
        let alone = move |set: &Set| longest(set) && set.axes_of(set.n()) == 1;
        let name = format!("axis {} is the longest", place + 1);
        table.push(planned(name, move |set| alone(set) && set.shorter() > 0));
    }
    table
}

/// Shorter axes in both directions, with all that D and the shortfall can do.
fn raised() -> Table {
    let raised = |name, is: fn(i64, Plan, Plan) -> bool| planned(name, move |set| set.raised(is));
    vec![
        raised("D falls, X > 0", |x, own, plan| {
            x > 0 && plan.switched < own.switched
        }),
        raised("D falls, X < 0", |x, own, plan| {
            x < 0 && plan.switched < own.switched
        }),
        raised("no shortfall", |_, _, plan| plan.shortfall == 0),
        raised("D stays", |_, own, plan| plan.switched == own.switched),
    ]
}

/// Samples after an end that is not the set's, and 9 beside other refusals.
fn after_ends() -> Table {
    let after = |own: u64, set: &Set| own > 0 && u128::from(own) < set.case.k();
    let mut table = vec![
        planned("rest away from 0 beside a move", |set| {
            set.any(|motion, own| own == 0 && motion.start != 0)
        }),
        planned("after the own end, X > 0", move |set| {
            set.any(|motion, own| motion.displacement > 0 && after(own, set))
        }),
        planned("after the own end, X < 0", move |set| {
            set.any(|motion, own| motion.displacement < 0 && after(own, set))
        }),
    ];
    for number in [1, 2, 3, 7, 13, 14] {
        let beyond = move |set: &Set| set.refusal() == number && set.case.k() > 4_096;
        table.push(set(format!("{number} and 9"), beyond));
    }
    table
}

/// What rounding does to a raised axis, at a half count and elsewhere.
fn halves() -> Table {
    roundings(|name, are| {
        let name = format!("a raised axis, {name}");
        planned(name, move |set| set.any_shorter(&are))
    })
}
