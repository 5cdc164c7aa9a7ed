//! Sets of eight axes, against one move, and against eight one by one.

use super::contest::{Contest, Timed};
use super::inputs::{moves_of, planned_mix};
use super::{agree, Section};
use crate::library::{self, Axes};
use reference::planner::{plan, Move, Order, MOST_AXES};
use reference::request::Request;

/// A set takes at most the time of eight moves and a half.
const AIM: Option<f64> = Some(8.5);

/// A set, eight moves that are as long as the set, and a sample of all.
type Ask = (Axes, [Move; MOST_AXES], u64);

pub fn section() -> Result<Section, String> {
    let mut contests = vec![planned()?];
    for n in [8, 64, 512, 4096] {
        contests.push(sampled(format!("sample {} of {n}", n / 2), moves_of(n))?);
    }
    contests.push(sampled("middle sample, any N".into(), planned_mix())?);
    Ok(Section {
        title: "Sets of eight axes",
        contests,
    })
}

/// For each move a set of it and the seven that follow it in the list.
fn sets(moves: &[Move]) -> Vec<Axes> {
    let count = MOST_AXES as u64;
    let following = |first| std::array::from_fn(|place| moves[(first + place) % moves.len()]);
    let set = |first| Axes {
        count,
        moves: following(first),
    };
    (0..moves.len()).map(set).collect()
}

/// Every planned move is in one set. One plan is of another move of its set in each
/// round over the sets, so that both sides plan the same moves as often.
fn planned() -> Result<Box<dyn Timed>, String> {
    let sets: Vec<Axes> = sets(&planned_mix())
        .into_iter()
        .step_by(MOST_AXES)
        .collect();
    for axes in &sets {
        agree(&Request::PlanAxes(*axes))?;
    }
    let round = sets.len();
    let what = format!("{round} sets of planned moves");
    let contest = Contest::new(what, None, sets, Box::new((0, 0)))
        .archive(|axes, _| library::plan_axes(*axes))
        .against("1 plan", AIM, move |axes, (call, place)| {
            *call += 1;
            if *call == round {
                (*call, *place) = (0, (*place + 1) % MOST_AXES);
            }
            library::plan_move(axes.moves[*place])
        })
        .against("8 plans", None, |axes, _| {
            axes.moves.map(library::plan_move)
        });
    Ok(contest.ready())
}

fn sampled(what: String, moves: Vec<Move>) -> Result<Box<dyn Timed>, String> {
    let asks: Vec<Ask> = sets(&moves).into_iter().map(middle).collect();
    for (axes, _, k) in &asks {
        agree(&Request::SampleAxes(*axes, *k))?;
    }
    let contest = Contest::new(what, None, asks, Box::new(()))
        .archive(|(axes, _, k), _| library::sample_axes(*axes, *k))
        .against("1 sample", AIM, |(_, moves, k), _| {
            library::sample_move(moves[0], *k)
        })
        .against("8 samples", None, |(_, moves, k), _| {
            moves.map(|motion| library::sample_move(motion, *k))
        });
    Ok(contest.ready())
}

/// The sample in the middle. By itself a shorter axis may have ended before it: one
/// of the longest stands in its place.
fn middle(axes: Axes) -> Ask {
    let n = |motion: &Move| plan(Order::Fourth, motion).samples();
    let longest = axes.moves.into_iter().max_by_key(n);
    let longest = longest.expect("eight moves");
    let alike = axes.moves.map(|motion| match n(&motion) == n(&longest) {
        true => motion,
        false => longest,
    });
    (axes, alike, n(&longest).unwrap_or(0) / 2)
}
