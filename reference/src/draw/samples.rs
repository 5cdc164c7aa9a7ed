//! What is asked about a move: a sample, or a table of so many places; and a
//! sample of a set.

use super::{axes, halves, starts, Random};
use crate::planner::{plan, plan_axes, Axes, Move, Order, UNITS_PER_COUNT};
use crate::profile::{Profile, State};

/// Any move and a sample.
pub fn of_move(order: Order, random: &mut Random) -> (Move, u64) {
    if random.once_in(16) {
        return halves::of_move(order, random);
    }
    let motion = starts::any(order, random);
    let k = match Profile::of(order, &motion) {
        Ok(profile) => of_profile(&profile, random),
        Err(_) => random.log_uniform(5_000),
    };
    (motion, k)
}

/// Any set and a sample.
pub fn of_axes(random: &mut Random) -> (Axes, u64) {
    if random.once_in(16) {
        return halves::of_axes(random);
    }
    let axes = axes::any(random);
    (axes, of_any_axis(&axes, random))
}

/// A sample by the profile of any moving axis; or after the end that the axis has
/// by itself.
fn of_any_axis(axes: &Axes, random: &mut Random) -> u64 {
    let Ok(set) = plan_axes(axes) else {
        return random.pick(&[0, 9, 4_097, u64::MAX]);
    };
    let axes = axes.moves.iter().zip(&set.plans);
    let moving: Vec<_> = axes.filter(|(_, plan)| plan.samples() > 0).collect();
    let (motion, raised) = random.pick(&moving);
    match plan(Order::Fourth, motion).samples() {
        Some(own) if own < set.samples && random.once_in(3) => random.between(own + 1, set.samples),
        _ => of_profile(&Profile::planned(Order::Fourth, motion, raised), random),
    }
}

/// A sample inside the profile, next to a border of its segments (N is the last),
/// with a position nearest to a half count, or beyond the end.
fn of_profile(profile: &Profile, random: &mut Random) -> u64 {
    let n = profile.samples;
    match random.below(8) {
        0 | 1 => random
            .pick(&borders(profile))
            .saturating_add_signed(random.pick(&[-1, 0, 1])),
        2 => nearest_half(profile),
        3 => random.pick(&[n, n + 1, n + 2, n + (1 << 32), 1 << 63, u64::MAX]),
        _ => random.between(0, n),
    }
}

/// The samples at which segments begin, and N.
fn borders(profile: &Profile) -> Vec<u64> {
    let ends = profile.segments.iter().scan(0, |end, segment| {
        *end += segment.samples as u64;
        Some(*end)
    });
    [0].into_iter().chain(ends).collect()
}

pub fn nearest_half(profile: &Profile) -> u64 {
    let start = profile.first_position();
    let beyond = |state: &State| beyond_half(state.position - start).abs();
    let states = profile.states().map(|(_, state)| state).zip(0..);
    let nearest = states.min_by_key(|(state, _)| beyond(state));
    nearest.map_or(0, |(_, k)| k)
}

/// How far the size of a distance from the start is beyond the middle between two
/// counts; it is negative before it.
pub fn beyond_half(distance: i64) -> i64 {
    let half = UNITS_PER_COUNT as i64 / 2;
    (distance.unsigned_abs() as i64) % (2 * half) - half
}

/// Places for N and `more` rows: none, one too few, just enough, or longer.
pub fn places(order: Order, motion: &Move, more: u64, random: &mut Random) -> u64 {
    let n = plan(order, motion).samples();
    let rows = n.unwrap_or_else(|| random.below(4_097)) + more;
    let [short, long, longer] = [rows - 1, rows + 1, rows + 6];
    random.pick(&[0, short, rows, rows, rows, long, longer, 4_098, 4_200])
}
