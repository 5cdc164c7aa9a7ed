//! Moves: most can be planned, and many stand at the edge of a rule.

use super::{paper, Random};
use crate::planner::{plan, Move, Order};
use crate::planner::{LARGEST_BOUND, LARGEST_DISPLACEMENT, UNITS_PER_COUNT};

/// Displacements at which a move is allowed or not, with the refusal.
pub const DISPLACEMENT_EDGES: [(i64, i128); 9] = [
    (0, 1),
    (1, 0),
    (-1, 0),
    (1_048_576, 0),
    (-1_048_576, 0),
    (1_048_577, 2),
    (-1_048_577, 2),
    (i64::MIN, 2),
    (i64::MAX, 2),
];

/// Bounds at which a move is allowed or not, and which it is.
pub const BOUND_EDGES: [(u64, bool); 5] = [
    (0, false),
    (1, true),
    (1 << 50, true),
    ((1 << 50) + 1, false),
    (u64::MAX, false),
];

/// Any move for plans of an order, from start 0; in third order S is anything.
pub fn any(order: Order, random: &mut Random) -> Move {
    let mut motion = match random.below(16) {
        0 => random.pick(&paper::moves()),
        1 | 2 => at_edges(order, random),
        3 => independent(random),
        4 | 5 => shortened(order, random),
        6 | 7 => {
            let motion = exact(order, random);
            varied(motion, random)
        }
        8 | 9 => few_digits(order, random),
        10..=12 => {
            let motion = led_to(order, true, random);
            varied(motion, random)
        }
        _ => led_to(order, false, random),
    };
    if order == Order::Third {
        let (edge, any) = (random.pick(&BOUND_EDGES).0, random.log_uniform(u64::MAX));
        motion.snap = random.pick(&[edge, any]);
    }
    motion
}

/// A move that is accepted.
pub fn planned(random: &mut Random) -> Move {
    loop {
        let motion = any(Order::Fourth, random);
        if plan(Order::Fourth, &motion).samples().is_some() {
            return motion;
        }
    }
}

/// Numbers of samples: short, any, and next to the most that are allowed.
fn samples(random: &mut Random) -> u64 {
    match random.below(8) {
        0 | 1 => random.between(4_095, 4_098),
        2..=4 => 8 + random.log_uniform(4_096),
        _ => random.between(8, 4_200),
    }
}

/// Intervals a, b, c and e of this many samples, or up to 7 less (3 in third order).
fn intervals(order: Order, samples: u64, random: &mut Random) -> [u64; 4] {
    let mut durations = [0; 4];
    let mut rest = samples;
    // In third order p is 0, and so is a.
    let first = 4 - order as usize;
    // The last of p, q, r and s that is not 0 takes all that is left.
    let last = first + random.below(4 - first as u64) as usize;
    let units = [8, 4, 2, 1].into_iter().enumerate();
    for (k, unit) in units.take(last + 1).skip(first) {
        let most = rest / unit;
        durations[k] = match k {
            _ if k == last => most,
            _ if k == first => random.log_uniform(most).max(1),
            _ if random.once_in(2) => 0,
            _ => random.log_uniform(most),
        };
        rest -= durations[k] * unit;
    }
    let [p, q, r, s] = durations;
    let (a, b, c) = (p, p + q, 2 * p + q + r);
    [a, b, c, a + b + c + s]
}

/// A displacement of either sign, not 0 and not above the largest in size.
fn displacement(largest: u64, random: &mut Random) -> i64 {
    let size = random.log_uniform(largest.min(LARGEST_DISPLACEMENT)).max(1);
    random.pick(&[1, -1]) * size as i64
}

/// A move made backwards from intervals: each bound is what its last search needs
/// for them, so that they, or near ones, come out. With `any_search` it is what any
/// of its searches needs, and that one need not decide.
fn led_to(order: Order, any_search: bool, random: &mut Random) -> Move {
    let samples = samples(random);
    let intervals = intervals(order, samples, random).map(u128::from);
    let largest = match any_search {
        true => LARGEST_DISPLACEMENT,
        // Then the velocity is in range.
        false => 1_024 * intervals[3] as u64,
    };
    let x = displacement(largest, random);
    let searches = [2, 3, 4].map(|count| match any_search {
        true => random.below(count),
        false => 0,
    });
    bounded(x, intervals, searches, random)
}

/// A move of X with V, A, J and S for these intervals, each by one of its searches.
/// Without an a the order is the third, and S is not read.
pub fn bounded(x: i64, intervals: [u128; 4], searches: [u64; 3], random: &mut Random) -> Move {
    let [a, b, c, e] = intervals;
    let w = UNITS_PER_COUNT * u128::from(x.unsigned_abs());
    let velocity = bound(w, e, |n| n, random);
    let acceleration = match searches[0] {
        0 => bound(velocity, c, |n| n, random),
        _ => bound(w, c, |n| n * (a + b + n), random),
    };
    let jerk = match searches[1] {
        0 => bound(acceleration, b, |n| n, random),
        1 => bound(velocity, b, |n| n * (a + n), random),
        _ => bound(w, b, |n| 2 * n * (a + n).pow(2), random),
    };
    let snap = match searches[2] {
        _ if a == 0 => jerk,
        0 => bound(jerk, a, |n| n, random),
        1 => bound(acceleration, a, |n| n.pow(2), random),
        2 => bound(velocity, a, |n| 2 * n.pow(3), random),
        _ => bound(w, a, |n| 8 * n.pow(4), random),
    };
    let bounds = [velocity, acceleration, jerk, snap];
    Move::new(x, bounds.map(|bound| bound as u64))
}

/// A bound for which n is the least with bound·factor(n) ≥ target: the smallest,
/// the largest or any such bound, as far as one is in range.
fn bound(target: u128, n: u128, factor: impl Fn(u128) -> u128, random: &mut Random) -> u128 {
    let least = target.div_ceil(factor(n));
    let most = match factor(n - 1) {
        0 => LARGEST_BOUND.into(),
        less => target.div_ceil(less) - 1,
    };
    let [least, most] = [least, most].map(|value| value.clamp(1, LARGEST_BOUND.into()) as u64);
    let any = random.between(least, most);
    random.pick(&[least, most, any]).into()
}

/// A move without a shortfall, in which a by J, b by A, c by V and e by W hold with
/// equality. Its snap has many zeros at its end, so that positions come to stand at
/// half counts.
fn exact(order: Order, random: &mut Random) -> Move {
    loop {
        let samples = random.between(8, 60);
        let [a, b, c, e] = intervals(order, samples, random).map(u128::from);
        // In third order the snap stands for the jerk.
        let a = a.max(1);
        let snap = u128::from(2 * random.below(8) + 1) << random.between(30, 40);
        let velocity = snap * a * b * c;
        let (counts, left) = (
            velocity * e / UNITS_PER_COUNT,
            velocity * e % UNITS_PER_COUNT,
        );
        let bounds = [velocity, snap * a * b, snap * a, snap].map(|bound| bound as u64);
        let in_range = counts <= LARGEST_DISPLACEMENT.into() && velocity <= LARGEST_BOUND.into();
        if left == 0 && in_range {
            return Move::new(random.pick(&[1, -1]) * counts as i64, bounds);
        }
    }
}

/// The move as it is, with a number one off, or with bounds so much larger that
/// other searches decide.
fn varied(motion: Move, random: &mut Random) -> Move {
    let Move { displacement, .. } = motion;
    let mut bounds = motion.bounds();
    match random.below(4) {
        0 => return Move::new(displacement + random.pick(&[1, -1]), bounds),
        1 => {
            let place = random.below(4) as usize;
            bounds[place] = bounds[place].wrapping_add_signed(random.pick(&[1, -1]));
        }
        2 => bounds = bounds.map(|bound| larger(bound, random)),
        _ => {}
    }
    Move::new(displacement, bounds)
}

fn larger(bound: u64, random: &mut Random) -> u64 {
    match random.below(3) {
        0 => bound,
        1 => LARGEST_BOUND,
        _ => bound
            .saturating_mul(1 + random.log_uniform(1 << 20))
            .min(LARGEST_BOUND),
    }
}

/// Bounds of four binary digits: a product past 64 bits leaves little there.
fn few_digits(order: Order, random: &mut Random) -> Move {
    let motion = led_to(order, true, random);
    let cut = |bound: u64| {
        let zeros = 60_u32.saturating_sub(bound.leading_zeros());
        (bound >> zeros) << zeros
    };
    let bounds = motion.bounds().map(|bound| larger(bound, random));
    Move::new(motion.displacement, bounds.map(cut))
}

/// Numbers that have nothing to do with each other.
fn independent(random: &mut Random) -> Move {
    let bounds = [0; 4].map(|_| random.log_uniform(LARGEST_BOUND).max(1));
    Move::new(displacement(LARGEST_DISPLACEMENT, random), bounds)
}

/// Such a move with its displacement halved until it can be planned, if it can.
fn shortened(order: Order, random: &mut Random) -> Move {
    let mut motion = independent(random);
    while motion.displacement.abs() > 1 && plan(order, &motion).samples().is_none() {
        motion.displacement /= 2;
    }
    motion
}

/// One or two numbers at an edge or next to it: where both are refused, the
/// lower refusal counts.
fn at_edges(order: Order, random: &mut Random) -> Move {
    let mut motion = led_to(order, false, random);
    for _ in 0..random.between(1, 2) {
        let step = random.pick(&[-1, 0, 0, 1]);
        match random.below(5) as usize {
            4 => {
                let (edge, _) = random.pick(&DISPLACEMENT_EDGES);
                motion.displacement = edge.wrapping_add(step);
            }
            place => {
                let (edge, _) = random.pick(&BOUND_EDGES);
                let mut bounds = motion.bounds();
                bounds[place] = edge.wrapping_add_signed(step);
                motion = Move::new(motion.displacement, bounds);
            }
        }
    }
    motion
}

/// A move of n samples, 8 or more, with each bound just large enough for its
/// interval; so many sixteenths of n belong to p, to q and to r, the rest to s. In
/// third order q has those of p, which is 0.
pub fn of_samples(order: Order, n: u64, [p, q, r]: [u64; 3]) -> Move {
    let (a, q) = match order {
        Order::Third => (0, p + q),
        Order::Fourth => ((n * p / 16 / 8).max(1), q),
    };
    let b = (a + (n * q / 16).min(n - 8 * a) / 4).max(1);
    let c = a + b + (n * r / 16).min(n - 4 * (a + b)) / 2;
    let e = n - a - b - c;
    let velocity = 100 * UNITS_PER_COUNT as u64;
    let acceleration = velocity.div_ceil(c);
    let jerk = acceleration.div_ceil(b);
    let bounds = [velocity, acceleration, jerk, jerk.div_ceil(a.max(1))];
    Move::new(100 * e as i64, bounds)
}
