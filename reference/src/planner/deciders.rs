//! Which search, or which "never below", gives an interval its value.

use super::intervals::Intervals;

/// An interval, the value it is never below, and its searches.
struct Row {
    value: u128,
    lower_limit: u128,
    searches: Vec<u128>,
}

/// The rows of a, b, c and e. For a the limit is 0: it has none of its own.
fn rows(found: &Intervals) -> [Row; 4] {
    let row = |value, lower_limit, searches: &[u128]| Row {
        value,
        lower_limit,
        searches: searches.to_vec(),
    };
    let (a, b, c) = (found.a, found.b, found.c);
    [
        row(a, 0, &found.searches.a),
        row(b, a, &found.searches.b),
        row(c, a + b, &found.searches.c),
        row(found.e, a + b + c, &found.searches.e),
    ]
}

/// The searches, numbered 0 to 9, that alone give their interval: the interval
/// equals it, is above its lower limit, and every other search of it is larger.
pub fn deciding_searches(found: &Intervals) -> Vec<usize> {
    let mut numbers = Vec::new();
    let mut number = 0;
    for row in rows(found) {
        let equal = row.searches.iter().filter(|n| **n == row.value).count();
        for n in &row.searches {
            if *n == row.value && equal == 1 && row.value > row.lower_limit {
                numbers.push(number);
            }
            number += 1;
        }
    }
    numbers
}

/// The intervals, 1 for b to 3 for e, whose "never below" alone gives the
/// value: the interval is above every one of its searches.
pub fn deciding_lower_limits(found: &Intervals) -> Vec<usize> {
    let above_all = |row: &Row| row.searches.iter().all(|n| *n < row.value);
    let rows = rows(found);
    (1..rows.len()).filter(|k| above_all(&rows[*k])).collect()
}
