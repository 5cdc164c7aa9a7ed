//! The search behind every interval.

/// The least whole number from 1 up with the property ("least n" in the paper).
///
/// The property must be monotone: where it holds, it holds for every larger
/// number. Without a cap it must hold somewhere, or the search does not end.
pub fn least(holds: impl Fn(u128) -> bool) -> u128 {
    let mut high = 1;
    while !holds(high) {
        high *= 2;
    }
    // `high` has the property; `low` lacks it, or is 0, which is not counted.
    let mut low = high / 2;
    while high - low > 1 {
        let middle = low + (high - low) / 2;
        if holds(middle) {
            high = middle;
        } else {
            low = middle;
        }
    }
    high
}
