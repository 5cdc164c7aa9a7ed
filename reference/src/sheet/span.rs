//! The numbers that may stand at a place of the sheet, and their first bytes.

/// The most digits of a number.
const MOST_DIGITS: usize = 19;

/// The numbers from `least` to `most`, and with `minus` also their negatives.
#[derive(Clone, Copy, Debug, PartialEq, Eq)]
pub struct Span {
    pub least: u64,
    pub most: u64,
    pub minus: bool,
}

impl Span {
    /// The number that these bytes are, if it lies in the span.
    pub fn number(&self, bytes: &[u8]) -> Option<i128> {
        let (sign, least, digits) = self.signed(bytes);
        let size = size(digits)?;
        let inside = (least..=self.most.into()).contains(&size);
        inside.then_some(sign * size as i128)
    }

    /// Whether some number of the span begins with these bytes.
    pub fn can_begin(&self, bytes: &[u8]) -> bool {
        let (_, least, digits) = self.signed(bytes);
        if digits.is_empty() {
            return true;
        }
        let Some(size) = size(digits) else {
            return false;
        };
        // Only the number 0 begins with the digit 0: any more would make it spare.
        let most_more = match size {
            0 => 0,
            _ => MOST_DIGITS - digits.len(),
        };
        // With `more` further digits: from size·10^more to (size+1)·10^more - 1.
        (0..=most_more as u32).any(|more| {
            let power = 10_u128.pow(more);
            size * power <= self.most.into() && (size + 1) * power > least
        })
    }

    /// The sign, the least size that it leaves, and the digits. "-0" is
    /// malformed, so after a minus the least size is 1.
    fn signed<'a>(&self, bytes: &'a [u8]) -> (i128, u128, &'a [u8]) {
        let least = u128::from(self.least);
        match bytes {
            [b'-', digits @ ..] if self.minus => (-1, least.max(1), digits),
            _ => (1, least, bytes),
        }
    }
}

/// The number that the digits are: 1 to 19 of them, and no spare zero.
fn size(digits: &[u8]) -> Option<u128> {
    let counted = (1..=MOST_DIGITS).contains(&digits.len());
    let spare = digits.len() > 1 && digits[0] == b'0';
    if !counted || spare || !digits.iter().all(u8::is_ascii_digit) {
        return None;
    }
    let add = |size, digit: &u8| 10 * size + u128::from(digit - b'0');
    Some(digits.iter().fold(0, add))
}
