//! Words and numbers put into a buffer.

use crate::library::REPORT_BYTES;

pub struct Output<'a> {
    pub buffer: &'a mut [u8; REPORT_BYTES],
    /// The bytes written so far.
    pub length: usize,
}

impl Output<'_> {
    pub fn put(&mut self, bytes: &[u8]) {
        let end = self.length + bytes.len();
        self.buffer[self.length..end].copy_from_slice(bytes);
        self.length = end;
    }

    pub fn put_number(&mut self, words: &str, mut number: u64) {
        self.put(words.as_bytes());
        let mut digits = [0; 20];
        let mut first = digits.len();
        loop {
            first -= 1;
            digits[first] = b'0' + (number % 10) as u8;
            number /= 10;
            if number == 0 {
                break;
            }
        }
        self.put(&digits[first..]);
    }
}
