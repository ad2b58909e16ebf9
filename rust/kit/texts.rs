//! Digits, and bytes found in others.
use super::memory::{AllocError, Global};

pub mod itoa {
    /// Writes a number's digits so that they end before this place, and answers where they begin.
    #[inline]
    pub fn write_digits(number: u64, bytes: &mut [u8], end: usize) -> usize {
        let (mut left, mut at) = (number, end);
        while left >= 10 {
            at -= 2;
            bytes[at..at + 2].copy_from_slice(&PAIRS[(left % 100) as usize]);
            left /= 100;
        }
        if left > 0 || number == 0 {
            at -= 1;
            bytes[at] = b'0' + left as u8;
        }
        at
    }

    /// Most digits of a number of 128 bits.
    const ROOM: usize = 39;

    /// The digits of one number.
    pub struct Buffer([u8; ROOM]);

    impl Buffer {
        pub fn new() -> Self {
            Buffer([0; ROOM])
        }

        pub fn format<N: Into<u128>>(&mut self, number: N) -> &str {
            let begin = self.write(number.into());
            str::from_utf8(&self.0[begin..]).unwrap_or("")
        }

        /// By 19 digits, as many as 64 bits have room for.
        fn write(&mut self, number: u128) -> usize {
            const PART: u128 = 10_000_000_000_000_000_000;
            let (mut left, mut end) = (number, ROOM);
            while left >= PART {
                let begin = write_digits((left % PART) as u64, &mut self.0, end);
                end -= 19;
                self.0[end..begin].fill(b'0');
                left /= PART;
            }
            write_digits(left as u64, &mut self.0, end)
        }
    }

    /// The numbers below 100, two digits each.
    static PAIRS: [[u8; 2]; 100] = {
        let mut pairs = [[0; 2]; 100];
        let mut number = 0;
        while number < 100 {
            pairs[number] = [b'0' + (number / 10) as u8, b'0' + (number % 10) as u8];
            number += 1;
        }
        pairs
    };
}

/// A number's digits in memory that was asked for.
pub trait ToStringIn {
    fn to_string_in(&self, alloc: Global) -> Result<String, AllocError>;
}

impl ToStringIn for u64 {
    fn to_string_in(&self, _: Global) -> Result<String, AllocError> {
        let mut text = String::new();
        text.try_reserve_exact(20)?;
        text.push_str(itoa::Buffer::new().format(*self));
        Ok(text)
    }
}

impl ToStringIn for u32 {
    fn to_string_in(&self, alloc: Global) -> Result<String, AllocError> {
        u64::from(*self).to_string_in(alloc)
    }
}

impl ToStringIn for usize {
    fn to_string_in(&self, alloc: Global) -> Result<String, AllocError> {
        (*self as u64).to_string_in(alloc)
    }
}

pub mod memchr {
    /// The first place that has the byte. (It is looked for in words, so the next place is seldom far.)
    #[inline]
    pub fn memchr(needle: u8, haystack: &[u8]) -> Option<usize> {
        haystack.iter().position(|byte| *byte == needle)
    }
}
