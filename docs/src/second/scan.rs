//! A scanner over one option's bytes: form first, limits noted on the way.
//!
//! It takes a byte only if the option so far still begins one of its form. So where a
//! scanner finds nothing (`None`) the scan stands at the wrong byte, or at the end of a
//! text that stops too soon: the place of refusal 6 (document 02, T-02). A number too
//! great does not stop the scan, since 6 comes before 7; the place of the first is kept.

use crate::words::{begins, meaning};

pub struct Scan<'a> {
    text: &'a [u8],
    at: usize,
    beyond: Option<usize>,
}

impl<'a> Scan<'a> {
    pub fn new(text: &'a [u8], at: usize) -> Scan<'a> {
        Scan { text, at, beyond: None }
    }

    /// The place of the next byte, counted from the text's first.
    pub fn at(&self) -> usize {
        self.at
    }

    /// The place of the first number or name beyond its limit.
    pub fn beyond(&self) -> Option<usize> {
        self.beyond
    }

    pub fn note_beyond(&mut self, place: usize) {
        self.beyond.get_or_insert(place);
    }

    /// The next byte, taken only if it belongs.
    pub fn take(&mut self, belongs: impl Fn(u8) -> bool) -> Option<u8> {
        let byte = self.text.get(self.at).copied().filter(|byte| belongs(*byte))?;
        self.at += 1;
        Some(byte)
    }

    /// A byte that may stand here.
    pub fn eat(&mut self, byte: u8) -> bool {
        self.take(|next| next == byte).is_some()
    }

    /// A byte that must stand here.
    pub fn due(&mut self, byte: u8) -> Option<()> {
        self.eat(byte).then_some(())
    }

    pub fn spaces(&mut self) {
        while self.eat(b' ') {}
    }

    pub fn run(&mut self, belongs: impl Fn(u8) -> bool) -> &'a [u8] {
        let start = self.at;
        while self.take(&belongs).is_some() {}
        &self.text[start..self.at]
    }

    /// A keyword or sign of the list, in any letter case: as many bytes as a listed one
    /// goes on with, so that `<=` is not `<` and then `=`.
    pub fn listed<T: Copy>(&mut self, list: &[(&str, T)]) -> Option<T> {
        let start = self.at;
        while self.at < self.text.len() && begins(list, &self.text[start..=self.at]) {
            self.at += 1;
        }
        meaning(list, &self.text[start..self.at])
    }

    pub fn digit(&mut self, base: u32) -> Option<u32> {
        let digit = char::from(*self.text.get(self.at)?).to_digit(base)?;
        self.at += 1;
        Some(digit)
    }

    /// Decimal digits, any number of them, leading zeros allowed.
    pub fn number(&mut self, limit: u64) -> Option<u64> {
        self.digits(10, limit)
    }

    /// Decimal, or `0x` or `0X` and hex digits: the four field tests and a byte test's value.
    pub fn number_or_hex(&mut self, limit: u64) -> Option<u64> {
        if let [b'0', b'x' | b'X', ..] = self.text[self.at..] {
            self.at += 2;
            return self.digits(16, limit);
        }
        self.number(limit)
    }

    /// A value too great for 64 bits stays at the greatest: it never wraps.
    fn digits(&mut self, base: u32, limit: u64) -> Option<u64> {
        let first = self.at;
        let mut value = u64::from(self.digit(base)?);
        while let Some(digit) = self.digit(base) {
            value = value.saturating_mul(u64::from(base)).saturating_add(u64::from(digit));
        }
        if value > limit {
            self.note_beyond(first);
        }
        Some(value)
    }
}
