//! Looking for a pattern's bytes in a part of a field.

pub struct Finder {
    bytes: Vec<u8>,
    no_case: bool,
    /// The first byte, in both cases where they are alike.
    first: [u8; 2],
}

impl Finder {
    pub fn new(bytes: &[u8], no_case: bool) -> Finder {
        let first = bytes[0];
        let other = if no_case { swapped(first) } else { first };
        Finder { bytes: bytes.to_vec(), no_case, first: [first, other] }
    }

    /// The least start from `from` at which all the bytes stand before `end`.
    pub fn find(&self, field: &[u8], from: usize, end: usize) -> Option<usize> {
        let last = end.checked_sub(self.bytes.len())?;
        let mut at = from;
        while at <= last {
            let [one, other] = self.first;
            let ahead = field[at..=last].iter().position(|byte| *byte == one || *byte == other)?;
            at += ahead;
            if self.stands(&field[at..at + self.bytes.len()]) {
                return Some(at);
            }
            at += 1;
        }
        None
    }

    fn stands(&self, bytes: &[u8]) -> bool {
        if self.no_case {
            bytes.eq_ignore_ascii_case(&self.bytes)
        } else {
            bytes == self.bytes
        }
    }
}

fn swapped(letter: u8) -> u8 {
    if letter.is_ascii_alphabetic() {
        letter ^ 0x20
    } else {
        letter
    }
}
