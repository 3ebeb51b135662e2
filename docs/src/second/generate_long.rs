//! Long patterns: tables and messages whose pattern bytes pass what a table once held.

use crate::generate_item::byte;
use crate::generate_table::counted;
use crate::limits::{FORMER_LONGEST_TEXT, LONGEST_DECODED, LONGEST_PACKET, LONGEST_TEXT};
use crate::random::Random;
use crate::table::{Item, Table};

/// Bytes that stand for themselves; no two long stretches of them are alike.
pub fn plain_bytes(random: &mut Random, count: usize) -> Vec<u8> {
    (0..count).map(|_| random.pick(b"abcdefghXYZ0123456789. ")).collect()
}

/// A table with about as many pattern bytes as there once was room for, or more.
pub fn table(random: &mut Random) -> Table {
    let (patterns, tests) = (random.pick(&[1, 1, 2, 3, 8]), random.index(3));
    let mut table = counted(random, patterns, tests, false);
    let near = FORMER_LONGEST_TEXT as u64 - 1 + random.below(4);
    let any = random.between(near, LONGEST_TEXT as u64 - 200);
    let mut left = random.pick(&[near, any, any]) as usize;
    let mut patterns_left = patterns;
    for item in &mut table.items {
        let Item::Pattern(pattern) = item else { continue };
        patterns_left -= 1;
        let share = if patterns_left == 0 { left } else { random.index(left) };
        left -= share;
        pattern.bytes = if share < 400 && random.chance(30) {
            (0..share.max(1)).map(|_| byte(random)).collect()
        } else {
            plain_bytes(random, share.max(1))
        };
    }
    table
}

/// A payload or a decoded buffer that is long, the other one short; a line has room for one.
pub fn fields(random: &mut Random, alphabet: &[u8]) -> (Vec<u8>, Vec<u8>) {
    let least = FORMER_LONGEST_TEXT as u64 - 2;
    // The longest headers that are drawn have 120 bytes.
    let payload = random.between(least, LONGEST_PACKET as u64 - 130);
    let decoded = random.between(least, LONGEST_DECODED as u64);
    let (payload, decoded) = random.pick(&[(payload, 20), (payload, 0), (20, decoded)]);
    let mut drawn = |count: u64| (0..count).map(|_| random.pick(alphabet)).collect();
    (drawn(payload), drawn(decoded))
}

/// How many patterns, and the lengths they are drawn from: most texts stay within the limit.
pub fn patterns(random: &mut Random) -> (usize, &'static [usize]) {
    const FORMER: usize = FORMER_LONGEST_TEXT;
    match random.below(3) {
        0 => (1, &[FORMER - 1, FORMER, FORMER + 1, FORMER + 2, 1500, 1900, 3000, 3900]),
        1 => (random.pick(&[2, 3]), &[2, 600, 1000, FORMER - 1, FORMER, FORMER + 1, 1100]),
        _ => (random.between(4, 8) as usize, &[3, 128, 129, 200, 300, 400]),
    }
}
