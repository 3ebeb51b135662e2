//! Whole tables for texts.

use crate::generate_item::{number, pattern, test};
use crate::random::Random;
use crate::table::*;

pub fn table(random: &mut Random, wild: bool) -> Table {
    let patterns = random.pick(&[0, 0, 1, 1, 1, 2, 2, 3, 4, 8]);
    let tests = random.pick(&[0, 0, 1, 1, 2, 3, 5]);
    counted(random, patterns, tests, wild)
}

/// A table of so many patterns and tests; a ninth or 17th may be asked for.
pub fn counted(random: &mut Random, patterns: usize, tests: usize, wild: bool) -> Table {
    let mut is_pattern = vec![true; patterns];
    is_pattern.resize(patterns + tests, false);
    random.shuffle(&mut is_pattern);
    let mut last_positive = None;
    let mut items = Vec::new();
    for drawn in is_pattern {
        if drawn {
            let pattern = pattern(random, last_positive, wild);
            if !pattern.negated {
                last_positive = Some(pattern.context);
            }
            items.push(Item::Pattern(pattern));
        } else {
            items.push(Item::Test(test(random)));
        }
    }
    let flow = random.pick(&[None, None, Some(Flow::FromClient), Some(Flow::FromServer)]);
    Table { name: name(random), protocol: protocol(random), flow, items }
}

fn protocol(random: &mut Random) -> u64 {
    if random.chance(70) {
        random.pick(&[6, 17, 1])
    } else {
        number(random, 255)
    }
}

pub fn name(random: &mut Random) -> Vec<u8> {
    let length = random.pick(&[1, 1, 2, 5, 9, 20, 63, 64]);
    (0..length).map(|_| random.pick(b"abcdXYZ.09_ |\\:()-")).collect()
}
