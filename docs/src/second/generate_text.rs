//! Texts: of every spelling, on both sides of every limit, and damaged ones.

use crate::damage::{damage, outside_byte};
use crate::generate_item::{address, byte, number};
use crate::generate_long::{self, plain_bytes};
use crate::generate_table::{counted, name, table};
use crate::house::house_text;
use crate::limits::{FORMER_LONGEST_TEXT, LONGEST_HOUSE_TEXT, LONGEST_TEXT};
use crate::odd;
use crate::random::Random;
use crate::spell::Spell;
use crate::table::*;

pub fn text(random: &mut Random) -> Vec<u8> {
    let mut text = match random.below(100) {
        0..=27 => spelled(random, false),
        28 | 29 => with_long_patterns(random),
        30..=39 => spelled(random, true),
        40..=47 => at_a_count(random),
        48..=53 => of_length(random),
        54..=59 => of_house_length(random),
        60..=77 => with_odd_options(random),
        78..=82 => incomplete(random),
        83..=93 => damaged(random),
        94..=96 => with_outside_byte(random),
        _ => odd_frame(random),
    };
    // A text is one line.
    text.retain(|byte| *byte != b'\n');
    text
}

fn spelled(random: &mut Random, wild: bool) -> Vec<u8> {
    let table = table(random, wild);
    Spell::any(random).text(&table)
}

/// 8 or 9 patterns, 16 or 17 tests, 8 or 9 addresses, a name of 64 or 65 bytes.
fn at_a_count(random: &mut Random) -> Vec<u8> {
    let mut table = match random.below(4) {
        0 => {
            let (patterns, tests) = (random.pick(&[7, 8, 9]), random.index(3));
            counted(random, patterns, tests, false)
        }
        1 => {
            let (patterns, tests) = (random.index(3), random.pick(&[15, 16, 17]));
            counted(random, patterns, tests, false)
        }
        _ => table(random, false),
    };
    if random.chance(50) {
        let count = random.pick(&[7, 8, 9]);
        let list = (0..count).map(|_| address(random)).collect();
        let side = random.pick(&[Side::Source, Side::Destination]);
        let at = random.index(table.items.len() + 1);
        table.items.insert(at, Item::Test(Test::Address { side, negated: false, list }));
    }
    if random.chance(30) {
        table.name = vec![b'n'; random.pick(&[63, 64, 65])];
    }
    let compact = random.chance(50);
    let mut spell = if compact { Spell::compact(random) } else { Spell::any(random) };
    spell.text(&table)
}

/// Within two bytes of the longest text, or of what it was before T-11, filled up with spaces
/// or by a long pattern.
fn of_length(random: &mut Random) -> Vec<u8> {
    let limit = random.pick(&[LONGEST_TEXT, FORMER_LONGEST_TEXT]);
    let length = limit - 2 + random.pick(&[0, 1, 2, 2, 3, 4]);
    let table = table(random, false);
    let mut spell = Spell::any(random);
    let mut options = spell.options(&table);
    let text = spell.frame(&options);
    let missing = length.max(text.len()) - text.len();
    if missing < 13 || random.chance(50) {
        let mut text = text;
        let fill = " ".repeat(missing).into_bytes();
        let at = if random.chance(50) { 7 } else { text.len() - 1 };
        text.splice(at..at, fill);
        return text;
    }
    let bytes = plain_bytes(random, missing - 13);
    options.push(format!("--pattern \"{}\";", String::from_utf8_lossy(&bytes)));
    Spell::compact(random).frame(&options)
}

/// A text whose house text has from three bytes less to four more than the longest, or than
/// what was the longest before T-11.
fn of_house_length(random: &mut Random) -> Vec<u8> {
    let tests = random.index(4);
    let mut table = counted(random, 1, tests, false);
    // Written as ip.id, each ip_id is two bytes longer than it is spelled.
    for _ in 0..random.pick(&[0, 0, 1, 2]) {
        table.items.push(Item::Test(Test::ip_id(number(random, 65535))));
    }
    let fill = |bytes: Vec<u8>, table: &mut Table| {
        for item in &mut table.items {
            if let Item::Pattern(pattern) = item {
                pattern.bytes = bytes.clone();
            }
        }
    };
    let special = random.index(12);
    let mut bytes: Vec<u8> = (0..special).map(|_| byte(random)).collect();
    bytes.push(b'A');
    fill(bytes.clone(), &mut table);
    let limit = random.pick(&[LONGEST_HOUSE_TEXT, FORMER_LONGEST_TEXT]);
    let length = limit - 3 + random.index(8);
    let missing = length.saturating_sub(house_text(&table).len());
    bytes.extend(plain_bytes(random, missing));
    fill(bytes, &mut table);
    Spell::compact(random).text(&table)
}

/// Pattern bytes beyond what a table once held, now and then with something wrong among or
/// after them, so that great places come up.
fn with_long_patterns(random: &mut Random) -> Vec<u8> {
    let table = generate_long::table(random);
    let compact = random.chance(80);
    let mut spell = if compact { Spell::compact(random) } else { Spell::any(random) };
    let mut options = spell.options(&table);
    if spell.random.chance(25) {
        let at = spell.random.index(options.len() + 1);
        options.insert(at, odd::option(spell.random));
    }
    let mut text = spell.frame(&options);
    if random.chance(20) {
        damage(random, &mut text);
    }
    if random.chance(5) {
        outside_byte(random, &mut text);
    }
    text
}

/// One or two odd options among good ones, so that the order of refusals shows.
fn with_odd_options(random: &mut Random) -> Vec<u8> {
    let (patterns, tests) = (random.index(3), random.index(3));
    let table = counted(random, patterns, tests, false);
    let mut spell = Spell::any(random);
    let mut options = spell.options(&table);
    for _ in 0..spell.random.pick(&[1, 1, 1, 2]) {
        let at = spell.random.index(options.len() + 1);
        let option = odd::option(spell.random);
        // Often in the place of the option that would else be given twice.
        let known = option.split([' ', ';']).next().unwrap_or("").to_ascii_lowercase();
        let once = ["--name", "--protocol", "--flow"].contains(&known.as_str());
        let twin = options.iter().position(|other| other.to_ascii_lowercase().starts_with(&known));
        match twin {
            Some(twin) if once && spell.random.chance(70) => options[twin] = option,
            _ => options.insert(at, option),
        }
    }
    spell.frame(&options)
}

/// Name or protocol missing, an option given again, or the order turned round.
fn incomplete(random: &mut Random) -> Vec<u8> {
    let table = table(random, false);
    let mut spell = Spell::any(random);
    let mut options = spell.options(&table);
    match spell.random.below(5) {
        0 => options.retain(|option| !option.to_ascii_lowercase().starts_with("--name")),
        1 => options.retain(|option| !option.to_ascii_lowercase().starts_with("--protocol")),
        2 => {
            let again = spell.random.pick(&options);
            let at = spell.random.index(options.len() + 1);
            options.insert(at, again);
        }
        3 => options.reverse(),
        _ => spell.random.shuffle(&mut options),
    }
    spell.frame(&options)
}

fn damaged(random: &mut Random) -> Vec<u8> {
    let mut text = spelled(random, false);
    damage(random, &mut text);
    text
}

fn with_outside_byte(random: &mut Random) -> Vec<u8> {
    let mut text = spelled(random, false);
    outside_byte(random, &mut text);
    if random.chance(30) {
        damage(random, &mut text);
    }
    text
}

/// What stands round the options: opening, early `)`, end.
fn odd_frame(random: &mut Random) -> Vec<u8> {
    if random.chance(30) {
        let short = [
            "",
            " ",
            "F-SBID",
            "F-SBID(",
            "F-SBID()",
            "F-SBID( )",
            "F-SBID())",
            "F-SBID ()",
            " F-SBID()",
            "f-sbid()",
            "F-SBID(-",
            "F-SBID(--",
            "F-SBID(-)",
            "F-SBID(;)",
            "F-SBID() ",
        ];
        return random.pick(&short).as_bytes().to_vec();
    }
    let mut table = table(random, false);
    table.name = name(random);
    let text = Spell::any(random).text(&table);
    let inner = &text[7..text.len() - 1];
    let opening = random.pick(&[
        "F-SBID(", "F-SBID(", "F-SBID(", "F-sBID(", "F-SBID (", "SBID(", " F-SBID(", "F-SBID((",
    ]);
    let end = random.pick(&[
        ")",
        ") ",
        "))",
        ")  )",
        "",
        " ",
        ";)",
        "-",
        "-)",
        "--",
        ") --same_ip;)",
        "x)",
        ")x",
    ]);
    [opening.as_bytes(), inner, end.as_bytes()].concat()
}
