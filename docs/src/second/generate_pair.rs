//! Two books, the one got from the other: rules taken out, put in, switched, spelled anew or
//! changed in one small part; a few pairs have a refused book.

use crate::damage::damage;
use crate::generate_book;
use crate::generate_edit::edit;
use crate::generate_item::address;
use crate::generate_long;
use crate::generate_table::{counted, table};
use crate::generate_text;
use crate::limits::{LONGEST_BOOK, LONGEST_TEXT, MOST_ADDRESSES, MOST_RULES};
use crate::random::Random;
use crate::reader::read;
use crate::spell::Spell;
use crate::table::*;
use std::collections::BTreeMap;

#[derive(Clone)]
struct Rule {
    on: bool,
    pass: bool,
    text: Vec<u8>,
}

type Rules = BTreeMap<u64, Rule>;

pub fn pair(seed: u64) -> [Vec<u8>; 2] {
    let mut random = Random::new(seed);
    let random = &mut random;
    let first = rules(random);
    let second = edited(random, &first);
    let mut books = [print(random, &first), print(random, &second)];
    if random.chance(50) {
        books.reverse();
    }
    if random.chance(12) {
        let which = random.index(2);
        spoil(random, &mut books[which]);
        // Now and then both.
        if random.chance(30) {
            spoil(random, &mut books[1 - which]);
        }
    }
    books
}

fn rules(random: &mut Random) -> Rules {
    let count = match random.below(20) {
        0 => 0,
        1 => MOST_RULES as u64,
        2 => random.between(30, 64),
        3..=6 => random.between(8, 20),
        _ => random.between(1, 6),
    };
    let step = random.pick(&[1, 1, 3, 30, 900]);
    let mut number = random.pick(&[0, 0, 0, 7, 90, 9990, 65535 - count, 65535 - count]);
    let mut rules = Rules::new();
    for _ in 0..count {
        number += random.between(1, step);
        if number <= 65535 {
            rules.insert(number, rule(random));
        }
    }
    rules
}

fn rule(random: &mut Random) -> Rule {
    let table = drawn(random);
    let text = spelled(random, &table).unwrap_or_else(|| generate_book::simple(6));
    Rule { on: random.chance(70), pass: random.chance(50), text }
}

fn drawn(random: &mut Random) -> Table {
    match random.below(40) {
        0 => counted(random, 8, 16, false),
        1 => generate_long::table(random),
        2 => over_the_limit(random),
        3 | 4 => {
            let list = (0..MOST_ADDRESSES).map(|_| address(random)).collect();
            let mut table = table(random, false);
            let side = random.pick(&[Side::Source, Side::Destination]);
            table.items.push(Item::Test(Test::Address { side, negated: false, list }));
            table
        }
        5 => counted(random, 0, 0, false),
        _ => table(random, false),
    }
}

/// Its house text is longer than may be; spelled wholly in hex it can be read.
fn over_the_limit(random: &mut Random) -> Table {
    let mut table = counted(random, 1, 0, false);
    let pairs = random.between(830, 900);
    for item in &mut table.items {
        if let Item::Pattern(pattern) = item {
            pattern.bytes = (0..pairs).flat_map(|_| [0, random.pick(b"AB")]).collect();
        }
    }
    table
}

/// A text that reads as this table, if one is soon found.
fn spelled(random: &mut Random, table: &Table) -> Option<Vec<u8>> {
    for _ in 0..4 {
        let style = random.below(4);
        let mut spell = if style == 0 { Spell::compact(random) } else { Spell::any(random) };
        if style == 1 {
            spell = Spell { hex: 100, ..Spell::compact(random) };
        }
        let text = spell.text(table);
        if text.len() <= LONGEST_TEXT && read(&text).as_ref() == Ok(table) {
            return Some(text);
        }
    }
    None
}

/// How much is changed differs from pair to pair, so that some are nearly alike.
fn edited(random: &mut Random, first: &Rules) -> Rules {
    let removed = random.pick(&[0, 0, 5, 20, 60]);
    let switched = random.pick(&[0, 5, 20, 50]);
    let changed = random.pick(&[0, 10, 30, 60]);
    let anew = random.pick(&[0, 30, 100]);
    let mut second = Rules::new();
    for (number, rule) in first {
        if random.chance(removed) {
            continue;
        }
        let mut rule = rule.clone();
        rule.on ^= random.chance(switched);
        rule.pass ^= random.chance(switched);
        if random.chance(changed) {
            change(random, &mut rule.text);
        } else if random.chance(anew) {
            respell(random, &mut rule.text);
        }
        // Under another number it is another rule.
        let moved = number + u64::from(random.chance(removed / 4));
        second.insert(moved.min(65535), rule);
    }
    for _ in 0..random.pick(&[0, 0, 1, 2, 5, 40]) {
        let beside: Vec<u64> = first.keys().map(|number| number % 65535 + 1).collect();
        let any = random.between(1, 65535);
        let number = if beside.is_empty() { any } else { random.pick(&beside) };
        let number = if random.chance(30) { any } else { number };
        if second.len() < MOST_RULES && !second.contains_key(&number) {
            // Often a text of the other book, so that the number alone tells them apart.
            let taken = first.values().next().cloned().filter(|_| random.chance(30));
            let new = taken.unwrap_or_else(|| rule(random));
            second.insert(number, new);
        }
    }
    second
}

fn respell(random: &mut Random, text: &mut Vec<u8>) {
    if let Some(other) = read(text).ok().and_then(|table| spelled(random, &table)) {
        *text = other;
    }
}

/// Another table, mostly in nearly the same spelling.
fn change(random: &mut Random, text: &mut Vec<u8>) {
    let Ok(table) = read(text) else { return };
    for _ in 0..10 {
        let mut other = table.clone();
        for _ in 0..random.pick(&[1, 1, 1, 1, 2]) {
            edit(random, &mut other);
        }
        if let Some(found) = spelled(random, &other).filter(|_| other != table) {
            *text = found;
            return;
        }
    }
}

/// As many rules as a book has room for; rarely all, so that it may be too long.
fn print(random: &mut Random, rules: &Rules) -> Vec<u8> {
    let all = random.chance(1);
    let mut book = Vec::new();
    for (number, rule) in rules {
        let state = if rule.on { "on" } else { "off" };
        let action = if rule.pass { "pass" } else { "hold" };
        let mut line = format!("{number}\t{state}\t{action}\t").into_bytes();
        line.extend(&rule.text);
        line.push(b'\n');
        if all || book.len() + line.len() <= LONGEST_BOOK {
            book.extend(line);
        }
    }
    book
}

/// Mostly makes the book a refused one, or at least another.
fn spoil(random: &mut Random, book: &mut Vec<u8>) {
    match random.below(12) {
        0..=3 => damage(random, book),
        4 => drop(book.pop()),
        5 => book.extend(random.pick(&["\n", "x", "65535\ton\tpass\t", " "]).bytes()),
        6 => book.resize(LONGEST_BOOK + random.index(3), b'\n'),
        7 => {
            let text = generate_book::simple(6);
            let line = |n| [format!("{n}\ton\tpass\t").as_bytes(), &text, b"\n"].concat();
            *book = (1..=random.between(64, 66)).flat_map(line).collect();
        }
        8 | 9 => {
            let opening = random.pick(&["65535\toff\thold\t", "65535\ton\tpass\t"]);
            book.extend(opening.as_bytes());
            book.extend(generate_text::text(random));
            book.push(b'\n');
        }
        _ => {
            let text = |random: &mut Random| rule(random).text;
            *book = generate_book::book(random, text);
        }
    }
}
