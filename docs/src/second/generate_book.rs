//! Rule books: good ones, and ones refused for each cause that document 02, T-03, names.

use crate::damage::damage;
use crate::generate_text;
use crate::limits::{LONGEST_BOOK, MOST_RULES};
use crate::random::Random;
use crate::reader::read;

/// A line in its columns, so that they can be damaged one by one.
struct Line {
    columns: Vec<Vec<u8>>,
    end: &'static [u8],
}

/// A book whose texts are drawn by `text`, all of which read.
pub fn book(random: &mut Random, text: impl FnMut(&mut Random) -> Vec<u8>) -> Vec<u8> {
    if random.below(1000) == 0 {
        return long_book(random);
    }
    let count = match random.below(100) {
        0 | 1 => 0,
        2 | 3 => random.between(63, 66) as usize,
        4..=8 => random.between(7, 12) as usize,
        _ => random.pick(&[1, 1, 1, 2, 2, 3, 3, 4, 6]),
    };
    let mut lines = good_lines(random, count, text);
    if !lines.is_empty() && random.chance(if count > 60 { 25 } else { 38 }) {
        for _ in 0..random.pick(&[1, 1, 1, 2, 3]) {
            damage_line(random, &mut lines);
        }
    }
    let mut book = print(&lines);
    if random.chance(4) {
        damage(random, &mut book);
    }
    book
}

fn print(lines: &[Line]) -> Vec<u8> {
    let mut book = Vec::new();
    for line in lines {
        book.extend(line.columns.join(&b'\t'));
        book.extend(line.end);
    }
    book
}

fn good_lines(
    random: &mut Random,
    count: usize,
    mut text: impl FnMut(&mut Random) -> Vec<u8>,
) -> Vec<Line> {
    // Long books share a few short texts.
    let shared: Vec<Vec<u8>> = if count > 60 {
        let short = |text: Vec<u8>| if text.len() > 56 { simple(6) } else { text };
        (0..3).map(|_| short(text(random))).collect()
    } else {
        Vec::new()
    };
    let on = random.pick(&[100, 100, 85, 60]);
    let step = random.pick(&[1, 1, 3, 30, 900]);
    let mut number = 0;
    let mut lines = Vec::new();
    for place in 1..=count {
        number += random.between(1, step);
        if place == count && random.chance(5) {
            number = 65535;
        }
        let state = if random.chance(on) { "on" } else { "off" };
        let action = random.pick(&["pass", "hold"]);
        let text = if shared.is_empty() { text(random) } else { random.pick(&shared) };
        let columns = vec![number.to_string().into(), state.into(), action.into(), text];
        lines.push(Line { columns, end: b"\n" });
    }
    lines
}

pub fn simple(protocol: u8) -> Vec<u8> {
    format!("F-SBID(--name \"n\";--protocol {protocol};)").into_bytes()
}

fn damage_line(random: &mut Random, lines: &mut Vec<Line>) {
    let last = lines.len() - 1;
    let at = if random.chance(30) { last } else { random.index(lines.len()) };
    let before = lines[at.saturating_sub(1)].columns.first().cloned().unwrap_or_default();
    let line = &mut lines[at];
    // What an earlier damage has left may lack columns.
    let column = random.index(line.columns.len());
    match random.below(26) {
        0 | 1 => line.columns[0] = odd_number(random),
        2 => line.columns[column] = odd_word(random),
        3 => line.columns[column].push(random.pick(b" \r0\0")),
        4 => line.columns[column].insert(0, random.pick(b" 0+-")),
        5 => line.columns.insert(column, Vec::new()),
        6 => {
            line.columns.remove(column);
            line.columns.resize(line.columns.len().max(1), Vec::new());
        }
        7 => line.columns.swap(0, column),
        8 => line.end = random.pick(&[&b"\r\n"[..], b"\t\n", b"\n\n", b""]),
        9 => lines[last].end = b"",
        10 | 11 => not_rising(random, line, &before),
        12 => {
            not_rising(random, line, &before);
            line.columns[column] = odd_word(random);
        }
        13 => {
            not_rising(random, line, &before);
            set_text(random, line);
        }
        14 => line.columns[column] = line.columns[column].to_ascii_uppercase(),
        _ => set_text(random, line),
    }
}

fn odd_number(random: &mut Random) -> Vec<u8> {
    let numbers = [
        "",
        "0",
        "00",
        "007",
        "+1",
        "-1",
        " 1",
        "1 ",
        "65535",
        "65536",
        "65537",
        "65540",
        "99999",
        "100000",
        "4294967297",
        "18446744073709551617",
        "0x1",
        "1a",
        "x",
    ];
    random.pick(&numbers).as_bytes().to_vec()
}

fn odd_word(random: &mut Random) -> Vec<u8> {
    let words =
        ["", "ON", "Off", "PASS", "Hold", "of", "onn", "pas", "holds", "drop", "on ", " pass"];
    random.pick(&words).as_bytes().to_vec()
}

/// The number of the line before, or one a little lower.
fn not_rising(random: &mut Random, line: &mut Line, before: &[u8]) {
    let number: u64 = String::from_utf8_lossy(before).parse().unwrap_or(1);
    let lower = number.saturating_sub(random.pick(&[0, 0, 1, 2, 10]));
    line.columns[0] = lower.to_string().into_bytes();
}

/// Mostly a text of a drawn refusal, so that each of 1 to 12 comes up.
fn set_text(random: &mut Random, line: &mut Line) {
    let number = random.between(1, 12) as u8;
    let mut text = generate_text::text(random);
    for _ in 0..300 {
        if read(&text).is_err_and(|refusal| refusal.number == number) {
            break;
        }
        text = generate_text::text(random);
    }
    line.columns.truncate(3);
    line.columns.push(text);
}

/// On both sides of the longest book: 15 to 64 lines filled up with spaces, or bytes of no
/// form. Of 16 lines the texts are nearly as long as a text may be, of 15 they are longer.
fn long_book(random: &mut Random) -> Vec<u8> {
    let beyond = random.pick(&[0, 1, 2, 2, 3, 500]);
    let length = LONGEST_BOOK - 1 + beyond;
    let mut book = Vec::new();
    if random.chance(40) {
        book.extend(print(&good_lines(random, 2, |_| simple(6))));
        book.resize(length, random.pick(b"x\n\t"));
        return book;
    }
    let lines = random.pick(&[MOST_RULES, MOST_RULES, 16, 16, 15]);
    for number in 1..=lines {
        let opening = format!("{number}\ton\thold\tF-SBID(--name \"n\";--protocol 6;");
        let line = length / lines + if number == lines { length % lines } else { 0 };
        book.extend(opening.as_bytes());
        book.extend(vec![b' '; line - opening.len() - 2]);
        book.extend(b")\n");
    }
    book
}
