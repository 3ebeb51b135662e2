//! A trace through the kept book against its lines one by one, each as a line of decisions
//! with its own reading of the book; and the totals against the lines written.

use crate::decisions::{answer_decision, parse_asked};
use crate::generate_decision::decision;
use crate::generate_mixed;
use crate::generate_trace::{line, night_line};
use crate::random::Random;
use crate::replay::replay;
use crate::selftest_blocks::Parts;
use crate::trace::LONGEST_LINE;
use std::io::BufReader;

/// A book aimed at one line, with that line, those of another book and any others.
pub fn aimed(random: &mut Random) -> Result<(), String> {
    let drawn: Vec<Vec<u8>> = (0..3).map(|_| decision(random)).collect();
    let Some(asked) = parse_asked(&drawn[0]) else { return Ok(()) };
    let four = |line: &Vec<u8>| -> Vec<u8> {
        line.splitn(5, |byte| *byte == b'\t').take(4).collect::<Vec<_>>().join(&b'\t')
    };
    let mut lines: Vec<Vec<u8>> = drawn.iter().map(four).collect();
    lines.extend((0..random.index(5)).map(|_| line(random)));
    random.shuffle(&mut lines);
    agree(random, &asked.book, &lines)
}

/// A book that decides a part of any trace.
pub fn mixed(random: &mut Random) -> Result<(), String> {
    let (seed, rules) = (random.next(), random.between(1, 12));
    let book = generate_mixed::book(seed, rules);
    let mut lines: Vec<Vec<u8>> = (0..6).map(|_| line(random)).collect();
    lines.extend((0..2).map(|_| night_line(random)));
    agree(random, &book, &lines)
}

fn agree(random: &mut Random, book: &[u8], lines: &[Vec<u8>]) -> Result<(), String> {
    let mut trace = lines.join(&b'\n');
    // An empty last line is none without its LF.
    if random.chance(50) || lines.last().is_some_and(Vec::is_empty) {
        trace.push(b'\n');
    }
    let most = random.pick(&[1, 7, 100, 5000, 100_000]);
    let room = random.pick(&[1, 64, 16_384, 16_385, 100_000]);
    let input = BufReader::with_capacity(room, Parts { bytes: &trace, most });
    let mut written = Vec::new();
    replay(book, input, &mut written).map_err(|error| error.to_string())?;
    let written = String::from_utf8_lossy(&written).into_owned();
    let wanted = one_by_one(book, lines);
    if written != wanted {
        return Err(format!("replay gives {written:?}, one by one {wanted:?}"));
    }
    Ok(())
}

fn one_by_one(book: &[u8], lines: &[Vec<u8>]) -> String {
    let book: String = book.iter().map(|byte| format!("{byte:02x}")).collect();
    let book = if book.is_empty() { "-" } else { &book };
    let judged = answer_decision(format!("client\t-\t-\t-\t{book}").as_bytes());
    if let Some(refused) = String::from_utf8_lossy(&judged).strip_prefix("refused ") {
        return format!("book\t{}\n", refused.replace(' ', "\t"));
    }
    let mut answers: Vec<String> = Vec::new();
    for line in lines {
        let answer = answer_decision(&[line, &b"\t"[..], book.as_bytes()].concat());
        let answer = String::from_utf8_lossy(&answer).replace(' ', "\t");
        let bad = line.len() > LONGEST_LINE || answer == "bad";
        answers.push(if bad { "bad\t0".to_string() } else { answer });
    }
    let count = |word: &str| answers.iter().filter(|answer| answer.starts_with(word)).count();
    let totals = format!("total\t{}\t{}\t{}\n", count("pass"), count("hold"), count("bad"));
    let numbered = answers.iter().enumerate();
    numbered.map(|(at, answer)| format!("{}\t{answer}\n", at + 1)).collect::<String>() + &totals
}
