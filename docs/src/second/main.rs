//! The second program: a reading of documents 01 and 02 of its own, with which the proved
//! programs' answers are compared.
//!
//! Built by `rustc -O --edition 2021 main.rs -o second`.

mod blocks;
mod book;
mod case;
mod compare;
mod count;
mod decisions;
mod guard;
mod hex;
mod house;
mod limits;
mod lines;
mod message;
mod pattern_find;
mod placements;
mod quick;
mod reader;
mod reference;
mod replay;
mod scan;
mod search;
mod table;
mod tests;
mod trace;
mod value;
mod words;

mod damage;
mod generate_aimed;
mod generate_bad_line;
mod generate_block;
mod generate_book;
mod generate_byte_test;
mod generate_case;
mod generate_decision;
mod generate_edit;
mod generate_item;
mod generate_long;
mod generate_measured;
mod generate_mixed;
mod generate_packet;
mod generate_pair;
mod generate_table;
mod generate_text;
mod generate_trace;
mod odd;
mod random;
mod selftest;
mod selftest_blocks;
mod selftest_bytes;
mod selftest_replay;
mod slips;
mod spell;

use random::Random;
use std::ffi::OsString;
use std::io::{stderr, stdin, stdout, BufWriter, Result, Write};
use std::process::ExitCode;

const USAGE: &str = "usage: second lines | placements | decisions | hex | count | slips
       second book|blocks|replay FILE
       second compare FIRST SECOND
       second generate texts|cases|decisions|trace|night SEED COUNT
       second generate block SEED COUNT [tcp]
       second generate book SEED RULES none|first|mixed
       second generate pair SEED first|second
       second selftest SEED COUNT";

fn main() -> ExitCode {
    let arguments: Vec<OsString> = std::env::args_os().skip(1).collect();
    let texts: Vec<String> =
        arguments.iter().map(|text| text.to_string_lossy().into_owned()).collect();
    let words: Vec<&str> = texts.iter().map(String::as_str).collect();
    let result = match words[..] {
        ["lines"] => lines::answer_lines(stdin().lock(), output(), lines::answer_text),
        ["placements"] => lines::answer_lines(stdin().lock(), output(), placements::answer_case),
        ["decisions"] => lines::answer_lines(stdin().lock(), output(), decisions::answer_decision),
        ["hex"] => hex::write_hex(stdin().lock(), output()),
        // Without a book that can be opened nothing is written.
        ["book" | "blocks" | "replay"] => Ok(()),
        ["book", file] => match std::fs::read(file) {
            Ok(book) => decisions::write_judgement(&book, output()),
            Err(_) => Ok(()),
        },
        ["blocks", file] => match std::fs::read(file) {
            Ok(book) => blocks::answer_blocks(&book, stdin().lock(), output()),
            Err(_) => Ok(()),
        },
        // Further arguments are ignored.
        ["replay", _, ..] => told(replay::replay_file(&arguments[1], stdin().lock(), output())),
        // Without two books that can be opened nothing is written.
        ["compare"] | ["compare", _] => Ok(()),
        ["compare", _, _, ..] => {
            told(compare::compare_files(&arguments[1], &arguments[2], output()))
        }
        ["count"] => count::count(stdin().lock(), output()),
        ["slips"] => slips::write_slips(output()),
        ["generate", "pair", seed, which @ ("first" | "second")] => match seed.parse() {
            Ok(seed) => {
                let [first, second] = generate_pair::pair(seed);
                output().write_all(if which == "first" { &first } else { &second })
            }
            _ => return usage(),
        },
        ["generate", what, seed, count] => match (what, seed.parse(), count.parse()) {
            ("texts", Ok(seed), Ok(count)) => generate(seed, count, generate_text::text),
            ("cases", Ok(seed), Ok(count)) => generate(seed, count, generate_case::case),
            ("block", Ok(seed), Ok(count)) => generate_blocks(seed, count, false),
            ("decisions", Ok(seed), Ok(count)) => {
                generate(seed, count, generate_decision::decision)
            }
            ("trace", Ok(seed), Ok(count)) => generate_trace::write_trace(seed, count, output()),
            ("night", Ok(seed), Ok(count)) => generate(seed, count, generate_trace::night_line),
            _ => return usage(),
        },
        ["generate", "block", seed, count, "tcp"] => match (seed.parse(), count.parse()) {
            (Ok(seed), Ok(count)) => generate_blocks(seed, count, true),
            _ => return usage(),
        },
        ["generate", "book", seed, rules, kind] => match (seed.parse(), rules.parse(), kind) {
            (Ok(seed), Ok(rules), "none" | "first") => {
                output().write_all(&generate_measured::book(seed, rules, kind == "first"))
            }
            (Ok(seed), Ok(rules), "mixed") => {
                output().write_all(&generate_mixed::book(seed, rules))
            }
            _ => return usage(),
        },
        ["selftest", seed, count] => match (seed.parse(), count.parse()) {
            (Ok(seed), Ok(count)) => selftest::run(seed, count, output()),
            _ => return usage(),
        },
        _ => return usage(),
    };
    if result.is_ok() {
        ExitCode::SUCCESS
    } else {
        ExitCode::FAILURE
    }
}

fn usage() -> ExitCode {
    let _ = writeln!(stderr(), "{USAGE}");
    ExitCode::from(2)
}

/// A failing read of the trace, or write, is said on standard error.
fn told(result: Result<()>) -> Result<()> {
    result.inspect_err(|error| drop(writeln!(stderr(), "{error}")))
}

fn output() -> impl Write {
    BufWriter::new(stdout().lock())
}

fn generate(seed: u64, count: u64, line: impl Fn(&mut Random) -> Vec<u8>) -> Result<()> {
    let mut random = Random::new(seed);
    let mut output = output();
    for _ in 0..count {
        output.write_all(&line(&mut random))?;
        output.write_all(b"\n")?;
    }
    output.flush()
}

fn generate_blocks(seed: u64, count: u64, tcp_alone: bool) -> Result<()> {
    let mut random = Random::new(seed);
    let mut output = output();
    for _ in 0..count {
        output.write_all(&generate_block::record(&mut random, tcp_alone))?;
    }
    output.flush()
}
