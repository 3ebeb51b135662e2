//! Properties of this program itself, tried on generated tables and cases.

use crate::case::{parse_case, Ask, Case};
use crate::generate_case::case;
use crate::generate_long;
use crate::generate_table::table;
use crate::house::house_text;
use crate::limits::{LONGEST_TEXT, MOST_PATTERN_BYTES};
use crate::message::Message;
use crate::placements::ask;
use crate::random::Random;
use crate::reader::read;
use crate::search::{lies_at, Placed};
use crate::selftest_blocks;
use crate::selftest_bytes;
use crate::selftest_replay;
use crate::spell::Spell;
use crate::table::*;
use std::io::{Error, Result as Written, Write};

pub fn run(seed: u64, count: u64, mut output: impl Write) -> Written<()> {
    let mut random = Random::new(seed);
    let mut wrong = 0;
    for number in 0..count {
        if let Err(text) = spelling_reads_back(&mut random) {
            writeln!(output, "table {number}: {text}")?;
            wrong += 1;
        }
        let line = case(&mut random);
        if let Err(text) = list_is_right(&line) {
            writeln!(output, "case {number}: {text}\n{}", String::from_utf8_lossy(&line))?;
            wrong += 1;
        }
        let blocks = selftest_blocks::generated(&mut random);
        if let Err(text) = blocks.and_then(|()| selftest_blocks::measured(&mut random)) {
            writeln!(output, "block {number}: {text}")?;
            wrong += 1;
        }
        let traces = selftest_replay::aimed(&mut random);
        if let Err(text) = traces.and_then(|()| selftest_replay::mixed(&mut random)) {
            writeln!(output, "trace {number}: {text}")?;
            wrong += 1;
        }
    }
    writeln!(output, "{count} tables, cases, blocks and traces, {wrong} wrong")?;
    output.flush()?;
    if wrong == 0 {
        Ok(())
    } else {
        Err(Error::other("not as it should be"))
    }
}

/// Any spelling of a table reads as this table, and so does its house text.
fn spelling_reads_back(random: &mut Random) -> Result<(), String> {
    let long = random.chance(10);
    let table = if long { generate_long::table(random) } else { table(random, false) };
    let text = Spell::any(random).text(&table);
    for text in [text, house_text(&table)] {
        let read = read(&text);
        if text.len() <= LONGEST_TEXT && read.as_ref() != Ok(&table) {
            return Err(format!(
                "{} gives {read:?}, not {table:?}",
                String::from_utf8_lossy(&text)
            ));
        }
    }
    // The table's room for pattern bytes suffices for whatever is read.
    let bytes = |item: &Item| match item {
        Item::Pattern(pattern) => pattern.bytes.len(),
        Item::Test(_) => 0,
    };
    let all: usize = table.items.iter().map(bytes).sum();
    if all > MOST_PATTERN_BYTES && house_text(&table).len() <= LONGEST_TEXT {
        return Err(format!("{all} pattern bytes in one text"));
    }
    Ok(())
}

/// "first", then "next" after each answer until there is none, gives the list;
/// and the list is what trying every tuple of starts gives.
fn list_is_right(line: &[u8]) -> Result<(), String> {
    let Some(mut case) = parse_case(line) else { return Ok(()) };
    let Ok(table) = read(case.text) else { return Ok(()) };
    case.ask = Ask::All;
    let Ok(list) = ask(&case, &table) else { return Ok(()) };
    if list.len() > 1000 {
        return Ok(());
    }
    let mut walked: Vec<Vec<u64>> = Vec::new();
    case.ask = Ask::First;
    while let Some(found) = ask(&case, &table).unwrap_or_default().pop() {
        walked.push(found.clone());
        case.ask = Ask::Next(found);
    }
    if walked != list {
        return Err(format!("walked {walked:?}, listed {list:?}"));
    }
    match every_tuple(&case, &table) {
        Some(tried) if tried != list => Err(format!("tried {tried:?}, listed {list:?}")),
        _ => Ok(()),
    }
}

/// Every tuple of starts that meets the table; `None` where there are too many to try.
fn every_tuple(case: &Case, table: &Table) -> Option<Vec<Vec<u64>>> {
    let message = Message::new(&case.packet, &case.decoded, &case.map, case.from_client).ok()?;
    let starts = message.payload.len().max(case.decoded.len()) as u64 + 1;
    let positive = table.positive_patterns() as u32;
    let tuples = starts.checked_pow(positive).filter(|tuples| *tuples <= 20_000)?;
    let tuple = |number: u64| -> Vec<u64> {
        (0..positive).rev().map(|digit| number / starts.pow(digit) % starts).collect()
    };
    Some((0..tuples).map(tuple).filter(|starts| meets(table, &message, starts)).collect())
}

/// A placement meets the table if protocol, flow and all items hold,
/// each positive pattern lying at its start.
fn meets(table: &Table, message: &Message, starts: &[u64]) -> bool {
    let flow = match table.flow {
        Some(Flow::FromClient) => message.from_client,
        Some(Flow::FromServer) => !message.from_client,
        None => true,
    };
    let mut starts = starts.iter();
    let mut last: Option<Placed> = None;
    let mut holds = flow && table.protocol == u64::from(message.protocol());
    for item in &table.items {
        holds &= match item {
            Item::Test(test) => selftest_bytes::holds(test, message, last.as_ref()),
            Item::Pattern(pattern) => {
                let field = message.field(pattern.context);
                let end = last.as_ref().map(|placed| placed.end);
                let places = field.map(|field| lies_at(pattern, field, end));
                if pattern.negated {
                    places.is_some_and(|places| places.is_empty())
                } else {
                    let start = starts.next().copied().unwrap_or(0);
                    let end = start + pattern.bytes.len() as u64;
                    last = Some(Placed { field: pattern.context, start, end });
                    places.is_some_and(|places| places.contains(&start))
                }
            }
        };
    }
    holds
}
