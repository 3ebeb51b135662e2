//! Answers to cases: refusals, one placement, or the list of placements.

use crate::case::{parse_case, Ask, Case};
use crate::message::Message;
use crate::reader::read;
use crate::search::placements;
use crate::table::Table;

/// How many placements of a list are printed.
const LISTED: usize = 1000;

pub fn answer_case(line: &[u8]) -> Vec<u8> {
    let Some(case) = parse_case(line) else {
        return b"bad".to_vec();
    };
    let answer = match read(case.text) {
        Err(refusal) => format!("text {} {}", refusal.number, refusal.place),
        Ok(table) => match ask(&case, &table) {
            Err(number) => format!("refused {number}"),
            Ok(found) => print_list(&found),
        },
    };
    answer.into_bytes()
}

/// At most one placement for "first" and "next", one more than is printed for the list.
pub fn ask(case: &Case, table: &Table) -> Result<Vec<Vec<u64>>, u8> {
    let message = Message::new(&case.packet, &case.decoded, &case.map, case.from_client)?;
    match &case.ask {
        Ask::All => Ok(placements(table, &message, None, LISTED + 1)),
        Ask::First => Ok(placements(table, &message, None, 1)),
        Ask::Next(earlier) if earlier.len() != table.positive_patterns() => Err(36),
        Ask::Next(earlier) => Ok(placements(table, &message, Some(earlier), 1)),
    }
}

fn print_list(found: &[Vec<u64>]) -> String {
    if found.is_empty() {
        return "none".to_string();
    }
    let printed: Vec<String> = found.iter().take(LISTED).map(|starts| print_one(starts)).collect();
    let more = if found.len() > LISTED { ";..." } else { "" };
    printed.join(";") + more
}

pub fn print_one(starts: &[u64]) -> String {
    let numbers: Vec<String> = starts.iter().map(u64::to_string).collect();
    format!("({})", numbers.join(","))
}
