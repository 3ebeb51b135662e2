//! How often each kind of answer occurs in the output of `lines`, `placements`, `decisions`
//! or `replay`.

use std::collections::BTreeMap;
use std::io::{BufRead, Result, Write};

pub fn count(mut input: impl BufRead, mut output: impl Write) -> Result<()> {
    let mut counts: BTreeMap<String, u64> = BTreeMap::new();
    let mut line = Vec::new();
    while input.read_until(b'\n', &mut line)? > 0 {
        let text = String::from_utf8_lossy(&line);
        *counts.entry(kind(text.trim_end_matches('\n'))).or_insert(0) += 1;
        line.clear();
    }
    for (kind, count) in counts {
        writeln!(output, "{count:>9}  {kind}")?;
    }
    output.flush()
}

/// Refusals are padded, so that the sorted names stand in the order of their numbers.
fn kind(line: &str) -> String {
    let columns: Vec<&str> = line.split('\t').collect();
    match columns[..] {
        ["total", ..] => return "total".to_string(),
        [_, "bad", "0"] => return "bad".to_string(),
        [_, "pass" | "hold", "0"] => return format!("{} 0", columns[1]),
        [_, "pass" | "hold", _] => return format!("{} by a rule", columns[1]),
        ["book", number, _] => return format!("book {number:>2}"),
        _ => {}
    }
    let answer = columns.get(1).copied().unwrap_or("");
    let words: Vec<&str> = answer.split(' ').collect();
    match words[..] {
        ["ok"] | ["bad"] | ["none"] => answer.to_string(),
        ["text", number, _] => format!("text {number:>2}"),
        ["refused", number] => format!("refused {number:>2}"),
        ["refused", number, _] => format!("book {number:>2}"),
        ["pass" | "hold", "0"] => answer.to_string(),
        ["pass" | "hold", _] => format!("{} by a rule", words[0]),
        ["()"] => "the empty placement".to_string(),
        [list] if list.ends_with(";...") => "list of over 1,000 placements".to_string(),
        [list] if list.contains(';') => "list of two or more placements".to_string(),
        [one] if one.starts_with('(') => "one placement".to_string(),
        [number] if number.parse::<u8>().is_ok() => format!("refusal {number:>2}"),
        _ => "another form".to_string(),
    }
}
