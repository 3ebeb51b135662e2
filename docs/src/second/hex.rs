//! Turns readable decisions into those that `decisions` reads: the book, their fifth
//! column, becomes hex pairs.
//!
//! `\n` is LF, `\\` a backslash, `\xHH` any byte, `\rN{...}` the part in the braces N times.
//! A line of fewer than five columns stays as it is, so that bad lines can be written, too.

use crate::case::hex_digit;
use std::io::{BufRead, Result, Write};

pub fn write_hex(mut input: impl BufRead, mut output: impl Write) -> Result<()> {
    let mut line = Vec::new();
    while input.read_until(b'\n', &mut line)? > 0 {
        let text = line.strip_suffix(b"\n").unwrap_or(&line);
        output.write_all(&hex_line(text))?;
        // A last line without LF stays one.
        output.write_all(&line[text.len()..])?;
        line.clear();
    }
    output.flush()
}

fn hex_line(line: &[u8]) -> Vec<u8> {
    let mut tabs = line.iter().enumerate().filter(|(_, byte)| **byte == b'\t');
    let Some((fourth, _)) = tabs.nth(3) else {
        return line.to_vec();
    };
    let (others, book) = line.split_at(fourth + 1);
    [others, hex_column(&unescape(book)).as_bytes()].concat()
}

fn hex_column(bytes: &[u8]) -> String {
    if bytes.is_empty() {
        return "-".to_string();
    }
    bytes.iter().map(|byte| format!("{byte:02x}")).collect()
}

/// Anything else behind a backslash is left as it is.
fn unescape(mut text: &[u8]) -> Vec<u8> {
    let mut bytes = Vec::new();
    while let Some((first, rest)) = text.split_first() {
        let escaped = if *first == b'\\' { escape(rest) } else { None };
        let (part, behind) = escaped.unwrap_or((vec![*first], rest));
        bytes.extend(part);
        text = behind;
    }
    bytes
}

/// What stands behind a backslash: the bytes it means, and the text that follows it.
fn escape(text: &[u8]) -> Option<(Vec<u8>, &[u8])> {
    match text {
        [b'n', rest @ ..] => Some((b"\n".to_vec(), rest)),
        [b'\\', rest @ ..] => Some((b"\\".to_vec(), rest)),
        [b'x', high, low, rest @ ..] => {
            Some((vec![hex_digit(*high)? * 16 + hex_digit(*low)?], rest))
        }
        [b'r', rest @ ..] => {
            let open = rest.iter().position(|byte| *byte == b'{')?;
            let close = rest.iter().position(|byte| *byte == b'}')?;
            let count = std::str::from_utf8(&rest[..open]).ok()?.parse().ok()?;
            let part = unescape(rest.get(open + 1..close)?);
            Some((part.repeat(count), &rest[close + 1..]))
        }
        _ => None,
    }
}
