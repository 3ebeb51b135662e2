//! The line program (document 01, "The line program").

use crate::house::house_text;
use crate::limits::LONGEST_HOUSE_TEXT;
use crate::reader::read;
use std::io::{BufRead, Result, Write};

/// Calls `answer` for each line without its LF, and writes the line's number,
/// a tab, the answer and LF. Behind the last LF there is no further line.
pub fn answer_lines(
    mut input: impl BufRead,
    mut output: impl Write,
    answer: impl Fn(&[u8]) -> Vec<u8>,
) -> Result<()> {
    let mut line = Vec::new();
    let mut number = 0u64;
    while input.read_until(b'\n', &mut line)? > 0 {
        number += 1;
        let text = line.strip_suffix(b"\n").unwrap_or(&line);
        write!(output, "{number}\t")?;
        output.write_all(&answer(text))?;
        output.write_all(b"\n")?;
        line.clear();
    }
    output.flush()
}

/// `ok` or the refusal, a tab, house text or place (0 for 21).
pub fn answer_text(text: &[u8]) -> Vec<u8> {
    match read(text) {
        Err(refusal) => format!("{}\t{}", refusal.number, refusal.place).into_bytes(),
        Ok(table) => {
            let house = house_text(&table);
            if house.len() > LONGEST_HOUSE_TEXT {
                return b"21\t0".to_vec();
            }
            [b"ok\t".to_vec(), house].concat()
        }
    }
}
