//! Bytes in running text, in tables and in drawings of kind `text`. Three or
//! more in a row have to stand in a document of a case.

use super::examples::Examples;
use super::terms::byte_of;
use super::{Line, Page};
use lafindry_entries::Failure;

/// The fewest bytes in a row that are looked at: one or two are commands that
/// the text speaks of.
const LEAST: usize = 3;

/// Bytes that stand on the page and in no document, with the reason.
const EXEMPT: [(&[u8], &str); 1] = [(b"carried 21 1\n", "the line of the program carry, and no document")];

/// Looks for all such bytes in documents; gives how many rows of bytes there
/// are.
pub fn check(page: &Page, examples: &Examples) -> Result<usize, Failure> {
    let mut count = 0;
    let drawn = page.of_kind("text").flat_map(|block| &block.lines);
    let drawn = drawn.flat_map(|&line| rows_of(line.text).into_iter().map(move |row| (line, row)));
    let mut rows: Vec<(Line, Vec<u8>)> = drawn.collect();
    for &line in &page.prose {
        rows.extend(spans_of(line)?.into_iter().map(|row| (line, row)));
    }
    for (line, row) in rows.into_iter().filter(|(_, row)| row.len() >= LEAST) {
        if !examples.have(&row) && !EXEMPT.iter().any(|(bytes, _)| *bytes == row) {
            return Err(line.fault(format!("{row:02X?} stands in no document of a case")));
        }
        count += 1;
    }
    Ok(count)
}

/// The rows of bytes among the words of a line.
fn rows_of(text: &str) -> Vec<Vec<u8>> {
    let mut rows = vec![Vec::new()];
    for word in text.split_whitespace() {
        match (byte_of(word), rows.last_mut()) {
            (Some(byte), Some(row)) => row.push(byte),
            _ => rows.push(Vec::new()),
        }
    }
    rows
}

/// The rows of bytes in the code spans of a line. Spans with one blank between
/// them are one row.
fn spans_of(line: Line) -> Result<Vec<Vec<u8>>, Failure> {
    let mut rows: Vec<Vec<u8>> = vec![Vec::new()];
    for (at, part) in line.text.split('`').enumerate() {
        let bytes: Vec<Option<u8>> = part.split(' ').map(byte_of).collect();
        let known: Vec<u8> = bytes.iter().copied().flatten().collect();
        match (at % 2 == 1, known.len() == bytes.len()) {
            (true, true) => rows.last_mut().into_iter().for_each(|row| row.extend(&known)),
            (true, false) if known.len() >= LEAST => {
                return Err(line.fault(format!("'{part}': a word among these bytes is none")));
            }
            _ if part == " " => {}
            _ => rows.push(Vec::new()),
        }
    }
    Ok(rows)
}
