//! Documents drawn row by row, and the table of characters.
//!
//! A code block `bytes` begins with `patch.tree (15 bytes)`. Each row below it
//! has an offset, bytes and, behind a `|`, what they are. The rows have the
//! whole document in order. In a tree a row is two blanks further right for
//! each element that is open, and rows whose text begins with `filler` are as
//! many as the filler elements that carry's answer has.

use super::examples::Examples;
use super::terms::byte_of;
use super::{Block, Line, Page};
use lafindry_entries::Failure;

/// Compares all drawings with the documents of cases; gives how many there are.
pub fn check(page: &Page, examples: &Examples) -> Result<usize, Failure> {
    page.of_kind("bytes").map(|block| check_drawing(block, examples)).collect::<Result<Vec<()>, _>>()?;
    for block in page.of_kind("characters") {
        check_characters(block)?;
    }
    Ok(page.of_kind("bytes").count())
}

/// A row: its line, offset, the blanks before its bytes, and its text.
struct Row<'a> {
    line: Line<'a>,
    offset: usize,
    column: usize,
    bytes: Vec<u8>,
    text: &'a str,
}

impl<'a> Row<'a> {
    /// Reads a row.
    fn read(line: Line<'a>) -> Result<Row<'a>, Failure> {
        let (left, text) = line.text.split_once('|').unwrap_or((line.text, ""));
        let mut words = left.split_whitespace();
        let offset: Option<usize> = words.next().and_then(|word| word.parse().ok());
        let offset = offset.ok_or_else(|| line.fault("a row begins with an offset"))?;
        let bytes: Option<Vec<u8>> = words.clone().map(byte_of).collect();
        let first = words.next().ok_or_else(|| line.fault("a row without bytes"))?;
        let bytes = bytes.ok_or_else(|| line.fault("a word that is no byte; text stands behind a |"))?;
        // The first byte's place: behind the digits of the offset and a blank.
        let digits = left.len() - left.trim_start().len() + offset.to_string().len();
        let column = left[digits..].find(first).unwrap_or(0);
        Ok(Row { line, offset, column, bytes, text: text.trim_start() })
    }
}

/// Compares a drawing with its document.
fn check_drawing(block: &Block, examples: &Examples) -> Result<(), Failure> {
    let (title, lines) = block.lines.split_first().ok_or_else(|| block.opening.fault("no document named"))?;
    let (name, length) = read_title(title)?;
    let document = examples.named.get(name).ok_or_else(|| title.fault(format!("no document '{name}'")))?;
    if document.len() != length {
        return Err(title.fault(format!("{name} has {} bytes", document.len())));
    }
    let rows: Vec<Row> = lines.iter().map(|&line| Row::read(line)).collect::<Result<_, _>>()?;
    let mut next = 0;
    for row in &rows {
        let end = next + row.bytes.len();
        if row.offset != next || document.get(next..end) != Some(&row.bytes[..]) {
            return Err(row
                .line
                .fault(format!("{name} has other bytes at {next}, or this row another offset")));
        }
        next = end;
    }
    if next != document.len() {
        return Err(title.fault(format!("the rows end at {next}, before {name} does")));
    }
    if name.ends_with(".tree") || name.ends_with(".output") {
        check_levels(&rows, document)?;
        check_filler(title, name, &rows, examples)?;
    }
    Ok(())
}

/// The document and the length that a title such as `patch.tree (15 bytes)` has.
fn read_title<'a>(title: &Line<'a>) -> Result<(&'a str, usize), Failure> {
    let parts = title.text.strip_suffix(" bytes)").and_then(|text| text.split_once(" ("));
    let read = parts.and_then(|(name, length)| Some((name, length.parse().ok()?)));
    read.ok_or_else(|| title.fault("a drawing begins with its document, such as: patch.tree (15 bytes)"))
}

/// How many elements are open before each offset of a tree at which a command
/// begins; one less where it closes one.
fn levels(document: &[u8]) -> Vec<Option<usize>> {
    let mut levels = vec![None; document.len()];
    let (mut at, mut open) = (0, 0usize);
    while at < document.len() {
        let closes = document[at] == 0x32;
        open = open.saturating_sub(closes as usize);
        levels[at] = Some(open);
        open += (document[at] == 0x30) as usize;
        at += if matches!(document[at], 0x30 | 0x31) { 2 } else { 1 };
    }
    levels
}

/// Fails unless each row begins with a command, as far right as it is deep.
fn check_levels(rows: &[Row], document: &[u8]) -> Result<(), Failure> {
    let levels = levels(document);
    for row in rows {
        let level = levels[row.offset].ok_or_else(|| row.line.fault("no command begins here"))?;
        if row.column != rows[0].column + 2 * level {
            return Err(row.line.fault(format!("{level} elements are open here: two blanks for each")));
        }
    }
    Ok(())
}

/// Fails unless as many rows say `filler` as carry's answer does.
fn check_filler(title: &Line, name: &str, rows: &[Row], examples: &Examples) -> Result<(), Failure> {
    let said = rows.iter().filter(|row| row.text.starts_with("filler")).count() as u64;
    let case = name.strip_suffix(".output").and_then(|case| examples.of_name(case));
    let filler = case.and_then(|example| example.accepted()).map_or(0, |(_, filler)| filler);
    match said == filler {
        true => Ok(()),
        false => Err(title.fault(format!("{said} rows say filler, the answer says {filler}"))),
    }
}

/// What stands for characters that can't be seen, or are not allowed.
const UNSEEN: [(u8, &str); 4] = [(0x20, "SP"), (0x7F, "--"), (0xA0, "NBSP"), (0xAD, "SHY")];

/// Fails unless each row has its first value and sixteen characters, and the
/// rows are 20 to 7F and A0 to FF.
fn check_characters(block: &Block) -> Result<(), Failure> {
    let firsts: Vec<u8> = (0x20..0x80).step_by(16).chain((0xA0..=0xFF).step_by(16)).collect();
    if firsts.len() != block.lines.len() {
        return Err(block.opening.fault(format!("{} rows are needed", firsts.len())));
    }
    for (line, first) in block.lines.iter().zip(firsts) {
        let expected: Vec<String> = (0..16).map(|at| sign(first + at)).collect();
        let words: Vec<&str> = line.text.split_whitespace().collect();
        if words.first() != Some(&format!("{first:02X}").as_str()) || words[1..] != expected[..] {
            return Err(line.fault(format!("{first:02X} and sixteen characters stand here: {expected:?}")));
        }
    }
    Ok(())
}

/// What stands for a byte in the table of characters.
fn sign(byte: u8) -> String {
    match UNSEEN.iter().find(|(value, _)| *value == byte) {
        Some((_, word)) => word.to_string(),
        // ISO 8859-1 has the numbers of the first 256 characters of Unicode.
        None => char::from(byte).to_string(),
    }
}
