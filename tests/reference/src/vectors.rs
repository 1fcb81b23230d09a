//! Vector lines: cases with their answers, read, run and written.
//!
//! ```text
//! entry DOC.. [OUTLEN] -> ok VALUE FILLER OUTPUT
//! entry DOC.. [OUTLEN] -> refused NUMBER DOCUMENT MARK
//! ```
//!
//! Documents and OUTPUT are in hexadecimal, `-` for no bytes. Lines that count what
//! went across, lines that ask why paths clash, and lines of operations on a table
//! have forms of their own, in [`crossings`], [`explanations`] and [`operations`].
//!
//! The vectors of `tests/data`, `base.txt`, `n3.txt`, `n6.txt`, `n5.txt`,
//! `n9.txt`, `n8.txt`, `n4.txt` and `n14.txt`, were computed by another program,
//! written independently, from the papers alone. 10 of `base.txt` and 30 of
//! `n3.txt` have the reference's answers since N6. The files `cases-*.txt` are
//! worked cases, and cases that the reference made.

pub mod crossings;
pub mod explanations;
pub mod operations;

use crate::{bring_back, carry, judge_embedding, judge_table, judge_tree, read_along, Refusal};
use std::fmt;

/// The byte that lent outputs are filled with before a run. No document that an
/// entry writes has it.
pub const JUNK: u8 = 0x95;

/// One of the five entries of paper 01, or reading along the paths, which is
/// called like bringing back.
#[derive(Debug, Clone, Copy, PartialEq, Eq, PartialOrd, Ord)]
pub enum Entry {
    JudgeTable,
    JudgeEmbedding,
    JudgeTree,
    Carry,
    BringBack,
    ReadAlong,
}

impl Entry {
    /// All entries: those of paper 01 in its order, then reading along.
    pub const ALL: [Entry; 6] = [
        Entry::JudgeTable,
        Entry::JudgeEmbedding,
        Entry::JudgeTree,
        Entry::Carry,
        Entry::BringBack,
        Entry::ReadAlong,
    ];

    /// The entries of paper 01, in its order.
    pub const FIVE: [Entry; 5] =
        [Entry::JudgeTable, Entry::JudgeEmbedding, Entry::JudgeTree, Entry::Carry, Entry::BringBack];

    /// The entries that are given a tree.
    pub const WITH_TREE: [Entry; 4] = [Entry::JudgeTree, Entry::Carry, Entry::BringBack, Entry::ReadAlong];

    /// The name used in vector lines.
    pub fn name(self) -> &'static str {
        match self {
            Entry::JudgeTable => "judge_table",
            Entry::JudgeEmbedding => "judge_embedding",
            Entry::JudgeTree => "judge_tree",
            Entry::Carry => "carry",
            Entry::BringBack => "bring_back",
            Entry::ReadAlong => "read_along",
        }
    }

    /// The number of documents it is given.
    pub fn documents(self) -> usize {
        match self {
            Entry::JudgeTable => 1,
            Entry::JudgeTree => 2,
            Entry::JudgeEmbedding => 3,
            Entry::Carry | Entry::BringBack | Entry::ReadAlong => 4,
        }
    }

    /// Whether it is lent an output.
    pub fn writes(self) -> bool {
        matches!(self, Entry::Carry | Entry::BringBack | Entry::ReadAlong)
    }

    /// Whether its tree is judged by the target table.
    pub fn is_given_target(self) -> bool {
        matches!(self, Entry::BringBack | Entry::ReadAlong)
    }

    /// Whether it answers a number of elements beside what it writes: filler
    /// elements, or those on no followed path.
    pub fn counts_elements(self) -> bool {
        matches!(self, Entry::Carry | Entry::ReadAlong)
    }
}

/// An entry, its documents in order, and the length of the lent output (0
/// where the entry is lent none).
#[derive(Debug, Clone, PartialEq, Eq)]
pub struct Case {
    pub entry: Entry,
    pub documents: Vec<Vec<u8>>,
    pub output_length: usize,
}

/// The answer to a case and the bytes written.
#[derive(Debug, Clone, PartialEq, Eq)]
pub enum Answer {
    Ok { value: u64, filler: u64, output: Vec<u8> },
    Refused(Refusal),
}

impl Answer {
    /// What an output holds at the end, given what it held before: the bytes
    /// written at its start, every other byte as before.
    pub fn final_output(&self, before: &[u8]) -> Vec<u8> {
        let mut after = before.to_vec();
        if let Answer::Ok { output, .. } = self {
            after[..output.len()].copy_from_slice(output);
        }
        after
    }
}

impl Case {
    /// Runs the reference on an output filled with [`JUNK`]. The error says
    /// that a byte of the output changed that should have been kept.
    pub fn run(&self) -> Result<Answer, String> {
        run_on_junk(self.entry.name(), self.output_length, |output| self.run_into(output))
    }

    /// Runs the reference on a given output.
    pub fn run_into(&self, output: &mut [u8]) -> Answer {
        let d: Vec<&[u8]> = self.documents.iter().map(Vec::as_slice).collect();
        let result = match self.entry {
            Entry::JudgeTable => judge_table(d[0]).map(|value| (value, 0)),
            Entry::JudgeEmbedding => judge_embedding(d[0], d[1], d[2]).map(|value| (value, 0)),
            Entry::JudgeTree => judge_tree(d[0], d[1]).map(|value| (value, 0)),
            Entry::Carry => {
                carry(d[0], d[1], d[2], d[3], output).map(|carried| (carried.length, carried.filler))
            }
            Entry::BringBack => bring_back(d[0], d[1], d[2], d[3], output).map(|length| (length, 0)),
            Entry::ReadAlong => {
                read_along(d[0], d[1], d[2], d[3], output).map(|read| (read.length, read.aside))
            }
        };
        match result {
            Ok((value, filler)) => {
                let written = if self.entry.writes() { value as usize } else { 0 };
                Answer::Ok { value, filler, output: output[..written].to_vec() }
            }
            Err(refusal) => Answer::Refused(refusal),
        }
    }
}

/// Runs what has a name on an output filled with [`JUNK`]. The error says that a
/// byte of the output changed that should have been kept.
fn run_on_junk(
    name: &str,
    output_length: usize,
    run: impl FnOnce(&mut [u8]) -> Answer,
) -> Result<Answer, String> {
    let before = vec![JUNK; output_length];
    let mut after = before.clone();
    let answer = run(&mut after);
    match answer.final_output(&before) == after {
        true => Ok(answer),
        false => Err(format!("{name}: the output changed beyond what is written")),
    }
}

impl fmt::Display for Case {
    fn fmt(&self, f: &mut fmt::Formatter) -> fmt::Result {
        write!(f, "{}", self.entry.name())?;
        for document in &self.documents {
            write!(f, " {}", to_hex(document))?;
        }
        if self.entry.writes() {
            write!(f, " {}", self.output_length)?;
        }
        Ok(())
    }
}

impl fmt::Display for Answer {
    fn fmt(&self, f: &mut fmt::Formatter) -> fmt::Result {
        match self {
            Answer::Ok { value, filler, output } => write!(f, "ok {value} {filler} {}", to_hex(output)),
            Answer::Refused(refusal) => refusal.fmt(f),
        }
    }
}

impl fmt::Display for Refusal {
    fn fmt(&self, f: &mut fmt::Formatter) -> fmt::Result {
        let Refusal { number, document, mark } = self;
        write!(f, "refused {number} {document} {mark}")
    }
}

/// The hexadecimal digits of some bytes, `-` for none.
pub fn to_hex(bytes: &[u8]) -> String {
    if bytes.is_empty() {
        return "-".to_string();
    }
    bytes.iter().map(|byte| format!("{byte:02x}")).collect()
}

/// The bytes written in hexadecimal, `-` for none.
pub fn from_hex(text: &str) -> Result<Vec<u8>, String> {
    if text == "-" {
        return Ok(Vec::new());
    }
    if !text.len().is_multiple_of(2) || !text.bytes().all(|digit| digit.is_ascii_hexdigit()) {
        return Err("not hexadecimal bytes".to_string());
    }
    let pairs = (0..text.len()).step_by(2);
    pairs.map(|at| u8::from_str_radix(&text[at..at + 2], 16).map_err(|e| e.to_string())).collect()
}

/// Whether a line of a vector file holds no case.
pub fn is_skipped(line: &str) -> bool {
    line.trim().is_empty() || line.starts_with('#')
}

/// Reads a vector line.
pub fn parse_line(line: &str) -> Result<(Case, Answer), String> {
    let (case, answer) = line.split_once(" -> ").ok_or("no ->")?;
    Ok((parse_case(case)?, parse_answer(answer)?))
}

/// Reads the part of a line before the arrow.
fn parse_case(text: &str) -> Result<Case, String> {
    let words: Vec<&str> = text.split_whitespace().collect();
    let entry = Entry::ALL.into_iter().find(|entry| words.first() == Some(&entry.name()));
    let entry = entry.ok_or("no such entry")?;
    let expected = 1 + entry.documents() + entry.writes() as usize;
    if words.len() != expected {
        return Err(format!("{} words before ->, not {expected}", words.len()));
    }
    let documents: Result<_, _> = words[1..=entry.documents()].iter().map(|word| from_hex(word)).collect();
    let output_length = if entry.writes() { parse_number(words[expected - 1])? as usize } else { 0 };
    Ok(Case { entry, documents: documents?, output_length })
}

/// Reads the part of a line after the arrow.
fn parse_answer(text: &str) -> Result<Answer, String> {
    let words: Vec<&str> = text.split_whitespace().collect();
    match words[..] {
        ["ok", value, filler, output] => Ok(Answer::Ok {
            value: parse_number(value)?,
            filler: parse_number(filler)?,
            output: from_hex(output)?,
        }),
        ["refused", ref numbers @ ..] => Ok(Answer::Refused(parse_refusal(numbers)?)),
        _ => Err("no such answer".to_string()),
    }
}

/// Reads the numbers of a refusal.
fn parse_refusal(words: &[&str]) -> Result<Refusal, String> {
    match *words {
        [number, document, mark] => Ok(Refusal {
            number: parse_number(number)?,
            document: parse_number(document)?,
            mark: parse_number(mark)?,
        }),
        _ => Err("not three numbers of a refusal".to_string()),
    }
}

/// Reads a decimal number.
fn parse_number(text: &str) -> Result<u64, String> {
    text.parse().map_err(|_| format!("{text}: not a number"))
}

/// Reads a vector line and runs it. The error says how they disagree.
pub fn check_line(line: &str) -> Result<(Case, Answer), String> {
    let (case, expected) = parse_line(line)?;
    let answer = case.run()?;
    if answer != expected {
        return Err(format!("expected {}, answered {}", shorten(&expected), shorten(&answer)));
    }
    Ok((case, answer))
}

/// The text of an answer, cut after 200 characters.
fn shorten(answer: &impl fmt::Display) -> String {
    answer.to_string().chars().take(200).collect()
}
