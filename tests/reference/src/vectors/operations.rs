//! Vector lines of operations on a table, read, run and written: as a row, or as
//! documents in the form of the lines of entries.
//!
//! ```text
//! keep TABLE | type COMMANDS -> ANSWER | member TYPE MEMBER -> ANSWER | .. | kept HEIGHT/LENGTH ..
//! extend_table TABLE OPERATIONS OUTLEN -> ok LENGTH 0 REPORT
//! extend_table TABLE OPERATIONS OUTLEN -> refused NUMBER DOCUMENT MARK
//! ```
//!
//! ANSWER is `ok TYPES` or `refused NUMBER DOCUMENT MARK`. What is kept of each
//! type after the last operation stands at the end of a row.

use super::{from_hex, parse_answer, parse_number, parse_refusal, run_on_junk, shorten, to_hex, Answer};
use crate::extension::{document_of, extend_table, report, Kept, LoadedTable, Operation, Report};
use crate::{table, Refusal, SOURCE};
use std::fmt;

/// The word that lines of rows begin with.
pub const KEEP: &str = "keep";
/// The word that lines of documents begin with.
pub const EXTEND: &str = "extend_table";

/// A table and a row of operations on it.
#[derive(Debug, Clone, PartialEq, Eq)]
pub struct Row {
    pub table: Vec<u8>,
    pub operations: Vec<Operation>,
}

impl Row {
    /// The report of the reference.
    pub fn run(&self) -> Result<Report, Refusal> {
        report(&self.table, &document_of(&self.operations))
    }

    /// The loaded table before each operation and after the last.
    pub fn tables(&self) -> Result<Vec<LoadedTable>, Refusal> {
        let mut loaded = LoadedTable::new(table::accept(&self.table, SOURCE)?);
        let mut tables = vec![loaded.clone()];
        for operation in &self.operations {
            // A refused one leaves the table as it was.
            let _ = loaded.operate(operation);
            tables.push(loaded.clone());
        }
        Ok(tables)
    }

    /// The documents of this row, with an output of some length.
    pub fn lent(&self, output_length: usize) -> Extension {
        Extension { documents: [self.table.clone(), document_of(&self.operations)], output_length }
    }

    /// The line of this row with a report.
    pub fn line(&self, report: &Report) -> String {
        let mut line = format!("{KEEP} {}", to_hex(&self.table));
        for (operation, answer) in self.operations.iter().zip(&report.answers) {
            line += &match answer {
                Ok(types) => format!(" | {operation} -> ok {types}"),
                Err(refusal) => format!(" | {operation} -> {refusal}"),
            };
        }
        let kept = report.kept.iter().map(|Kept { height, length }| format!(" {height}/{length}"));
        line + " | kept" + &kept.collect::<String>()
    }
}

impl fmt::Display for Operation {
    fn fmt(&self, f: &mut fmt::Formatter) -> fmt::Result {
        match self {
            Operation::AppendType(commands) => write!(f, "type {}", to_hex(commands)),
            Operation::AppendMember { extended, member } => write!(f, "member {extended} {member}"),
        }
    }
}

/// Whether a line has a row of operations.
pub fn is_row(line: &str) -> bool {
    line.split_whitespace().next() == Some(KEEP)
}

/// Whether a line has operations as a document.
pub fn is_extension(line: &str) -> bool {
    line.split_whitespace().next() == Some(EXTEND)
}

/// Reads the line of a row.
pub fn parse_line(line: &str) -> Result<(Row, Report), String> {
    match line.split(" | ").collect::<Vec<&str>>()[..] {
        [table, ref answered @ .., kept] => {
            let table = table.strip_prefix("keep ").ok_or("no 'keep TABLE'")?;
            let answered = answered.iter().map(|text| parse_answered(text));
            let (operations, answers) = answered.collect::<Result<Vec<_>, _>>()?.into_iter().unzip();
            Ok((Row { table: from_hex(table)?, operations }, Report { answers, kept: parse_kept(kept)? }))
        }
        _ => Err("no ' | '".to_string()),
    }
}

/// Reads an operation and its answer.
fn parse_answered(text: &str) -> Result<(Operation, Result<u64, Refusal>), String> {
    let (operation, answer) = text.split_once(" -> ").ok_or("no ->")?;
    let operation = match operation.split(' ').collect::<Vec<&str>>()[..] {
        ["type", commands] => Operation::AppendType(from_hex(commands)?),
        ["member", extended, member] => {
            Operation::AppendMember { extended: parse_type(extended)?, member: parse_type(member)? }
        }
        _ => return Err(format!("{operation}: no operation")),
    };
    let answer = match answer.split(' ').collect::<Vec<&str>>()[..] {
        ["ok", types] => Ok(parse_number(types)?),
        ["refused", ref numbers @ ..] => Err(parse_refusal(numbers)?),
        _ => return Err(format!("{answer}: no answer")),
    };
    Ok((operation, answer))
}

/// Reads a type number of one byte.
fn parse_type(text: &str) -> Result<u8, String> {
    text.parse().map_err(|_| format!("{text}: not a byte"))
}

/// Reads what is kept of each type.
fn parse_kept(text: &str) -> Result<Vec<Kept>, String> {
    let kept = text.strip_prefix("kept ").ok_or("no 'kept HEIGHT/LENGTH'")?;
    let parse_one = |word: &str| {
        let (height, length) = word.split_once('/').ok_or(format!("{word}: no /"))?;
        Ok(Kept { height: parse_number(height)?, length: parse_number(length)? })
    };
    kept.split(' ').map(parse_one).collect()
}

/// Reads the line of a row and runs it. The error says how they disagree.
pub fn check_line(line: &str) -> Result<(Row, Report), String> {
    let (row, stated) = parse_line(line)?;
    let report = row.run().map_err(|refusal| refusal.to_string())?;
    match report == stated {
        true => Ok((row, report)),
        false => Err(format!("expected {}\nanswered {}", row.line(&stated), row.line(&report))),
    }
}

/// A table and operations on it as documents, and the length of the lent output.
#[derive(Debug, Clone, PartialEq, Eq)]
pub struct Extension {
    pub documents: [Vec<u8>; 2],
    pub output_length: usize,
}

impl Extension {
    /// Runs the reference as [`Case::run`](super::Case::run) does.
    pub fn run(&self) -> Result<Answer, String> {
        run_on_junk(EXTEND, self.output_length, |output| self.run_into(output))
    }

    /// Runs the reference on a given output.
    pub fn run_into(&self, output: &mut [u8]) -> Answer {
        let [table, operations] = &self.documents;
        match extend_table(table, operations, output) {
            Ok(value) => Answer::Ok { value, filler: 0, output: output[..value as usize].to_vec() },
            Err(refusal) => Answer::Refused(refusal),
        }
    }
}

impl fmt::Display for Extension {
    fn fmt(&self, f: &mut fmt::Formatter) -> fmt::Result {
        let [table, operations] = self.documents.each_ref().map(|document| to_hex(document));
        write!(f, "{EXTEND} {table} {operations} {}", self.output_length)
    }
}

/// Reads the line of documents.
pub fn parse_extension(line: &str) -> Result<(Extension, Answer), String> {
    let (extension, answer) = line.split_once(" -> ").ok_or("no ->")?;
    match extension.split_whitespace().collect::<Vec<&str>>()[..] {
        [EXTEND, table, operations, output_length] => {
            let documents = [from_hex(table)?, from_hex(operations)?];
            let output_length = parse_number(output_length)? as usize;
            Ok((Extension { documents, output_length }, parse_answer(answer)?))
        }
        _ => Err(format!("not '{EXTEND}', two documents and a length before ->")),
    }
}

/// Reads the line of documents and runs it. The error says how they disagree.
pub fn check_extension(line: &str) -> Result<(Extension, Answer), String> {
    let (extension, expected) = parse_extension(line)?;
    let answer = extension.run()?;
    match answer == expected {
        true => Ok((extension, answer)),
        false => Err(format!("expected {}, answered {}", shorten(&expected), shorten(&answer))),
    }
}
