//! `lafindry_extend_table`, called as `include/lafindry.h` declares it, and
//! compared with the reports of the reference.

use crate::sides::{Side, Sides};
use crate::tally::{refused_by, Refused};
use crate::{ensure, read_answer, watched, CAnswer, Failure};
use lafindry_reference::extension::{read_operations, Operation, Report};
use lafindry_reference::vectors::operations::{Extension, Row};
use lafindry_reference::vectors::Answer;
use lafindry_reference::{OPERATIONS, OUTPUT, SOURCE};
use std::collections::BTreeMap;

extern "C" {
    fn lafindry_extend_table(
        table: *const u8,
        table_length: usize,
        operations: *const u8,
        operations_length: usize,
        output: *mut u8,
        output_length: usize,
    ) -> CAnswer;
}

/// Calls the library on a table and operations.
pub fn call_extend(documents: &[Vec<u8>; 2], output: &mut [u8]) -> CAnswer {
    let [table, operations] = documents;
    // Each pointer comes with the length of the bytes it points to, and the
    // output, borrowed as mutable, shares no byte with the documents.
    unsafe {
        lafindry_extend_table(
            table.as_ptr(),
            table.len(),
            operations.as_ptr(),
            operations.len(),
            output.as_mut_ptr(),
            output.len(),
        )
    }
}

/// The answer that a C answer stands for, with the report written. The error
/// says that a field which doesn't apply isn't 0.
pub fn read_extension(given: CAnswer, output: &[u8]) -> Result<Answer, String> {
    read_answer(given, Some(output), false)
}

/// Extends a table through C as [`run`](crate::run) runs a case.
fn extend(extension: &Extension) -> Result<Answer, String> {
    watched(&extension.documents, extension.output_length, |documents, output| {
        read_extension(call_extend(documents, output), output)
    })
}

/// What is counted of an answer: the refusal of a document, and of each operation
/// that appends a type or a member the refusal's number; 0 where it is accepted.
#[derive(Debug, Clone, Copy, PartialEq, Eq, PartialOrd, Ord)]
pub enum Extended {
    Document(Refused),
    Type(u64),
    Member(u64),
}

impl Extended {
    /// All that can be counted.
    pub fn all() -> impl Iterator<Item = Extended> {
        let tables = (1..=6).map(|number| (number, SOURCE));
        let others = [(0, 0), (1, OPERATIONS), (2, OPERATIONS), (14, OUTPUT)];
        let documents = tables.chain(others).map(Extended::Document);
        let types = [0, 2, 3, 4, 5, 6].map(Extended::Type);
        documents.chain(types).chain([0, 3, 4, 5, 19].map(Extended::Member))
    }

    /// What is counted of an answer. The error says that what is written is no
    /// report of the operations.
    fn of(extension: &Extension, answer: &Answer) -> Result<Vec<Extended>, String> {
        let mut counted = vec![Extended::Document(refused_by(answer))];
        if let Answer::Ok { output, .. } = answer {
            let report = Report::read(output).ok_or("no report")?;
            let operations = read_operations(&extension.documents[1]).map_err(|_| "no operations")?;
            if report.answers.len() != operations.len() {
                return Err(format!("{} answers", report.answers.len()));
            }
            counted.extend(operations.iter().zip(&report.answers).map(|(operation, answer)| {
                let number = answer.map_or_else(|refusal| refusal.number, |_| 0);
                match operation {
                    Operation::AppendType(_) => Extended::Type(number),
                    Operation::AppendMember { .. } => Extended::Member(number),
                }
            }));
        }
        Ok(counted)
    }

    /// It by name.
    fn name(self) -> String {
        let named = |operation: &str, number: u64| match number {
            0 => format!("{operation} appended"),
            _ => format!("{operation}, {number}"),
        };
        match self {
            Extended::Document((0, _)) => "accepted".to_string(),
            Extended::Document((number, document)) => format!("{number} of document {document}"),
            Extended::Type(number) => named("type", number),
            Extended::Member(number) => named("member", number),
        }
    }
}

/// Compares what the library answers and writes with the reference, and counts
/// the answers of each apart.
#[derive(Default)]
pub struct Extensions {
    counts: Sides<Extended>,
    total: usize,
}

impl Extensions {
    /// Runs the reference and the library, counts both answers, and fails unless
    /// they are equal. Gives the answer.
    pub fn compare(&mut self, extension: &Extension) -> Result<Answer, Failure> {
        let reference =
            extension.run().map_err(|message| Failure(format!("{extension}\nthe reference: {message}")))?;
        let wrong = |problem: String| Failure(format!("{extension} -> {reference}\nthe library: {problem}"));
        let library = extend(extension).map_err(wrong)?;
        for (side, answer) in [(Side::Reference, &reference), (Side::Library, &library)] {
            let counted = Extended::of(extension, answer);
            let counted = counted.map_err(|problem| wrong(format!("{library}: {problem}")))?;
            counted.into_iter().for_each(|extended| self.counts.add(side, extended, true));
        }
        self.total += 1;
        match library == reference {
            true => Ok(library),
            false => Err(wrong(library.to_string())),
        }
    }

    /// The same, and fails unless the answer is a stated one.
    pub fn compare_with(&mut self, extension: &Extension, stated: &Answer) -> Result<(), Failure> {
        let answer = self.compare(extension)?;
        ensure(answer == *stated, format!("{extension} -> {answer}\nstated: {stated}"))
    }

    /// Compares a row on an accepted table, with an output of some length. Gives
    /// the report.
    pub fn compare_row(&mut self, row: &Row, output_length: usize) -> Result<Report, Failure> {
        let extension = row.lent(output_length);
        match self.compare(&extension)? {
            Answer::Ok { output, .. } => {
                Report::read(&output).ok_or_else(|| Failure(format!("{extension}: no report")))
            }
            refused => Err(Failure(format!("{extension} -> {refused}"))),
        }
    }

    /// The same, and fails unless the report is a stated one, for which the output
    /// is just long enough.
    pub fn compare_row_with(&mut self, row: &Row, stated: &Report) -> Result<(), Failure> {
        let report = self.compare_row(row, stated.to_bytes().len())?;
        ensure(report == *stated, format!("{}\nstated: {}", row.line(&report), row.line(stated)))
    }

    /// How many documents of operations were compared.
    pub fn total(&self) -> usize {
        self.total
    }

    /// Prints both counts of each answer after a title. Fails where they differ.
    pub fn finish(self, title: &str) -> Result<BTreeMap<Extended, usize>, Failure> {
        self.counts.reported(&format!("{title}: {} documents", self.total), Extended::name)
    }
}
