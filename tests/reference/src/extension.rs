//! Tables that keep their sums (paper 02, N8). A loaded table keeps the height
//! and the filler's length of each type; a type can be appended to it, and a
//! member to a choice of either kind. [`extend_table`] carries out the operations
//! of a document, whose form is this project's own:
//!
//! ```text
//! 51 n, then n bytes   append the type whose own commands these bytes are
//! 52 t m               append member m to type t
//! ```

use crate::image::fillers;
use crate::table::{self, ContentModel, Table};
use crate::{check_length, Refusal, MOST_BYTES, MOST_MEMBERS, MOST_TYPES, OPERATIONS, OUTPUT, SOURCE};

/// The greatest filler length that is kept; longer ones are held at it.
pub const MOST_KEPT: u64 = MOST_BYTES as u64 + 1;

/// The greatest length of a report: of 64 types and of 30,000 types of no bytes,
/// which are the most operations that a document has.
pub const MOST_REPORT: usize = 1 + 3 * MOST_TYPES + MOST_BYTES;

/// What is kept of a type: its height, and the length of its filler element.
#[derive(Debug, Clone, Copy, PartialEq, Eq)]
pub struct Kept {
    pub height: u64,
    pub length: u64,
}

/// A valid table with what is kept of each type.
#[derive(Debug, Clone, PartialEq, Eq)]
pub struct LoadedTable {
    pub table: Table,
    pub kept: Vec<Kept>,
}

impl LoadedTable {
    /// Loads an accepted table.
    pub fn new(table: Table) -> LoadedTable {
        let fillers = fillers(&table);
        let kept =
            fillers.iter().map(|filler| Kept { height: filler.height, length: filler.length.min(MOST_KEPT) });
        LoadedTable { kept: kept.collect(), table }
    }

    /// Carries out an operation and answers the number of types. A refused one
    /// leaves the table as it was.
    pub fn operate(&mut self, operation: &Operation) -> Result<u64, Refusal> {
        let table = extended(&self.table, operation).map_err(|number| Refusal::new(number, SOURCE, 0))?;
        *self = LoadedTable::new(table);
        Ok(self.table.types.len() as u64)
    }
}

/// An operation on a loaded table. What it appends becomes the last.
#[derive(Debug, Clone, PartialEq, Eq)]
pub enum Operation {
    /// Append the type whose own commands these bytes are.
    AppendType(Vec<u8>),
    /// Append a member to a type.
    AppendMember { extended: u8, member: u8 },
}

impl Operation {
    /// The bytes of this operation in a document. A type has at most 255 bytes.
    pub fn to_bytes(&self) -> Vec<u8> {
        match self {
            Operation::AppendType(commands) => {
                let count = u8::try_from(commands.len()).expect("at most 255 bytes");
                [&[0x51, count], &commands[..]].concat()
            }
            Operation::AppendMember { extended, member } => vec![0x52, *extended, *member],
        }
    }

    /// The operation that some bytes begin with, if one can be read there.
    fn read(bytes: &[u8]) -> Option<Operation> {
        match *bytes {
            [0x51, count, ref rest @ ..] => Some(Operation::AppendType(rest.get(..count as usize)?.to_vec())),
            [0x52, extended, member, ..] => Some(Operation::AppendMember { extended, member }),
            _ => None,
        }
    }
}

/// The document of some operations.
pub fn document_of(operations: &[Operation]) -> Vec<u8> {
    operations.iter().flat_map(Operation::to_bytes).collect()
}

/// The operations of a document, or the offset of the first that can't be read.
pub fn read_operations(bytes: &[u8]) -> Result<Vec<Operation>, usize> {
    let (mut operations, mut offset) = (Vec::new(), 0);
    while offset < bytes.len() {
        let operation = Operation::read(&bytes[offset..]).ok_or(offset)?;
        offset += operation.to_bytes().len();
        operations.push(operation);
    }
    Ok(operations)
}

/// A valid table after an operation, or the number of the refusal.
fn extended(table: &Table, operation: &Operation) -> Result<Table, u64> {
    let mut table = table.clone();
    let changed = match operation {
        Operation::AppendType(commands) => {
            table.types.push(table::read_one(commands).ok_or(2_u64)?);
            table.types.len() - 1
        }
        Operation::AppendMember { extended, member } => match table.types.get_mut(*extended as usize) {
            Some(ContentModel::Choice(members) | ContentModel::OptionalChoice(members)) => {
                members.push(*member);
                *extended as usize
            }
            _ => return Err(19),
        },
    };
    match fault_of(&table, changed) {
        Some(number) => Err(number),
        None => Ok(table),
    }
}

/// The first of the refusals 3 to 6 that the changed type of a table brings
/// about, where all others are valid.
fn fault_of(table: &Table, changed: usize) -> Option<u64> {
    let (model, count) = (&table.types[changed], table.types.len());
    let named = model.named();
    let repeats = || (1..named.len()).any(|at| named[..at].contains(&named[at]));
    if count > MOST_TYPES || named.len() > MOST_MEMBERS {
        Some(3)
    } else if named.iter().any(|&member| member as usize >= count) {
        Some(4)
    } else if model.is_choice() && repeats() {
        Some(5)
    } else {
        table.heights()[changed].is_none().then_some(6)
    }
}

/// What is reported of the operations on a table: the answer to each, and what
/// is kept of each type after the last.
#[derive(Debug, Clone, PartialEq, Eq)]
pub struct Report {
    pub answers: Vec<Result<u64, Refusal>>,
    pub kept: Vec<Kept>,
}

impl Report {
    /// The bytes of this report: the number of types, three bytes a type and two
    /// an operation.
    pub fn to_bytes(&self) -> Vec<u8> {
        let mut bytes = vec![self.kept.len() as u8];
        for Kept { height, length } in &self.kept {
            bytes.extend([*height as u8, (length / 256) as u8, (length % 256) as u8]);
        }
        for answer in &self.answers {
            bytes.extend(match answer {
                Ok(types) => [0, *types as u8],
                Err(refusal) => [refusal.number as u8, 0],
            });
        }
        bytes
    }

    /// The report that some bytes are, if they are one.
    pub fn read(bytes: &[u8]) -> Option<Report> {
        let (&types, rest) = bytes.split_first()?;
        let (kept, answers) = rest.split_at_checked(3 * types as usize)?;
        let kept = kept.chunks(3).map(|kept| Kept {
            height: kept[0].into(),
            length: 256 * u64::from(kept[1]) + u64::from(kept[2]),
        });
        let answers = answers.chunks(2).map(|answer| match *answer {
            [0, types] => Some(Ok(types.into())),
            [number, 0] => Some(Err(Refusal::new(number.into(), SOURCE, 0))),
            _ => None,
        });
        Some(Report { answers: answers.collect::<Option<_>>()?, kept: kept.collect() })
    }
}

/// Carries out the operations of a document one after the other on a table.
pub fn report(table: &[u8], operations: &[u8]) -> Result<Report, Refusal> {
    let table = table::accept(table, SOURCE)?;
    check_length(operations, OPERATIONS)?;
    let operations = read_operations(operations).map_err(|offset| Refusal::new(2, OPERATIONS, offset))?;
    let mut loaded = LoadedTable::new(table);
    let answers = operations.iter().map(|operation| loaded.operate(operation)).collect();
    Ok(Report { answers, kept: loaded.kept })
}

/// Writes the report of the operations on a table at the start of the output and
/// answers its length.
pub fn extend_table(table: &[u8], operations: &[u8], output: &mut [u8]) -> Result<u64, Refusal> {
    let report = report(table, operations)?.to_bytes();
    let written = output.get_mut(..report.len()).ok_or(Refusal::new(14, OUTPUT, 0))?;
    written.copy_from_slice(&report);
    Ok(report.len() as u64)
}
