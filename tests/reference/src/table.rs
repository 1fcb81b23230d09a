//! Tables: the form of their documents, the checks, and the table in memory.

use crate::reader::{Operand, Reader};
use crate::{check_length, refuse_at, Refusal, MOST_MEMBERS, MOST_TYPES};

/// What the elements of a type hold.
#[derive(Debug, Clone, PartialEq, Eq)]
pub enum ContentModel {
    Text,
    Empty,
    Sequence(Vec<u8>),
    Choice(Vec<u8>),
    OptionalChoice(Vec<u8>),
    List(u8),
}

impl ContentModel {
    /// The number of edges: one for the characters of a text, none for an
    /// empty type, one for each member, one for the items of a list.
    pub fn edges(&self) -> usize {
        match self {
            ContentModel::Text | ContentModel::List(_) => 1,
            ContentModel::Empty => 0,
            ContentModel::Sequence(members)
            | ContentModel::Choice(members)
            | ContentModel::OptionalChoice(members) => members.len(),
        }
    }

    /// The types named: the members, or the type of the items.
    pub fn named(&self) -> &[u8] {
        match self {
            ContentModel::Text | ContentModel::Empty => &[],
            ContentModel::Sequence(members)
            | ContentModel::Choice(members)
            | ContentModel::OptionalChoice(members) => members,
            ContentModel::List(item) => std::slice::from_ref(item),
        }
    }

    /// Whether it is a choice of either kind.
    pub fn is_choice(&self) -> bool {
        matches!(self, ContentModel::Choice(_) | ContentModel::OptionalChoice(_))
    }

    /// Whether it is an optional choice.
    pub fn is_optional(&self) -> bool {
        matches!(self, ContentModel::OptionalChoice(_))
    }

    /// Whether it is a list.
    pub fn is_list(&self) -> bool {
        matches!(self, ContentModel::List(_))
    }

    /// The commands of a type of this model.
    pub fn to_bytes(&self) -> Vec<u8> {
        let code = match self {
            ContentModel::Text => 0x10,
            ContentModel::Empty => 0x11,
            ContentModel::Sequence(_) => 0x12,
            ContentModel::Choice(_) => 0x13,
            ContentModel::OptionalChoice(_) => 0x17,
            ContentModel::List(item) => return vec![0x14, *item],
        };
        let members = self.named().iter().flat_map(|&member| [0x15, member]);
        [code].into_iter().chain(members).collect()
    }
}

/// A table. The root is type 0.
#[derive(Debug, Clone, PartialEq, Eq)]
pub struct Table {
    pub types: Vec<ContentModel>,
}

impl Table {
    /// The number of edges of all types.
    pub fn edges(&self) -> usize {
        self.types.iter().map(ContentModel::edges).sum()
    }

    /// The type that step `p` from a type leads to, if there is such a step.
    pub fn step(&self, from: u8, p: u8) -> Option<u8> {
        let named = self.types[from as usize].named();
        named.get((p as usize).checked_sub(1)?).copied()
    }

    /// The height of each type; `None` for a type without a finite instance.
    /// The types of height h are found in round h, from those found before.
    pub fn heights(&self) -> Vec<Option<u64>> {
        let mut heights = vec![None; self.types.len()];
        for round in 1..=self.types.len() as u64 {
            let found = heights.clone();
            let known = |t: &u8| found[*t as usize].is_some();
            for (model, height) in self.types.iter().zip(&mut heights) {
                let has_height = match model {
                    ContentModel::Sequence(members) => members.iter().all(known),
                    ContentModel::Choice(members) => members.iter().any(known),
                    _ => true,
                };
                if has_height && height.is_none() {
                    *height = Some(round);
                }
            }
        }
        heights
    }

    /// The document of this table.
    pub fn to_bytes(&self) -> Vec<u8> {
        let commands = self.types.iter().flat_map(ContentModel::to_bytes);
        commands.chain([0x1F]).collect()
    }
}

/// A type as written: the offset and byte of its command, and the commands
/// that name types (its members, or the list command itself).
struct Written {
    offset: usize,
    code: u8,
    named: Vec<Operand>,
}

/// Judges a table by refusals 1 to 6 and gives it.
pub fn accept(bytes: &[u8], document: u64) -> Result<Table, Refusal> {
    check_length(bytes, document)?;
    let types = read(bytes).map_err(|mark| Refusal::new(2, document, mark))?;
    refuse_at(too_many(&types), 3, document)?;
    refuse_at(no_such_type(&types), 4, document)?;
    refuse_at(named_twice(&types), 5, document)?;
    let table = Table { types: types.iter().map(model).collect() };
    refuse_at(table.heights().iter().position(Option::is_none), 6, document)?;
    Ok(table)
}

/// Check 2: reads the types, or gives the offset to be marked.
fn read(bytes: &[u8]) -> Result<Vec<Written>, usize> {
    let mut reader = Reader::new(bytes);
    let mut types = Vec::new();
    while types.is_empty() || reader.peek() != Some(0x1F) {
        types.push(read_type(&mut reader)?);
    }
    reader.end(0x1F)?;
    Ok(types)
}

/// The content model that some bytes write, if they are exactly one type's own
/// commands.
pub fn read_one(bytes: &[u8]) -> Option<ContentModel> {
    let mut reader = Reader::new(bytes);
    let written = read_type(&mut reader).ok()?;
    reader.peek().is_none().then(|| model(&written))
}

/// Reads one type with its members.
fn read_type(reader: &mut Reader) -> Result<Written, usize> {
    let offset = reader.offset;
    let code = reader.peek().ok_or(offset)?;
    let named = match code {
        0x10 | 0x11 => {
            reader.bare(code)?;
            Vec::new()
        }
        0x12 | 0x17 => read_members(reader, code, 1)?,
        0x13 => read_members(reader, code, 2)?,
        0x14 => vec![reader.with_operand(code)?],
        _ => return Err(offset),
    };
    Ok(Written { offset, code, named })
}

/// Reads the command of a sequence or a choice of either kind and its members.
fn read_members(reader: &mut Reader, code: u8, least: usize) -> Result<Vec<Operand>, usize> {
    reader.bare(code)?;
    let mut members = Vec::new();
    while members.len() < least || reader.peek() == Some(0x15) {
        members.push(reader.with_operand(0x15)?);
    }
    Ok(members)
}

/// Check 3: the 65th type or a 17th member.
fn too_many(types: &[Written]) -> Option<usize> {
    for (number, written) in types.iter().enumerate() {
        if number == MOST_TYPES {
            return Some(written.offset);
        }
        if let Some(member) = written.named.get(MOST_MEMBERS) {
            return Some(member.offset);
        }
    }
    None
}

/// Check 4: the first command that names no type of the table.
fn no_such_type(types: &[Written]) -> Option<usize> {
    let mut named = types.iter().flat_map(|written| &written.named);
    let wrong = named.find(|operand| operand.value as usize >= types.len())?;
    Some(wrong.offset)
}

/// Check 5: the first member of a choice of either kind that names a type
/// named before.
fn named_twice(types: &[Written]) -> Option<usize> {
    for written in types.iter().filter(|written| matches!(written.code, 0x13 | 0x17)) {
        for (place, member) in written.named.iter().enumerate() {
            let before = &written.named[..place];
            if before.iter().any(|earlier| earlier.value == member.value) {
                return Some(member.offset);
            }
        }
    }
    None
}

/// The content model of a type as written.
fn model(written: &Written) -> ContentModel {
    let named: Vec<u8> = written.named.iter().map(|operand| operand.value).collect();
    match written.code {
        0x10 => ContentModel::Text,
        0x11 => ContentModel::Empty,
        0x12 => ContentModel::Sequence(named),
        0x13 => ContentModel::Choice(named),
        0x17 => ContentModel::OptionalChoice(named),
        _ => ContentModel::List(named[0]),
    }
}
