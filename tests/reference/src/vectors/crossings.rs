//! Vector lines that count what went across, read, run and written.
//!
//! ```text
//! counted SOURCE TARGET EMBEDDING TREE -> ok ELEMENTS FILLER PATH TYPE@OFFSET,..
//! counted SOURCE TARGET EMBEDDING TREE -> refused NUMBER DOCUMENT MARK
//! ```
//!
//! ELEMENTS, FILLER and PATH are the numbers of all elements of the image, of its
//! filler and of what the paths build. For each source element in document order
//! there are its type and the offset in the image of the element it stands at. The
//! refusals are those of carrying with 60,000 bytes of output.

use super::{from_hex, parse_number, parse_refusal, shorten, to_hex, Case, Entry};
use crate::counted::{count_across, Counted};
use crate::{Refusal, MOST_BYTES};
use std::fmt;

/// The word that these lines begin with.
pub const COUNTED: &str = "counted";

/// Two tables, an embedding and a source tree that is to go across.
#[derive(Debug, Clone, PartialEq, Eq)]
pub struct Crossing {
    pub documents: [Vec<u8>; 4],
}

impl Crossing {
    /// What the reference counts.
    pub fn run(&self) -> Result<Counted, Refusal> {
        let [source, target, embedding, tree] = &self.documents;
        count_across(source, target, embedding, tree)
    }

    /// The case of carrying it.
    pub fn carrying(&self) -> Case {
        Case { entry: Entry::Carry, documents: self.documents.to_vec(), output_length: MOST_BYTES }
    }
}

/// What a line says of a crossing: all but the offsets in the source document.
#[derive(Debug, Clone, PartialEq, Eq)]
pub enum Stated {
    Counted { elements: u64, filler: u64, path: u64, standing: Vec<(u8, u64)> },
    Refused(Refusal),
}

impl Stated {
    /// What a line says of what is counted.
    pub fn of(counted: &Result<Counted, Refusal>) -> Stated {
        match counted {
            Ok(Counted { elements, filler, path, standing }) => {
                let standing = standing.iter().map(|one| (one.element_type, one.image as u64));
                Stated::Counted {
                    elements: *elements,
                    filler: *filler,
                    path: *path,
                    standing: standing.collect(),
                }
            }
            Err(refusal) => Stated::Refused(*refusal),
        }
    }
}

impl fmt::Display for Crossing {
    fn fmt(&self, f: &mut fmt::Formatter) -> fmt::Result {
        let texts = self.documents.each_ref().map(|document| to_hex(document));
        write!(f, "{COUNTED} {}", texts.join(" "))
    }
}

impl fmt::Display for Stated {
    fn fmt(&self, f: &mut fmt::Formatter) -> fmt::Result {
        match self {
            Stated::Counted { elements, filler, path, standing } => {
                let standing: Vec<String> = standing.iter().map(|(t, at)| format!("{t}@{at}")).collect();
                write!(f, "ok {elements} {filler} {path} {}", standing.join(","))
            }
            Stated::Refused(refusal) => refusal.fmt(f),
        }
    }
}

/// Whether a line counts what went across.
pub fn is_crossing(line: &str) -> bool {
    line.split_whitespace().next() == Some(COUNTED)
}

/// Reads such a line.
pub fn parse_line(line: &str) -> Result<(Crossing, Stated), String> {
    let (crossing, stated) = line.split_once(" -> ").ok_or("no ->")?;
    Ok((parse_crossing(crossing)?, parse_stated(stated)?))
}

/// Reads the part of a line before the arrow.
fn parse_crossing(text: &str) -> Result<Crossing, String> {
    match text.split_whitespace().collect::<Vec<&str>>()[..] {
        [COUNTED, source, target, embedding, tree] => {
            let documents = [from_hex(source)?, from_hex(target)?, from_hex(embedding)?, from_hex(tree)?];
            Ok(Crossing { documents })
        }
        _ => Err(format!("not '{COUNTED}' and four documents before ->")),
    }
}

/// Reads the part of a line after the arrow.
pub fn parse_stated(text: &str) -> Result<Stated, String> {
    match text.split_whitespace().collect::<Vec<&str>>()[..] {
        ["ok", elements, filler, path, standing] => Ok(Stated::Counted {
            elements: parse_number(elements)?,
            filler: parse_number(filler)?,
            path: parse_number(path)?,
            standing: standing.split(',').map(parse_standing).collect::<Result<_, _>>()?,
        }),
        ["refused", ref numbers @ ..] => Ok(Stated::Refused(parse_refusal(numbers)?)),
        _ => Err("not what is counted".to_string()),
    }
}

/// Reads a type and an offset.
fn parse_standing(text: &str) -> Result<(u8, u64), String> {
    let (t, offset) = text.split_once('@').ok_or_else(|| format!("{text}: no @"))?;
    Ok((t.parse().map_err(|_| format!("{t}: not a type"))?, parse_number(offset)?))
}

/// Reads such a line and runs it. The error says how they disagree.
pub fn check_line(line: &str) -> Result<(Crossing, Result<Counted, Refusal>), String> {
    let (crossing, expected) = parse_line(line)?;
    let counted = crossing.run();
    let stated = Stated::of(&counted);
    match stated == expected {
        true => Ok((crossing, counted)),
        false => Err(format!("expected {}, answered {}", shorten(&expected), shorten(&stated))),
    }
}
