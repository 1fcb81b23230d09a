//! Vector lines that ask why paths clash, read, run and written.
//!
//! ```text
//! explain SOURCE TARGET EMBEDDING -> clash TYPE EARLIER LATER SHARED REASON
//! explain SOURCE TARGET EMBEDDING -> none ok EDGES
//! explain SOURCE TARGET EMBEDDING -> none refused NUMBER DOCUMENT MARK
//! ```
//!
//! REASON is the name of a [`Reason`].

use super::{from_hex, parse_number, parse_refusal, to_hex};
use crate::explanation::{explain_clash, Clash, Explanation, Reason};
use crate::Refusal;
use std::fmt;

/// The word that these lines begin with.
pub const EXPLAIN: &str = "explain";

/// The tables and the embedding of which an explanation is asked.
#[derive(Debug, Clone, PartialEq, Eq)]
pub struct Question {
    pub documents: [Vec<u8>; 3],
}

impl Question {
    /// The explanation of the reference.
    pub fn run(&self) -> Explanation {
        let [source, target, embedding] = &self.documents;
        explain_clash(source, target, embedding)
    }
}

/// What a line says of an explanation: all but the mark of a clash.
#[derive(Debug, Clone, Copy, PartialEq, Eq)]
pub enum Stated {
    Clash(Clash),
    Nothing(Result<u64, Refusal>),
}

impl Stated {
    /// What a line says of an explanation.
    pub fn of(explanation: &Explanation) -> Stated {
        match *explanation {
            Explanation::Clash { clash, .. } => Stated::Clash(clash),
            Explanation::Nothing(judged) => Stated::Nothing(judged),
        }
    }
}

impl fmt::Display for Question {
    fn fmt(&self, f: &mut fmt::Formatter) -> fmt::Result {
        let [source, target, embedding] = self.documents.each_ref().map(|document| to_hex(document));
        write!(f, "{EXPLAIN} {source} {target} {embedding}")
    }
}

impl fmt::Display for Stated {
    fn fmt(&self, f: &mut fmt::Formatter) -> fmt::Result {
        match *self {
            Stated::Clash(Clash { source_type, earlier, later, shared, reason }) => {
                write!(f, "clash {source_type} {earlier} {later} {shared} {}", reason.name())
            }
            Stated::Nothing(Ok(edges)) => write!(f, "none ok {edges}"),
            Stated::Nothing(Err(refusal)) => write!(f, "none {refusal}"),
        }
    }
}

impl fmt::Display for Explanation {
    fn fmt(&self, f: &mut fmt::Formatter) -> fmt::Result {
        Stated::of(self).fmt(f)
    }
}

/// Whether a line asks for an explanation.
pub fn is_question(line: &str) -> bool {
    line.split_whitespace().next() == Some(EXPLAIN)
}

/// Reads such a line.
pub fn parse_line(line: &str) -> Result<(Question, Stated), String> {
    let (question, stated) = line.split_once(" -> ").ok_or("no ->")?;
    Ok((parse_question(question)?, parse_stated(stated)?))
}

/// Reads the part of a line before the arrow.
fn parse_question(text: &str) -> Result<Question, String> {
    match text.split_whitespace().collect::<Vec<&str>>()[..] {
        [EXPLAIN, source, target, embedding] => {
            Ok(Question { documents: [from_hex(source)?, from_hex(target)?, from_hex(embedding)?] })
        }
        _ => Err(format!("not '{EXPLAIN}' and three documents before ->")),
    }
}

/// Reads the part of a line after the arrow.
pub fn parse_stated(text: &str) -> Result<Stated, String> {
    match text.split_whitespace().collect::<Vec<&str>>()[..] {
        ["clash", source_type, earlier, later, shared, name] => {
            let reason = Reason::ALL.into_iter().find(|reason| reason.name() == name);
            Ok(Stated::Clash(Clash {
                source_type: parse_number(source_type)?,
                earlier: parse_number(earlier)?,
                later: parse_number(later)?,
                shared: parse_number(shared)?,
                reason: reason.ok_or_else(|| format!("{name}: no reason"))?,
            }))
        }
        ["none", "ok", edges] => Ok(Stated::Nothing(Ok(parse_number(edges)?))),
        ["none", "refused", ref numbers @ ..] => Ok(Stated::Nothing(Err(parse_refusal(numbers)?))),
        _ => Err("no such explanation".to_string()),
    }
}

/// Reads such a line and runs it. The error says how they disagree.
pub fn check_line(line: &str) -> Result<(Question, Explanation), String> {
    let (question, stated) = parse_line(line)?;
    let explanation = question.run();
    match Stated::of(&explanation) == stated {
        true => Ok((question, explanation)),
        false => Err(format!("expected {stated}, answered {explanation}")),
    }
}
