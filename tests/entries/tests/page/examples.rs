//! The cases of the page.
//!
//! A code block `case` holds lines `key: value`; a line that begins with a
//! blank goes on with the value above it.
//!
//! | Key | Value |
//! |---|---|
//! | `name` | the case's name; its documents are then `name.source` and so on |
//! | `like` | an earlier case, which the documents not stated are taken from |
//! | `entry` | `judge table`, `judge embedding`, `judge tree`, `carry`, `bring back`, `read along`, `explain clash` or `extend table` |
//! | `table`, `source`, `target`, `embedding`, `tree`, `operations` | a document, see [`terms`](super::terms) |
//! | `room` | length of the lent output; 60,000 where it is not stated |
//! | `answer` | `accepted N`, `carried LENGTH FILLER`, `brought LENGTH`, `read LENGTH ASIDE`, `extended LENGTH` or `refused NUMBER DOCUMENT MARK` |
//! | `output` | the document written; stated where one is written |
//! | `report` | the report written; stated where one is written |
//! | `heights` | heights of the target table's types, in order |
//! | `counted` | of `carry`: the image's elements, filler and path elements, and where the source elements stand, as vector lines have it |
//!
//! The answer of `explain clash` is `clash TYPE EARLIER LATER SHARED REASON`, with
//! a reason as vector lines have it, `none accepted N` or `none refused NUMBER
//! DOCUMENT MARK`.

use super::terms::{bytes_of, Named};
use super::{Block, Line, Page};
use lafindry_entries::Failure;
use lafindry_reference::vectors::crossings;
use lafindry_reference::vectors::explanations::{parse_stated, Question, Stated};
use lafindry_reference::vectors::operations::Extension;
use lafindry_reference::vectors::{Answer, Case, Entry};
use lafindry_reference::{Refusal, MOST_BYTES};
use std::collections::BTreeMap;

/// The keys that name documents which an entry is given.
const DOCUMENTS: [&str; 6] = ["table", "source", "target", "embedding", "tree", "operations"];
/// The other keys.
const OTHERS: [&str; 9] =
    ["name", "like", "entry", "room", "answer", "output", "report", "heights", "counted"];
/// Those of them whose values are bytes.
const WRITTEN: [&str; 2] = ["output", "report"];

/// A case of the page.
pub struct Example<'a> {
    /// The line that opens its code block.
    pub line: Line<'a>,
    pub name: Option<&'a str>,
    pub asked: Asked,
}

/// What a case asks, and what the page answers.
pub enum Asked {
    Entry { case: Case, answer: Answer, heights: Option<Vec<u64>>, counted: Option<crossings::Stated> },
    Explanation { question: Question, stated: Stated },
    Extension { extension: Extension, answer: Answer },
}

impl Example<'_> {
    /// The documents that are given.
    pub fn documents(&self) -> &[Vec<u8>] {
        match &self.asked {
            Asked::Entry { case, .. } => &case.documents,
            Asked::Explanation { question, .. } => &question.documents,
            Asked::Extension { extension, .. } => &extension.documents,
        }
    }

    /// The answer where something is accepted, but for an explanation: what is
    /// written, empty where nothing is, and the number of filler elements.
    pub fn accepted(&self) -> Option<(&Vec<u8>, u64)> {
        match &self.asked {
            Asked::Entry { answer: Answer::Ok { output, filler, .. }, .. }
            | Asked::Extension { answer: Answer::Ok { output, filler, .. }, .. } => Some((output, *filler)),
            _ => None,
        }
    }
}

/// All cases, and their documents by name.
#[derive(Default)]
pub struct Examples<'a> {
    pub all: Vec<Example<'a>>,
    pub named: Named,
}

impl<'a> Examples<'a> {
    /// Reads the cases of the page in order.
    pub fn read(page: &Page<'a>) -> Result<Examples<'a>, Failure> {
        let mut examples = Examples::default();
        for block in page.of_kind("case") {
            examples.add(block)?;
        }
        Ok(examples)
    }

    /// The case that has a name.
    pub fn of_name(&self, name: &str) -> Option<&Example<'a>> {
        self.all.iter().find(|example| example.name == Some(name))
    }

    /// Whether some document of a case, given or written, has these bytes in a
    /// row.
    pub fn have(&self, bytes: &[u8]) -> bool {
        let has = |document: &Vec<u8>| document.windows(bytes.len()).any(|part| part == bytes);
        self.all.iter().any(|example| {
            let written = example.accepted().is_some_and(|(output, _)| has(output));
            written || example.documents().iter().any(has)
        })
    }

    /// Reads a case and keeps its documents by name.
    fn add(&mut self, block: &Block<'a>) -> Result<(), Failure> {
        let fields = Fields::read(block)?;
        let name = fields.get("name").map(|field| field.1.trim());
        if let Some(name) = name {
            let plain = name.bytes().all(|letter| matches!(letter, b'a'..=b'z' | b'0'..=b'9' | b'-'));
            if !plain || name.is_empty() || self.of_name(name).is_some() {
                return Err(block.opening.fault(format!("'{name}' is no name, or not a new one")));
            }
        }
        let called = fields.called()?;
        let keys = called.keys();
        fields.only(&keys, called)?;
        let like = fields.like(self)?;
        let documents = keys.iter().map(|key| fields.document(key, like, &self.named));
        let documents: Vec<Vec<u8>> = documents.collect::<Result<_, _>>()?;
        let given = keys.iter().zip(documents.clone());
        let asked = match called {
            Called::Entry(entry) => fields.of_entry(entry, documents, &self.named)?,
            Called::Explain => fields.of_explanation(documents)?,
            Called::Extend => fields.of_extension(documents, &self.named)?,
        };
        let example = Example { line: block.opening, name, asked };
        if let Some(name) = name {
            self.named.extend(given.map(|(key, bytes)| (format!("{name}.{key}"), bytes)));
            if let (Some((output, _)), Some(key)) = (example.accepted(), called.written()) {
                self.named.insert(format!("{name}.{key}"), output.clone());
            }
        }
        self.all.push(example);
        Ok(())
    }
}

/// What a case calls: an entry, the explanation of a clash, or operations on a
/// table.
#[derive(Debug, Clone, Copy, PartialEq, Eq)]
enum Called {
    Entry(Entry),
    Explain,
    Extend,
}

impl Called {
    /// What has a name on the page.
    fn of(text: &str) -> Option<Called> {
        let mut all = Entry::ALL.into_iter().map(Called::Entry).chain([Called::Explain, Called::Extend]);
        all.find(|called| called.title() == text)
    }

    /// The name that the page has for it.
    fn title(self) -> String {
        match self {
            Called::Entry(entry) => entry.name().replace('_', " "),
            Called::Explain => "explain clash".to_string(),
            Called::Extend => "extend table".to_string(),
        }
    }

    /// The documents that it is given, in order.
    fn keys(self) -> Vec<&'static str> {
        match self {
            Called::Entry(Entry::JudgeTable) => vec!["table"],
            Called::Entry(Entry::JudgeTree) => vec!["table", "tree"],
            Called::Entry(Entry::JudgeEmbedding) | Called::Explain => vec!["source", "target", "embedding"],
            Called::Entry(Entry::Carry | Entry::BringBack | Entry::ReadAlong) => {
                vec!["source", "target", "embedding", "tree"]
            }
            Called::Extend => vec!["table", "operations"],
        }
    }

    /// The key of what it writes, if it is lent an output.
    fn written(self) -> Option<&'static str> {
        match self {
            Called::Entry(entry) => entry.writes().then_some("output"),
            Called::Explain => None,
            Called::Extend => Some("report"),
        }
    }
}

/// Reads a number.
fn number(line: Line, text: &str) -> Result<u64, Failure> {
    text.trim().parse().map_err(|_| line.fault(format!("'{text}' is no number")))
}

/// The values of a code block by key, each with its line.
struct Fields<'a> {
    opening: Line<'a>,
    values: BTreeMap<&'a str, (Line<'a>, String)>,
    texts: BTreeMap<&'a str, &'a str>,
}

impl<'a> Fields<'a> {
    /// Reads the lines of a code block.
    fn read(block: &Block<'a>) -> Result<Fields<'a>, Failure> {
        let (mut values, mut texts) = (BTreeMap::new(), BTreeMap::new());
        let mut last = None;
        for &line in &block.lines {
            if line.text.starts_with(' ') {
                let document = last.filter(|key| DOCUMENTS.contains(key) || WRITTEN.contains(key));
                let value: Option<&mut (Line, String)> = document.and_then(|key| values.get_mut(key));
                let value =
                    value.ok_or_else(|| line.fault("no document stands above that this goes on with"))?;
                value.1.push_str(line.text);
                continue;
            }
            let (key, text) = line.text.split_once(": ").ok_or_else(|| line.fault("no 'key: value'"))?;
            if !DOCUMENTS.contains(&key) && !OTHERS.contains(&key) {
                return Err(line.fault(format!("no key: '{key}'")));
            }
            if values.insert(key, (line, text.to_string())).is_some() {
                return Err(line.fault(format!("'{key}' a second time")));
            }
            texts.insert(key, text);
            last = Some(key);
        }
        Ok(Fields { opening: block.opening, values, texts })
    }

    /// A value on one line, and the line.
    fn get(&self, key: &str) -> Option<(Line<'a>, &'a str)> {
        Some((self.values.get(key)?.0, *self.texts.get(key)?))
    }

    /// A value on one line that has to be there.
    fn needed(&self, key: &str) -> Result<(Line<'a>, &'a str), Failure> {
        self.get(key).ok_or_else(|| self.opening.fault(format!("the case has no '{key}'")))
    }

    /// What is called.
    fn called(&self) -> Result<Called, Failure> {
        let (line, text) = self.needed("entry")?;
        Called::of(text).ok_or_else(|| line.fault(format!("'{text}' is no entry")))
    }

    /// Fails where a value is stated that what is called does not use.
    fn only(&self, keys: &[&str], called: Called) -> Result<(), Failure> {
        let unused = |key: &str| match key {
            "room" => called.written().is_none(),
            "output" | "report" => called.written() != Some(key),
            "heights" => !keys.contains(&"target") || called == Called::Explain,
            "counted" => called != Called::Entry(Entry::Carry),
            _ => DOCUMENTS.contains(&key) && !keys.contains(&key),
        };
        match self.values.iter().find(|(key, _)| unused(key)) {
            Some((key, (line, _))) => Err(line.fault(format!("'{}' takes no '{key}'", called.title()))),
            None => Ok(()),
        }
    }

    /// The case of an entry, with its answer.
    fn of_entry(&self, entry: Entry, documents: Vec<Vec<u8>>, named: &Named) -> Result<Asked, Failure> {
        let output_length = if entry.writes() { self.room()? } else { 0 };
        let answer = self.answer(Called::Entry(entry), named)?;
        let (heights, counted) = (self.heights()?, self.counted()?);
        Ok(Asked::Entry { case: Case { entry, documents, output_length }, answer, heights, counted })
    }

    /// Operations on a table, with their answer.
    fn of_extension(&self, documents: Vec<Vec<u8>>, named: &Named) -> Result<Asked, Failure> {
        let documents = documents.try_into().map_err(|_| self.opening.fault("two documents are needed"))?;
        let extension = Extension { documents, output_length: self.room()? };
        Ok(Asked::Extension { extension, answer: self.answer(Called::Extend, named)? })
    }

    /// The length of the lent output.
    fn room(&self) -> Result<usize, Failure> {
        self.get("room").map_or(Ok(MOST_BYTES), |(line, text)| Ok(number(line, text)? as usize))
    }

    /// The question why paths clash, with what is stated. What a line of a vector
    /// file says by `none ok`, the page says by `none accepted`.
    fn of_explanation(&self, documents: Vec<Vec<u8>>) -> Result<Asked, Failure> {
        let (line, text) = self.needed("answer")?;
        let in_vectors = match text.strip_prefix("none accepted ") {
            Some(edges) => format!("none ok {edges}"),
            None => text.to_string(),
        };
        let stated = parse_stated(&in_vectors).ok().filter(|_| !text.starts_with("none ok"));
        let wrong = || line.fault(format!("'{text}' is no answer of '{}'", Called::Explain.title()));
        let stated = stated.ok_or_else(wrong)?;
        let documents = documents.try_into().map_err(|_| line.fault("three documents are needed"))?;
        Ok(Asked::Explanation { question: Question { documents }, stated })
    }

    /// The name of the case that documents are taken from.
    fn like(&self, earlier: &Examples) -> Result<Option<&'a str>, Failure> {
        match self.get("like") {
            Some((line, name)) if earlier.of_name(name).is_none() => {
                Err(line.fault(format!("no earlier case '{name}'")))
            }
            other => Ok(other.map(|(_, name)| name)),
        }
    }

    /// A document, stated or taken from another case.
    fn document(&self, key: &str, like: Option<&str>, named: &Named) -> Result<Vec<u8>, Failure> {
        match (self.values.get(key), like) {
            (Some((line, text)), _) => bytes_of(text, named).map_err(|message| line.fault(message)),
            (None, Some(name)) if named.contains_key(&format!("{name}.{key}")) => {
                Ok(named[&format!("{name}.{key}")].clone())
            }
            _ => Err(self.opening.fault(format!("the case has no '{key}'"))),
        }
    }

    /// The answer, with what is written where something is.
    fn answer(&self, called: Called, named: &Named) -> Result<Answer, Failure> {
        let (line, text) = self.needed("answer")?;
        let words: Vec<&str> = text.split(' ').collect();
        let numbers = words[1..].iter().map(|word| number(line, word));
        let numbers: Vec<u64> = numbers.collect::<Result<_, _>>()?;
        let written = called.written().and_then(|key| self.values.get(key));
        let output = written.map(|(line, text)| bytes_of(text, named).map_err(|message| line.fault(message)));
        match (called, words[0], &numbers[..], output) {
            (_, "refused", &[number, document, mark], None) => {
                Ok(Answer::Refused(Refusal { number, document, mark }))
            }
            (Called::Entry(Entry::Carry), "carried", &[value, filler], Some(output))
            | (Called::Entry(Entry::ReadAlong), "read", &[value, filler], Some(output)) => {
                Ok(Answer::Ok { value, filler, output: output? })
            }
            (Called::Entry(Entry::BringBack), "brought", &[value], Some(output))
            | (Called::Extend, "extended", &[value], Some(output)) => {
                Ok(Answer::Ok { value, filler: 0, output: output? })
            }
            (called, "accepted", &[value], None) if called.written().is_none() => {
                Ok(Answer::Ok { value, filler: 0, output: Vec::new() })
            }
            _ => Err(line.fault(format!(
                "'{text}' is no answer of '{}'; an output stands with 'carried', 'brought' and 'read', a report \
                 with 'extended', and only there",
                called.title()
            ))),
        }
    }

    /// The heights stated, if any.
    fn heights(&self) -> Result<Option<Vec<u64>>, Failure> {
        let Some((line, text)) = self.get("heights") else { return Ok(None) };
        text.split(' ').map(|word| number(line, word)).collect::<Result<_, _>>().map(Some)
    }

    /// What is stated of what went across, if anything is.
    fn counted(&self) -> Result<Option<crossings::Stated>, Failure> {
        let Some((line, text)) = self.get("counted") else { return Ok(None) };
        let stated = crossings::parse_stated(&format!("ok {text}"));
        stated.map(Some).map_err(|message| line.fault(format!("'{text}': {message}")))
    }
}
