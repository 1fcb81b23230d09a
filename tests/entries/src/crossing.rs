//! What went across, counted on what the C entries answer and write, and compared
//! with what the reference counts.
//!
//! The filler elements are those that carrying answers, and the elements of both
//! documents those that judging them answers. The elements that the paths build
//! are the reference's sum, which looks at no image. Where source elements stand
//! is found in the bytes written.

use crate::sides::{Side, Sides};
use crate::tally::{Histogram, Tally};
use crate::{ensure, Failure};
use lafindry_reference::clauses::crossings::{shown, CrossingClause};
use lafindry_reference::counted::{Correspondence, Counted, Counting};
use lafindry_reference::tree;
use lafindry_reference::vectors::crossings::{Crossing, Stated};
use lafindry_reference::vectors::{Answer, Case, Entry};
use lafindry_reference::Refusal;
use std::collections::BTreeSet;

/// A tree document read byte by byte: where elements are opened, with their types,
/// and how often each character occurs.
#[derive(Debug, Clone, PartialEq, Eq)]
pub struct Scan {
    pub openings: Vec<(usize, u8)>,
    pub characters: [u64; 256],
}

impl Scan {
    /// That of a document; none if other bytes stand between its commands.
    pub fn of(document: &[u8]) -> Option<Scan> {
        let mut scan = Scan { openings: Vec::new(), characters: [0; 256] };
        let mut at = 0;
        loop {
            at += match document[at..] {
                [0x30, t, ..] => {
                    scan.openings.push((at, t));
                    2
                }
                [0x31, character, ..] => {
                    scan.characters[character as usize] += 1;
                    2
                }
                [0x32, ..] => 1,
                [0x3F] => return Some(scan),
                _ => return None,
            };
        }
    }
}

/// What the entries say of a source document that is carried.
#[derive(Debug, Clone, PartialEq, Eq)]
pub struct Across {
    /// How many elements the source document has.
    pub source_elements: u64,
    /// The image as it is written.
    pub image: Vec<u8>,
    /// How many elements it has.
    pub elements: u64,
    /// How many of them are filler.
    pub filler: u64,
}

impl Across {
    /// What is counted. The error says what did not go across, or is counted
    /// otherwise.
    pub fn counted(&self, crossing: &Crossing) -> Result<Counted, String> {
        let [source, target, embedding, tree] = &crossing.documents;
        let counting = Counting::new(source, target, embedding).map_err(|refusal| refusal.to_string())?;
        let (Some(from), Some(to)) = (Scan::of(tree), Scan::of(&self.image)) else {
            return Err("bytes that are no command".to_string());
        };
        let path = counting.path_elements(&tree::build(tree));
        let standing = counting.standing(tree, &self.image).ok_or("a path is not there")?;
        let at = |one: &Correspondence| (one.image, counting.mapped(one.element_type));
        let sources: Vec<(usize, u8)> = standing.iter().map(|one| (one.source, one.element_type)).collect();
        let distinct: BTreeSet<usize> = standing.iter().map(|one| one.image).collect();
        let tests = [
            ("an element of the source stands nowhere", sources == from.openings),
            (
                "the source is judged to have another number of elements",
                standing.len() as u64 == self.source_elements,
            ),
            ("two source elements stand at one", distinct.len() == standing.len()),
            (
                "no element of the mapped type stands there",
                standing.iter().all(|one| to.openings.binary_search(&at(one)).is_ok()),
            ),
            ("a character occurs more or less often", from.characters == to.characters),
            (
                "the image is judged to have another number of elements",
                to.openings.len() as u64 == self.elements,
            ),
            ("the sum is wrong", self.filler + path + 1 == self.elements),
        ];
        match tests.iter().find(|(_, holds)| !holds) {
            Some((problem, _)) => {
                let Across { source_elements, elements, filler, .. } = self;
                let counts =
                    format!("{source_elements} in the source, {elements} in the image, {filler} filler");
                Err(format!("{problem}: {counts}, {path} by the paths"))
            }
            None => Ok(Counted { elements: self.elements, filler: self.filler, path, standing }),
        }
    }
}

/// Carries source documents by the reference and the library, counts what went
/// across, and what is shown on each side.
#[derive(Default)]
pub struct Crossings {
    tally: Tally,
    shown: Sides<&'static str>,
}

impl Crossings {
    /// Carries a source document and judges it and its image. Fails unless both
    /// sides agree and everything went across. Gives what the library says, if it
    /// carries the document.
    pub fn across(&mut self, crossing: &Crossing) -> Result<Result<Across, Refusal>, Failure> {
        let (filler, image) = match self.tally.compare(&crossing.carrying())? {
            Answer::Ok { filler, output, .. } => (filler, output),
            Answer::Refused(refusal) => return self.settle(crossing, Err(refusal)),
        };
        let [source, target, _, tree] = &crossing.documents;
        let (source_elements, elements) = (self.elements(source, tree)?, self.elements(target, &image)?);
        self.settle(crossing, Ok(Across { source_elements, image, elements, filler }))
    }

    /// The number of elements of a tree that conforms to a table.
    fn elements(&mut self, table: &[u8], tree: &[u8]) -> Result<u64, Failure> {
        let documents = vec![table.to_vec(), tree.to_vec()];
        let judging = Case { entry: Entry::JudgeTree, documents, output_length: 0 };
        match self.tally.compare(&judging)? {
            Answer::Ok { value, .. } => Ok(value),
            refused => Err(Failure(format!("{judging} -> {refused}"))),
        }
    }

    /// Counts what is shown on each side; fails unless what is counted is equal.
    fn settle(
        &mut self,
        crossing: &Crossing,
        across: Result<Across, Refusal>,
    ) -> Result<Result<Across, Refusal>, Failure> {
        let reference = crossing.run();
        let wrong = |problem: String| Failure(format!("{crossing} -> {}\n{problem}", Stated::of(&reference)));
        let library = match &across {
            Ok(across) => Ok(across.counted(crossing).map_err(wrong)?),
            Err(refusal) => Err(*refusal),
        };
        for (side, counted) in [(Side::Reference, &reference), (Side::Library, &library)] {
            let clauses = shown(crossing, counted);
            for (clause, text) in &CrossingClause::ALL {
                self.shown.add(side, text, clauses.contains(clause));
            }
        }
        match library == reference {
            true => Ok(across),
            false => Err(wrong(format!("the library: {}", Stated::of(&library)))),
        }
    }

    /// The same as [`Crossings::across`], and fails unless a line states it so.
    pub fn compare_with(&mut self, crossing: &Crossing, stated: &Stated) -> Result<(), Failure> {
        let counted = match self.across(crossing)? {
            Ok(across) => Ok(across.counted(crossing).map_err(Failure)?),
            Err(refusal) => Err(refusal),
        };
        let counted = Stated::of(&counted);
        ensure(counted == *stated, format!("{crossing} -> {counted}\nstated: {stated}"))
    }

    /// Prints both counts of each answer and of what is shown after a title. Fails
    /// where they differ, and unless each of these is shown so often.
    pub fn finish(self, title: &str, least: usize) -> Result<Histogram, Failure> {
        let histogram = self.tally.finish(title)?;
        self.shown.finish(&format!("{title}, what they show"), least)?;
        Ok(histogram)
    }
}
