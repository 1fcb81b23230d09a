//! How often each entry gave each answer, by the reference and by the library,
//! and how many of the documents that it was given were altered or damaged.

use crate::sides::{Pair, Side, Sides};
use crate::{ensure, report, run, Failure};
use lafindry_reference::generate::cases::{Drawn, Made};
use lafindry_reference::vectors::{Answer, Case, Entry};
use lafindry_reference::{EMBEDDING, OUTPUT, SOURCE, TARGET, TREE};
use std::collections::{BTreeMap, BTreeSet};
use std::fmt;

/// The greatest number of a refusal.
const LAST_REFUSAL: u64 = 17;

/// The documents that are refused, in the order in which they are judged.
const DOCUMENTS: [u64; 5] = [SOURCE, TARGET, EMBEDDING, TREE, OUTPUT];

/// The number and the document of a refusal; both are 0 where an entry accepts.
pub type Refused = (u64, u64);

/// The number and the document of an answer.
pub fn refused_by(answer: &Answer) -> Refused {
    match answer {
        Answer::Ok { .. } => (0, 0),
        Answer::Refused(refusal) => (refusal.number, refusal.document),
    }
}

/// An answer by name.
fn name_of((entry, (number, document)): (Entry, Refused)) -> String {
    match number {
        0 => format!("{}: accepted", entry.name()),
        _ => format!("{}: {number} of document {document}", entry.name()),
    }
}

/// A kind of document that is given to an entry.
#[derive(Debug, Clone, Copy, PartialEq, Eq, PartialOrd, Ord)]
pub enum Kind {
    Table,
    Embedding,
    Tree,
    /// A tree to bring back or to read along.
    Image,
}

impl Kind {
    /// The kind of the document in a place of an entry.
    fn at(entry: Entry, at: usize) -> Kind {
        match (entry, at) {
            (Entry::BringBack | Entry::ReadAlong, 3) => Kind::Image,
            (Entry::JudgeTree, 1) | (_, 3) => Kind::Tree,
            (_, 2) => Kind::Embedding,
            _ => Kind::Table,
        }
    }
}

/// What each test of random cases of all entries has to have enough of: damaged
/// documents of each kind, and altered images.
pub const DAMAGED: [(Kind, Made); 5] = [
    (Kind::Table, Made::Damaged),
    (Kind::Embedding, Made::Damaged),
    (Kind::Tree, Made::Damaged),
    (Kind::Image, Made::Damaged),
    (Kind::Image, Made::Altered),
];

/// Counts of altered and damaged documents, and of those that are another
/// document altogether.
type Changes = BTreeMap<(Kind, Made), usize>;

/// Compares the library with the reference, and counts the answers of each
/// apart. Every comparison of an entry in these tests goes through it.
#[derive(Default)]
pub struct Tally {
    answers: Sides<(Entry, Refused)>,
    changes: Changes,
}

impl Tally {
    /// Runs a case through the reference and the library, counts both answers,
    /// and fails unless they are equal. Gives the answer of each.
    pub fn compare_both(&mut self, case: &Case) -> Result<(Answer, Answer), Failure> {
        let reference = case.run().map_err(|message| Failure(format!("{case}\nthe reference: {message}")))?;
        let wrong = |problem: String| Failure(format!("{case} -> {reference}\nthe library: {problem}"));
        let library = run(case).map_err(wrong)?;
        self.count(case.entry, refused_by(&reference), refused_by(&library));
        match library == reference {
            true => Ok((reference, library)),
            false => Err(wrong(library.to_string())),
        }
    }

    /// The same, and gives the library's answer.
    pub fn compare(&mut self, case: &Case) -> Result<Answer, Failure> {
        Ok(self.compare_both(case)?.1)
    }

    /// The same, and fails unless the answer is a stated one.
    pub fn compare_with(&mut self, case: &Case, stated: &Answer) -> Result<(), Failure> {
        let answer = self.compare(case)?;
        match answer == *stated {
            true => Ok(()),
            false => Err(Failure(format!("{case} -> {answer}\nstated: {stated}"))),
        }
    }

    /// The same as [`Tally::compare_both`], and counts the documents that were
    /// altered or damaged.
    pub fn compare_drawn(&mut self, drawn: &Drawn) -> Result<(Answer, Answer), Failure> {
        for (at, &made) in drawn.made.iter().enumerate() {
            self.count_change(drawn.case.entry, at, made);
        }
        self.compare_both(&drawn.case)
    }

    /// Counts an answer of an entry on each side.
    pub fn count(&mut self, entry: Entry, reference: Refused, library: Refused) {
        self.answers.add(Side::Reference, (entry, reference), true);
        self.answers.add(Side::Library, (entry, library), true);
    }

    /// Counts a document in a place of an entry by how it was made.
    pub fn count_change(&mut self, entry: Entry, at: usize, made: Made) {
        if made != Made::Whole {
            *self.changes.entry((Kind::at(entry, at), made)).or_default() += 1;
        }
    }

    /// Prints both counts of each answer after a title. Fails where they differ.
    pub fn finish(self, title: &str) -> Result<Histogram, Failure> {
        let total: usize = self.answers.iter().map(|(_, pair)| pair.library).sum();
        report(&format!("{title}: {total} cases{}\n{self}", shown(&self.changes)));
        let counts =
            self.answers.agreed(name_of).map_err(|failure| Failure(format!("{title}: {}", failure.0)))?;
        Ok(Histogram { counts, changes: self.changes })
    }
}

/// The counts of changed documents, as the end of a line.
fn shown(changes: &Changes) -> String {
    let texts = changes.iter().map(|((kind, made), count)| {
        let kind = match kind {
            Kind::Table => "tables",
            Kind::Embedding => "embeddings",
            Kind::Tree => "trees",
            Kind::Image => "images",
        };
        let made = match made {
            Made::Whole => "whole",
            Made::Altered => "altered",
            Made::Damaged => "damaged",
            Made::Other => "replaced",
        };
        format!("; {count} {kind} {made}")
    });
    texts.collect()
}

/// A row for each refusal that occurred and a column for each entry, with the
/// counts of the reference and of the library. A point stands where an entry
/// can't give the answer.
impl fmt::Display for Tally {
    fn fmt(&self, f: &mut fmt::Formatter) -> fmt::Result {
        write!(f, "{:>11}", "of document")?;
        Entry::ALL.iter().try_for_each(|entry| write!(f, " {:>15}", entry.name()))?;
        let occurring: BTreeSet<Refused> = self.answers.iter().map(|((_, refused), _)| refused).collect();
        for refused in occurring {
            match refused {
                (0, _) => write!(f, "\n{:>11}", "accepted")?,
                (number, document) => write!(f, "\n{number:>8} {document:>2}")?,
            }
            for entry in Entry::ALL {
                let Pair { reference, library } = self.answers.of((entry, refused));
                let text = match (can_answer(entry, refused), reference + library) {
                    (false, 0) => ".".to_string(),
                    _ => format!("{reference}/{library}"),
                };
                write!(f, " {text:>15}")?;
            }
        }
        Ok(())
    }
}

/// The counts of a tally on whose answers the reference and the library agree.
pub struct Histogram {
    counts: BTreeMap<(Entry, Refused), usize>,
    changes: Changes,
}

impl Histogram {
    /// How many answers were counted.
    pub fn total(&self) -> usize {
        self.counts.values().sum()
    }

    /// How many answers an entry gave.
    pub fn total_of(&self, entry: Entry) -> usize {
        self.sum(|counted, _| counted == entry)
    }

    /// How often an entry gave a refusal of whatever document, or with number 0
    /// accepted.
    pub fn of(&self, entry: Entry, number: u64) -> usize {
        self.sum(|counted, refused| counted == entry && refused.0 == number)
    }

    /// How often all entries together gave a refusal, or with number 0 accepted.
    pub fn of_any(&self, number: u64) -> usize {
        self.sum(|_, refused| refused.0 == number)
    }

    /// How often the answers occurred that pass a test.
    fn sum(&self, test: impl Fn(Entry, Refused) -> bool) -> usize {
        let passing = self.counts.iter().filter(|(&(entry, refused), _)| test(entry, refused));
        passing.map(|(_, count)| count).sum()
    }

    /// How many documents of a kind were made so.
    pub fn made(&self, kind: Kind, made: Made) -> usize {
        self.changes.get(&(kind, made)).copied().unwrap_or(0)
    }

    /// Fails unless every answer that these entries can give occurred so often:
    /// acceptance, and each refusal of each document.
    pub fn ensure_all(&self, entries: &[Entry], least: usize) -> Result<(), Failure> {
        for &entry in entries {
            for refused in answers_of(entry) {
                let count = self.counts.get(&(entry, refused)).copied().unwrap_or(0);
                ensure(count >= least, format!("{} only {count} times", name_of((entry, refused))))?;
            }
        }
        Ok(())
    }

    /// Fails unless so many documents were made in each of some ways.
    pub fn ensure_made(&self, ways: &[(Kind, Made)], least: usize) -> Result<(), Failure> {
        let rare = ways.iter().find(|&&(kind, made)| self.made(kind, made) < least);
        ensure(rare.is_none(), format!("fewer than {least} documents: {rare:?}"))
    }
}

/// The answers that an entry can give.
pub fn answers_of(entry: Entry) -> Vec<Refused> {
    let refusals = (1..=LAST_REFUSAL).flat_map(|number| DOCUMENTS.map(|document| (number, document)));
    let all = std::iter::once((0, 0)).chain(refusals);
    all.filter(|&refused| can_answer(entry, refused)).collect()
}

/// Whether an entry can give an answer.
fn can_answer(entry: Entry, (number, document): Refused) -> bool {
    match (document, number) {
        (0, 0) | (SOURCE, 1..=6) => true,
        (TARGET, 1..=6) | (EMBEDDING, 1..=4 | 7..=10) => {
            !matches!(entry, Entry::JudgeTable | Entry::JudgeTree)
        }
        (TREE, 1..=4 | 11) => !matches!(entry, Entry::JudgeTable | Entry::JudgeEmbedding),
        (TREE, 15) => entry == Entry::BringBack,
        (TREE, 17) => entry == Entry::ReadAlong,
        (OUTPUT, 12 | 13) => entry == Entry::Carry,
        (OUTPUT, 14) => entry.writes(),
        _ => false,
    }
}
