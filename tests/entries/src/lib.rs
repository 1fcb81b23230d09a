//! The library's C entries, called as `include/lafindry.h` declares them, and
//! compared with the cases and answers of the reference.
//!
//! A [`Tally`] runs cases through both, compares, and counts the answers of each;
//! every test of an entry is built on it. [`Explanations`] does the same for the
//! explanations of clashes, [`Extensions`] for operations on tables, and
//! [`Crossings`] counts what went across. [`decimal`] is no entry: it writes a
//! number.

mod crossing;
mod decimal;
mod explanation;
mod extension;
mod setting;
mod sides;
mod tally;

pub use crossing::{Across, Crossings, Scan};
pub use decimal::{decimal, MOST_DIGITS};
pub use explanation::{call_explain, explain, read_explanation, CExplanation, Explained, Explanations};
pub use extension::{call_extend, read_extension, Extended, Extensions};
pub use setting::Setting;
pub use sides::{Pair, Side, Sides};
pub use tally::{answers_of, refused_by, Histogram, Kind, Refused, Tally, DAMAGED};

use lafindry_reference::generate::Rng;
use lafindry_reference::vectors::{Answer, Case, Entry, JUNK};
use lafindry_reference::Refusal;
use std::fmt;
use std::io::Write;

/// `struct lafindry_answer`.
#[repr(C)]
#[derive(Debug, Clone, Copy, PartialEq, Eq)]
pub struct CAnswer {
    pub refusal: u64,
    pub document: u64,
    pub mark: u64,
    pub value: u64,
    pub filler: u64,
}

extern "C" {
    fn lafindry_judge_table(table: *const u8, table_length: usize) -> CAnswer;
    fn lafindry_judge_embedding(
        source_table: *const u8,
        source_table_length: usize,
        target_table: *const u8,
        target_table_length: usize,
        embedding: *const u8,
        embedding_length: usize,
    ) -> CAnswer;
    fn lafindry_judge_tree(
        table: *const u8,
        table_length: usize,
        tree: *const u8,
        tree_length: usize,
    ) -> CAnswer;
    fn lafindry_carry(
        source_table: *const u8,
        source_table_length: usize,
        target_table: *const u8,
        target_table_length: usize,
        embedding: *const u8,
        embedding_length: usize,
        tree: *const u8,
        tree_length: usize,
        output: *mut u8,
        output_length: usize,
    ) -> CAnswer;
    fn lafindry_bring_back(
        source_table: *const u8,
        source_table_length: usize,
        target_table: *const u8,
        target_table_length: usize,
        embedding: *const u8,
        embedding_length: usize,
        tree: *const u8,
        tree_length: usize,
        output: *mut u8,
        output_length: usize,
    ) -> CAnswer;
    fn lafindry_read_along(
        source_table: *const u8,
        source_table_length: usize,
        target_table: *const u8,
        target_table_length: usize,
        embedding: *const u8,
        embedding_length: usize,
        tree: *const u8,
        tree_length: usize,
        output: *mut u8,
        output_length: usize,
    ) -> CAnswer;
}

/// Calls an entry on its documents, in the order of paper 01. Entries that
/// don't write leave the output aside.
pub fn call(entry: Entry, documents: &[Vec<u8>], output: &mut [u8]) -> CAnswer {
    assert_eq!(documents.len(), entry.documents());
    let (d, n) = (|at: usize| documents[at].as_ptr(), |at: usize| documents[at].len());
    let (o, room) = (output.as_mut_ptr(), output.len());
    // Each pointer comes with the length of the bytes it points to, and the
    // output, borrowed as mutable, shares no byte with the documents.
    unsafe {
        match entry {
            Entry::JudgeTable => lafindry_judge_table(d(0), n(0)),
            Entry::JudgeEmbedding => lafindry_judge_embedding(d(0), n(0), d(1), n(1), d(2), n(2)),
            Entry::JudgeTree => lafindry_judge_tree(d(0), n(0), d(1), n(1)),
            Entry::Carry => lafindry_carry(d(0), n(0), d(1), n(1), d(2), n(2), d(3), n(3), o, room),
            Entry::BringBack => lafindry_bring_back(d(0), n(0), d(1), n(1), d(2), n(2), d(3), n(3), o, room),
            Entry::ReadAlong => lafindry_read_along(d(0), n(0), d(1), n(1), d(2), n(2), d(3), n(3), o, room),
        }
    }
}

/// How many bytes on each side of the lent output are watched.
pub const WATCHED: usize = 64;

/// Runs a case through its C entry, on an output that holds junk. The error
/// says that a field which doesn't apply isn't 0, or that a byte changed which
/// should have been kept: of the output, of those beside it, or of a document.
pub fn run(case: &Case) -> Result<Answer, String> {
    watched(&case.documents, case.output_length, |documents, output| {
        read(case, call(case.entry, documents, output), output)
    })
}

/// Calls a function on documents and an output that holds junk. The error is the
/// function's, or says that a byte changed which should have been kept.
fn watched<D: AsRef<[Vec<u8>]> + Clone + PartialEq>(
    documents: &D,
    output_length: usize,
    call: impl FnOnce(&D, &mut [u8]) -> Result<Answer, String>,
) -> Result<Answer, String> {
    let before = junk(documents.as_ref(), output_length);
    let (mut after, given) = (before.clone(), documents.clone());
    let lent = WATCHED..WATCHED + output_length;
    let answer = call(&given, &mut after[lent.clone()])?;
    if given != *documents {
        return Err(format!("{answer}, but a document changed"));
    }
    let expected = [&before[..lent.start], &answer.final_output(&before[lent.clone()]), &before[lent.end..]];
    match expected.concat() == after {
        true => Ok(answer),
        false => Err(format!("{answer}, but other bytes changed too")),
    }
}

/// What the lent output and the bytes beside it hold before a call: a byte that
/// is in no document, any bytes, or the last document again and again. The same
/// documents and length always get the same.
fn junk(documents: &[Vec<u8>], output_length: usize) -> Vec<u8> {
    let length = output_length + 2 * WATCHED;
    let seed = documents.iter().map(Vec::len).sum::<usize>() + length;
    let mut rng = Rng::new(seed as u64);
    let last = documents.last().filter(|document| !document.is_empty());
    match (rng.below(3), last) {
        (0, _) => (0..length).map(|_| rng.byte()).collect(),
        (1, Some(document)) => document.iter().copied().cycle().take(length).collect(),
        _ => vec![JUNK; length],
    }
}

/// The answer that a C answer stands for, with the bytes written. The error
/// says that a field which doesn't apply isn't 0.
pub fn read(case: &Case, given: CAnswer, output: &[u8]) -> Result<Answer, String> {
    read_answer(given, case.entry.writes().then_some(output), case.entry.counts_elements())
}

/// The same for a function that is lent an output or not, and counts elements in
/// the field for filler or not.
fn read_answer(given: CAnswer, output: Option<&[u8]>, has_filler: bool) -> Result<Answer, String> {
    let CAnswer { refusal, document, mark, value, filler } = given;
    let answer = if refusal == 0 {
        let written = output.map_or(Some(&[][..]), |output| output.get(..value as usize));
        let written = written.ok_or_else(|| format!("{given:?}: longer than the output"))?;
        Answer::Ok { value, filler, output: written.to_vec() }
    } else {
        Answer::Refused(Refusal { number: refusal, document, mark })
    };
    let unused: &[u64] = match answer {
        Answer::Ok { .. } if has_filler => &[document, mark],
        Answer::Ok { .. } => &[document, mark, filler],
        Answer::Refused(_) => &[value, filler],
    };
    match unused.iter().all(|&field| field == 0) {
        true => Ok(answer),
        false => Err(format!("{given:?}: a field that doesn't apply isn't 0")),
    }
}

/// Why a test failed. Tests return it rather than panic, so that it is printed
/// whatever the archive brings along to handle panics.
pub struct Failure(pub String);

impl fmt::Debug for Failure {
    fn fmt(&self, f: &mut fmt::Formatter) -> fmt::Result {
        write!(f, "{}", self.0)
    }
}

/// Fails with a message unless a condition holds.
pub fn ensure(condition: bool, message: impl Into<String>) -> Result<(), Failure> {
    match condition {
        true => Ok(()),
        false => Err(Failure(message.into())),
    }
}

/// Prints a line or more of what a test saw. `println!` would show it for
/// failed tests only.
pub fn report(text: &str) {
    let mut out = std::io::stdout().lock();
    // A closed standard output is no failure of the library.
    let _ = writeln!(out, "{text}").and_then(|()| out.flush());
}
