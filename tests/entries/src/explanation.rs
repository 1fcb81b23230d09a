//! `lafindry_explain_clash`, called as `include/lafindry.h` declares it, and
//! compared with the explanations of the reference.

use crate::sides::{Side, Sides};
use crate::tally::{refused_by, Refused};
use crate::{call, ensure, read, CAnswer, Failure};
use lafindry_reference::explanation::{Clash, Explanation, Reason};
use lafindry_reference::vectors::explanations::{Question, Stated};
use lafindry_reference::vectors::{Answer, Case, Entry};
use std::collections::BTreeMap;

/// `struct lafindry_explanation`.
#[repr(C)]
#[derive(Debug, Clone, Copy, PartialEq, Eq)]
pub struct CExplanation {
    pub refusal: u64,
    pub document: u64,
    pub mark: u64,
    pub value: u64,
    pub filler: u64,
    pub reason: u64,
    pub source_type: u64,
    pub earlier: u64,
    pub later: u64,
    pub shared: u64,
}

impl CExplanation {
    /// The first five numbers, which are those of an answer.
    fn answer(&self) -> CAnswer {
        let CExplanation { refusal, document, mark, value, filler, .. } = *self;
        CAnswer { refusal, document, mark, value, filler }
    }
}

extern "C" {
    fn lafindry_explain_clash(
        source_table: *const u8,
        source_table_length: usize,
        target_table: *const u8,
        target_table_length: usize,
        embedding: *const u8,
        embedding_length: usize,
    ) -> CExplanation;
}

/// Asks the library about two tables and an embedding.
pub fn call_explain(documents: &[Vec<u8>; 3]) -> CExplanation {
    let [source, target, embedding] = documents;
    // Each pointer comes with the length of the bytes it points to.
    unsafe {
        lafindry_explain_clash(
            source.as_ptr(),
            source.len(),
            target.as_ptr(),
            target.len(),
            embedding.as_ptr(),
            embedding.len(),
        )
    }
}

/// The explanation that a C explanation stands for. The error says that a field
/// which doesn't apply isn't 0, or that there is no such reason.
pub fn read_explanation(question: &Question, given: CExplanation) -> Result<Explanation, String> {
    let case =
        Case { entry: Entry::JudgeEmbedding, documents: question.documents.to_vec(), output_length: 0 };
    let judged = match read(&case, given.answer(), &[])? {
        Answer::Ok { value, .. } => Ok(value),
        Answer::Refused(refusal) => Err(refusal),
    };
    let CExplanation { reason, source_type, earlier, later, shared, .. } = given;
    match (reason, judged) {
        (0, _) if [source_type, earlier, later, shared] == [0; 4] => Ok(Explanation::Nothing(judged)),
        (0, _) => Err(format!("{given:?}: a field that doesn't apply isn't 0")),
        (1..=4, Err(refusal)) => {
            let reason = Reason::ALL[reason as usize - 1];
            Ok(Explanation::Clash { refusal, clash: Clash { source_type, earlier, later, shared, reason } })
        }
        _ => Err(format!("{given:?}: no reason, or one for an accepted embedding")),
    }
}

/// Asks a question through C. The error says that the numbers are no explanation
/// or not those of judging the embedding, or that a document changed.
pub fn explain(question: &Question) -> Result<Explanation, String> {
    let documents = question.documents.clone();
    let given = call_explain(&documents);
    let explanation = read_explanation(question, given)?;
    if documents != question.documents {
        return Err(format!("{explanation}, but a document changed"));
    }
    let judged = call(Entry::JudgeEmbedding, &documents, &mut []);
    match judged == given.answer() {
        true => Ok(explanation),
        false => Err(format!("{given:?}, but judging answers {judged:?}")),
    }
}

/// What is counted of an explanation: the reason, or the answer inside.
#[derive(Debug, Clone, Copy, PartialEq, Eq, PartialOrd, Ord)]
pub enum Explained {
    Clash(Reason),
    Nothing(Refused),
}

impl Explained {
    /// What is counted of an explanation.
    fn of(explanation: &Explanation) -> Explained {
        match *explanation {
            Explanation::Clash { clash, .. } => Explained::Clash(clash.reason),
            Explanation::Nothing(Ok(value)) => {
                Explained::Nothing(refused_by(&Answer::Ok { value, filler: 0, output: Vec::new() }))
            }
            Explanation::Nothing(Err(refusal)) => Explained::Nothing(refused_by(&Answer::Refused(refusal))),
        }
    }

    /// It by name.
    fn name(self) -> String {
        match self {
            Explained::Clash(reason) => format!("clash, {}", reason.name()),
            Explained::Nothing((0, _)) => "accepted".to_string(),
            Explained::Nothing((number, document)) => format!("{number} of document {document}"),
        }
    }
}

/// Compares the explanations of the library with those of the reference, and
/// counts those of each apart.
#[derive(Default)]
pub struct Explanations {
    counts: Sides<Explained>,
}

impl Explanations {
    /// Asks the reference and the library, counts both, and fails unless they
    /// are equal. Gives the explanation of each.
    pub fn compare(&mut self, question: &Question) -> Result<(Explanation, Explanation), Failure> {
        let reference = question.run();
        let wrong = |problem: String| Failure(format!("{question} -> {reference}\nthe library: {problem}"));
        let library = explain(question).map_err(wrong)?;
        self.counts.add(Side::Reference, Explained::of(&reference), true);
        self.counts.add(Side::Library, Explained::of(&library), true);
        match library == reference {
            true => Ok((reference, library)),
            false => Err(wrong(format!("{library}, {:?}", library.judged()))),
        }
    }

    /// The same, and fails unless the explanation is a stated one.
    pub fn compare_with(&mut self, question: &Question, stated: &Stated) -> Result<(), Failure> {
        let (_, library) = self.compare(question)?;
        let wrong = || format!("{question} -> {library}\nstated: {stated}");
        ensure(Stated::of(&library) == *stated, wrong())
    }

    /// Prints both counts of each answer after a title. Fails where they differ.
    pub fn finish(self, title: &str) -> Result<BTreeMap<Explained, usize>, Failure> {
        let total: usize = self.counts.iter().map(|(_, pair)| pair.library).sum();
        self.counts.reported(&format!("{title}: {total} questions"), Explained::name)
    }
}
