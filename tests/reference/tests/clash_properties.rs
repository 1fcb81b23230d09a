//! What holds of the explanation of every random question. The four reasons are
//! stated here a second time, each by itself, and so are the steps that two
//! paths share.

use lafindry_reference::clauses::clashes::{shown, ClashClause};
use lafindry_reference::embedding::{self, Embedding};
use lafindry_reference::explanation::{Clash, Explanation, Reason};
use lafindry_reference::generate::clashes::random_bunches;
use lafindry_reference::generate::{random_question, random_small_question, Rng};
use lafindry_reference::table::{self, ContentModel, Table};
use lafindry_reference::vectors::explanations::Question;
use lafindry_reference::{judge_embedding, Refusal, SOURCE, TARGET};
use std::collections::{BTreeMap, BTreeSet};

/// How many questions there are for a property.
const COUNT: usize = 12_000;

/// Random questions, every third a small one, with their explanations.
fn questions(seed: u64, count: usize) -> impl Iterator<Item = (Question, Explanation)> {
    let mut rng = Rng::new(seed);
    (0..count).map(move |number| {
        let small = number % 3 == 0;
        let question = if small { random_small_question(&mut rng) } else { random_question(&mut rng) };
        let explanation = question.run();
        (question, explanation)
    })
}

/// The answer of judging the embedding of a question.
fn judged(question: &Question) -> Result<u64, Refusal> {
    let [source, target, embedding] = &question.documents;
    judge_embedding(source, target, embedding)
}

/// The tables and the embedding of a question whose tables are accepted and
/// whose embedding has the right form.
struct Setting {
    source: Table,
    target: Table,
    embedding: Embedding,
}

impl Setting {
    fn of(question: &Question) -> Setting {
        let [source, target, embedding] = &question.documents;
        let (source, target) =
            (table::accept(source, SOURCE).unwrap(), table::accept(target, TARGET).unwrap());
        let embedding = embedding::read(&source, embedding).unwrap();
        Setting { source, target, embedding }
    }

    /// The pair of paths of two members, counted from 1, of a source type.
    fn pair(&self, source_type: u64, earlier: u64, later: u64) -> Pair<'_> {
        let map = &self.embedding.maps[source_type as usize];
        Pair {
            target: &self.target,
            source: &self.source.types[source_type as usize],
            start: map.target,
            earlier: &map.paths[earlier as usize - 1].steps,
            later: &map.paths[later as usize - 1].steps,
        }
    }
}

/// Two paths of a source type, and where they start.
struct Pair<'a> {
    target: &'a Table,
    source: &'a ContentModel,
    start: u8,
    earlier: &'a [u8],
    later: &'a [u8],
}

impl Pair<'_> {
    fn equal(&self) -> bool {
        self.earlier == self.later
    }

    fn earlier_begins_later(&self) -> bool {
        self.earlier.len() < self.later.len() && self.later.starts_with(self.earlier)
    }

    fn later_begins_earlier(&self) -> bool {
        self.later.len() < self.earlier.len() && self.earlier.starts_with(self.later)
    }

    /// For some number of steps both begin alike, a step follows in each that
    /// differs, and it leaves a sequence of the target.
    fn parts_at_sequence(&self) -> bool {
        let may_not_part = matches!(self.source, ContentModel::Choice(_) | ContentModel::OptionalChoice(_));
        let both = self.earlier.len().min(self.later.len());
        may_not_part
            && (0..both).any(|number| {
                let differs = self.earlier[number] != self.later[number];
                let alike = self.earlier[..number] == self.later[..number];
                alike && differs && matches!(self.reached(number), ContentModel::Sequence(_))
            })
    }

    /// The target type after so many steps of the later path.
    fn reached(&self, number: usize) -> &ContentModel {
        let mut at = &self.target.types[self.start as usize];
        for &step in &self.later[..number] {
            at = match at {
                ContentModel::List(item) => &self.target.types[*item as usize],
                other => &self.target.types[other.named()[step as usize - 1] as usize],
            };
        }
        at
    }

    /// The greatest number of steps with which both begin.
    fn shared(&self) -> usize {
        let alike = |number: &usize| self.later.starts_with(&self.earlier[..*number]);
        (0..=self.earlier.len()).rev().find(alike).unwrap()
    }

    /// The reasons that hold of this pair.
    fn reasons(&self) -> Vec<Reason> {
        let tests = [
            (Reason::Equal, self.equal()),
            (Reason::EarlierBeginsLater, self.earlier_begins_later()),
            (Reason::LaterBeginsEarlier, self.later_begins_earlier()),
            (Reason::PartsAtSequence, self.parts_at_sequence()),
        ];
        tests.into_iter().filter(|test| test.1).map(|test| test.0).collect()
    }
}

/// The source type and the member whose command 21 stands at an offset, found
/// by counting commands.
fn member_at(embedding: &[u8], offset: u64) -> Option<(u64, u64)> {
    let (mut at, mut types, mut members) = (0, 0, 0);
    while at <= offset as usize {
        match embedding.get(at)? {
            0x20 => (types, members) = (types + 1, 0),
            0x21 => members += 1,
            _ => {}
        }
        at += if embedding[at] == 0x21 { 1 } else { 2 };
    }
    (embedding[offset as usize] == 0x21).then_some((types - 1, members))
}

#[test]
fn clashes_are_explained_just_where_10_is_answered() {
    let mut clashes = 0;
    for (question, explanation) in questions(31, COUNT) {
        let judged = judged(&question);
        assert_eq!(explanation.judged(), judged, "{question}");
        let clashing = judged.is_err_and(|refusal| refusal.number == 10 && refusal.document == 3);
        assert_eq!(matches!(explanation, Explanation::Clash { .. }), clashing, "{question}");
        clashes += clashing as usize;
    }
    assert!(clashes > COUNT / 2, "{clashes}");
}

/// The reason that is given holds of the pair, and no other of the four does;
/// the later member is the one that is marked.
#[test]
fn just_the_reason_given_holds() {
    let mut seen: BTreeMap<Reason, usize> = BTreeMap::new();
    for (question, explanation) in questions(32, COUNT) {
        let Explanation::Clash { refusal, clash } = explanation else {
            continue;
        };
        let Clash { source_type, earlier, later, shared, reason } = clash;
        let pair = Setting::of(&question);
        let pair = pair.pair(source_type, earlier, later);
        assert_eq!(pair.reasons(), [reason], "{question}");
        assert_eq!(pair.shared() as u64, shared, "{question}");
        assert!(earlier < later);
        assert_eq!(member_at(&question.documents[2], refusal.mark), Some((source_type, later)), "{question}");
        *seen.entry(reason).or_default() += 1;
    }
    assert!(seen.len() == 4 && seen.values().all(|&count| count > 500), "{seen:?}");
}

/// Members before the earlier one don't clash with the later one. A member
/// between them may; then the reason and the shared steps are the same.
#[test]
fn the_earlier_member_is_the_first_that_clashes() {
    let (mut before, mut between) = (0, 0);
    for (question, explanation) in questions(33, COUNT) {
        let Explanation::Clash { clash: Clash { source_type, earlier, later, shared, reason }, .. } =
            explanation
        else {
            continue;
        };
        let setting = Setting::of(&question);
        for member in 1..earlier {
            assert_eq!(setting.pair(source_type, member, later).reasons(), [], "{question}");
            before += 1;
        }
        for member in earlier + 1..later {
            let pair = setting.pair(source_type, member, later);
            let reasons = pair.reasons();
            if !reasons.is_empty() {
                assert_eq!((reasons, pair.shared() as u64), (vec![reason], shared), "{question}");
                between += 1;
            }
        }
    }
    assert!(before > 3000 && between > 300, "{before} {between}");
}

/// No path that stands before the marked one clashes with one of its type that
/// stands before it.
#[test]
fn paths_before_the_marked_one_do_not_clash() {
    let mut pairs = 0;
    for (question, explanation) in questions(34, COUNT) {
        let Explanation::Clash { clash, .. } = explanation else {
            continue;
        };
        let setting = Setting::of(&question);
        for source_type in 0..=clash.source_type {
            let members = setting.embedding.maps[source_type as usize].paths.len() as u64;
            let last = if source_type == clash.source_type { clash.later - 1 } else { members };
            for (later, earlier) in
                (2..=last).flat_map(|later| (1..later).map(move |earlier| (later, earlier)))
            {
                assert_eq!(setting.pair(source_type, earlier, later).reasons(), [], "{question}");
                pairs += 1;
            }
        }
    }
    assert!(pairs > 20_000, "{pairs}");
}

/// Where an embedding is accepted, no two paths of a type clash.
#[test]
fn paths_of_accepted_embeddings_do_not_clash() {
    let mut pairs = 0;
    for (question, explanation) in questions(35, COUNT) {
        if !matches!(explanation, Explanation::Nothing(Ok(_))) {
            continue;
        }
        let setting = Setting::of(&question);
        for (source_type, model) in setting.source.types.iter().enumerate() {
            let members = model.edges() as u64;
            for (later, earlier) in
                (2..=members).flat_map(|later| (1..later).map(move |earlier| (later, earlier)))
            {
                assert_eq!(setting.pair(source_type as u64, earlier, later).reasons(), [], "{question}");
                pairs += 1;
            }
        }
    }
    assert!(pairs > 5000, "{pairs}");
}

/// Bunches of paths are refused by check 10 or by none, and reach every number
/// of shared steps, of members and of steps.
#[test]
fn bunches_reach_the_limits() {
    let mut rng = Rng::new(36);
    let [mut shared, mut earlier, mut later, mut lengths] = [(); 4].map(|()| BTreeSet::new());
    let (mut clashes, mut accepted) = (0, 0);
    for _ in 0..8000 {
        let embedded = random_bunches(&mut rng);
        let documents =
            [embedded.source.to_bytes(), embedded.target.to_bytes(), embedded.embedding.to_bytes()];
        let question = Question { documents };
        match question.run() {
            Explanation::Clash { clash, .. } => {
                shared.insert(clash.shared);
                earlier.insert(clash.earlier);
                later.insert(clash.later);
                clashes += 1;
            }
            Explanation::Nothing(judged) => {
                assert!(judged.is_ok(), "{question}: {judged:?}");
                accepted += 1;
            }
        }
        let paths = embedded.embedding.maps.iter().flat_map(|map| &map.paths);
        lengths.extend(paths.map(|path| path.steps.len() as u64));
    }
    assert_eq!(shared, (0..=12).collect());
    assert_eq!((earlier, later), ((1..=15).collect(), (2..=16).collect()));
    assert_eq!(lengths, (0..=12).collect());
    assert!(clashes > 5000 && accepted > 300, "{clashes} {accepted}");
}

/// Questions reach every answer that judging an embedding can give, and every
/// reason with every kind of source type for which it can be given.
#[test]
fn questions_reach_every_answer() {
    let (mut answers, mut clauses) = (BTreeSet::new(), BTreeMap::new());
    for (question, explanation) in questions(37, 2 * COUNT) {
        answers.insert(
            explanation.judged().map_or_else(|refusal| (refusal.number, refusal.document), |_| (0, 0)),
        );
        for clause in shown(&question, &explanation) {
            *clauses.entry(clause).or_insert(0) += 1;
        }
    }
    let tables = (1..=6).flat_map(|number| [(number, 1), (number, 2)]);
    let embeddings = [1, 2, 3, 4, 7, 8, 9, 10].map(|number| (number, 3));
    assert_eq!(answers, tables.chain(embeddings).chain([(0, 0)]).collect());
    let rare =
        ClashClause::ALL.iter().find(|(clause, _)| clauses.get(clause).is_none_or(|&count| count < 100));
    assert!(rare.is_none(), "{rare:?}: {clauses:?}");
}

#[test]
fn small_questions_are_small() {
    let mut rng = Rng::new(38);
    for _ in 0..1000 {
        let question = random_small_question(&mut rng);
        assert!(question.documents.iter().map(Vec::len).sum::<usize>() <= 100);
    }
}
