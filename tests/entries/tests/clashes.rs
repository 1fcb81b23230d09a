//! The library explains clashes as the reference does: on random questions, among
//! which every reason occurs for every kind of source type, and on every question
//! that differs from a worked one in one place. LAFINDRY_SEED sets another seed.

mod arbitrary;
mod changes;
mod seed;

use arbitrary::{arbitrary_case, long_case};
use changes::changes;
use lafindry_entries::{
    answers_of, ensure, read_explanation, CExplanation, Explained, Explanations, Failure, Side, Sides,
};
use lafindry_reference::clauses::clashes::{shown, ClashClause};
use lafindry_reference::explanation::{Clash, Explanation, Reason};
use lafindry_reference::generate::cases::Drawn;
use lafindry_reference::generate::{random_question, random_small_question, Rng, Shape, TableSize, World};
use lafindry_reference::vectors::explanations::{parse_line, Question};
use lafindry_reference::vectors::Entry;
use seed::seed;
use std::collections::BTreeMap;

/// How often each reason with each kind of source type, and whatever else a clash
/// shows, has to occur. With seed 1 the rarest occurs 1963 times.
const LEAST_CLAUSE: usize = 500;
/// How often each number that a clash can have has to occur. With seed 1 the
/// rarest occurs 95 times.
const LEAST_NUMBER: usize = 50;
/// How often acceptance and each refusal but 10 has to occur. With seed 1 the
/// rarest occurs 98 times.
const LEAST_OTHER: usize = 15;

/// A number of a clash, by name.
type Number = (&'static str, u64);

/// The numbers that a clash can have.
fn numbers() -> Vec<Number> {
    let shared = (0..=12).map(|number| ("steps shared", number));
    let earlier = (1..=15).map(|number| ("earlier member", number));
    let later = (2..=16).map(|number| ("later member", number));
    shared.chain(earlier).chain(later).collect()
}

/// Asks questions and counts what their explanations are and show.
#[derive(Default)]
struct Run {
    explanations: Explanations,
    clauses: Sides<&'static str>,
    numbers: Sides<Number>,
}

impl Run {
    /// Compares the library with the reference on one question.
    fn compare(&mut self, question: &Question) -> Result<(), Failure> {
        let (reference, library) = self.explanations.compare(question)?;
        self.count(Side::Reference, question, &reference);
        self.count(Side::Library, question, &library);
        Ok(())
    }

    /// Counts what the explanation of a side shows.
    fn count(&mut self, side: Side, question: &Question, explanation: &Explanation) {
        let Explanation::Clash { clash: Clash { earlier, later, shared, .. }, .. } = *explanation else {
            return;
        };
        let clauses = shown(question, explanation);
        ClashClause::ALL
            .iter()
            .for_each(|(clause, text)| self.clauses.add(side, text, clauses.contains(clause)));
        for number in [("steps shared", shared), ("earlier member", earlier), ("later member", later)] {
            self.numbers.add(side, number, true);
        }
    }

    /// Prints all counts after a title. Fails where those of the two sides differ,
    /// and where something that a clash shows, or a number of one, is too rare.
    /// Gives how often each explanation occurred.
    fn finish(self, title: &str) -> Result<BTreeMap<Explained, usize>, Failure> {
        let counts = self.explanations.finish(title)?;
        self.clauses.finish(&format!("{title}, clashes"), LEAST_CLAUSE)?;
        let text = |(name, number): Number| format!("{name} {number}");
        let found = self.numbers.reported(&format!("{title}, numbers"), text)?;
        let is_rare = |number: &Number| found.get(number).is_none_or(|&count| count < LEAST_NUMBER);
        let rare = numbers().into_iter().find(is_rare);
        ensure(rare.is_none(), format!("{title}: {rare:?}, fewer than {LEAST_NUMBER}"))?;
        Ok(counts)
    }
}

/// The question with the documents of a case of judging an embedding.
fn question_of(drawn: Drawn) -> Question {
    Question { documents: drawn.case.documents.try_into().expect("three documents") }
}

#[test]
fn random_questions_agree() -> Result<(), Failure> {
    let mut rng = Rng::new(seed().wrapping_add(900));
    let mut run = Run::default();
    for number in 0..60_000 {
        run.compare(&random_question(&mut rng))?;
        if number % 6 == 0 {
            run.compare(&random_small_question(&mut rng))?;
        }
        if number % 20 == 0 {
            let (size, shape) = (TableSize::random(&mut rng), Shape::small(&mut rng));
            let world = World::random(&mut rng, size, shape);
            run.compare(&question_of(arbitrary_case(&mut rng, &world, Entry::JudgeEmbedding)))?;
            if number % 400 == 0 {
                run.compare(&question_of(long_case(&mut rng, &world, Entry::JudgeEmbedding)))?;
            }
        }
    }
    let counts = run.finish(&format!("random questions, seed {}", seed()))?;
    let count = |explained: Explained| counts.get(&explained).copied().unwrap_or(0);
    let others = answers_of(Entry::JudgeEmbedding).into_iter().filter(|&(number, _)| number != 10);
    let rare = others.map(Explained::Nothing).find(|&other| count(other) < LEAST_OTHER);
    ensure(rare.is_none(), format!("{rare:?}, fewer than {LEAST_OTHER}"))?;
    let clashes: usize = Reason::ALL.into_iter().map(|reason| count(Explained::Clash(reason))).sum();
    let enough = counts.values().sum::<usize>() >= 60_000 && clashes >= 20_000;
    ensure(enough, format!("too few questions, or only {clashes} clashes"))
}

/// A question for each reason: about a sequence of three, a choice, an optional
/// choice with lists on its paths, and a choice.
const WORKED: [&str; 4] = [
    "explain 12150115011501111f 12150115011501111f 200021220121220321220320012f -> clash 0 2 3 1 equal",
    "explain 131501150211111f 1315011502121502111f 20002122012122012201200120022f -> \
     clash 0 1 2 1 earlier-begins-later",
    "explain 171501150211111f 14011715021403111f 2000212201220122012122012201200320022f -> \
     clash 0 1 2 2 later-begins-earlier",
    "explain 131501150211111f 1215011501131502150311111f 200021220122012122022201200220022f -> \
     clash 0 1 2 0 parts-at-sequence",
];

#[test]
fn changes_of_worked_questions_agree() -> Result<(), Failure> {
    let mut explanations = Explanations::default();
    for line in WORKED {
        let (question, stated) = parse_line(line).map_err(|message| Failure(format!("{line}: {message}")))?;
        explanations.compare_with(&question, &stated)?;
        for at in 0..3 {
            for changed in changes(&question.documents[at]) {
                let mut other = question.clone();
                other.documents[at] = changed;
                explanations.compare(&other)?;
            }
        }
    }
    let counts = explanations.finish("changes of worked questions")?;
    let rare = Reason::ALL.into_iter().find(|&reason| !counts.contains_key(&Explained::Clash(reason)));
    ensure(rare.is_none(), format!("no clash because of {rare:?}"))?;
    ensure(counts.values().sum::<usize>() >= 70_000, "too few changes")
}

/// Ten numbers that no explanation has are noticed.
#[test]
fn wrong_numbers_fail() -> Result<(), Failure> {
    let question = Question { documents: [Vec::new(), Vec::new(), Vec::new()] };
    let of = |numbers: [u64; 10]| {
        let [refusal, document, mark, value, filler, reason, source_type, earlier, later, shared] = numbers;
        let given = CExplanation {
            refusal,
            document,
            mark,
            value,
            filler,
            reason,
            source_type,
            earlier,
            later,
            shared,
        };
        read_explanation(&question, given)
    };
    ensure(
        of([10, 3, 7, 0, 0, 4, 0, 1, 2, 0]).is_ok() && of([0, 0, 0, 5, 0, 0, 0, 0, 0, 0]).is_ok(),
        "right",
    )?;
    let wrong = [
        [10, 3, 7, 0, 0, 5, 0, 1, 2, 0],
        [10, 3, 7, 2, 0, 4, 0, 1, 2, 0],
        [10, 3, 7, 0, 1, 4, 0, 1, 2, 0],
        [8, 3, 7, 0, 0, 0, 1, 0, 0, 0],
        [8, 3, 7, 0, 0, 0, 0, 1, 0, 0],
        [8, 3, 7, 0, 0, 0, 0, 0, 2, 0],
        [8, 3, 7, 0, 0, 0, 0, 0, 0, 1],
        [0, 0, 0, 5, 0, 1, 0, 1, 2, 1],
        [0, 0, 3, 5, 0, 0, 0, 0, 0, 0],
    ];
    let unnoticed = wrong.into_iter().find(|&numbers| of(numbers).is_ok());
    ensure(unnoticed.is_none(), format!("{unnoticed:?} is taken for an explanation"))
}
