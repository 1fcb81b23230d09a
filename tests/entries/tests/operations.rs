//! The library carries out operations on tables as the reference does: on random
//! rows, among which numbers move in every way, and after each of their
//! operations; on the tables that they end with, loaded anew; on damaged
//! documents, and on every document that differs from a worked one in one place;
//! at the limits. LAFINDRY_SEED sets another seed.

mod changes;
mod seed;

use changes::changes;
use lafindry_entries::{ensure, Extended, Extensions, Failure, Side, Sides, Tally};
use lafindry_reference::clauses::operations::{OperationClause, Step};
use lafindry_reference::extension::{document_of, LoadedTable, Operation, Report, MOST_REPORT};
use lafindry_reference::generate::{random_extension, random_row, random_small_row, Rng};
use lafindry_reference::table::{ContentModel, Table};
use lafindry_reference::vectors::operations::{parse_line, Extension, Row};
use lafindry_reference::vectors::{Answer, Case, Entry};
use lafindry_reference::{Refusal, MOST_BYTES, MOST_MEMBERS, MOST_TYPES, OPERATIONS, SOURCE};
use seed::seed;
use std::collections::BTreeMap;

/// How often each answer to an operation has to occur among random rows. With
/// seed 1 the rarest occurs 689 times.
const LEAST_ANSWER: usize = 200;
/// How often whatever an operation shows has to occur. With seed 1 the rarest
/// occurs 28 times.
const LEAST_CLAUSE: usize = 8;
/// How often each answer has to occur among damaged documents. With seed 1 the
/// rarest occurs 92 times.
const LEAST_DAMAGED: usize = 25;

/// The table before each operation of a row and after the last, by the reference.
fn tables_of(row: &Row) -> Result<Vec<LoadedTable>, Failure> {
    row.tables().map_err(|refusal| Failure(format!("{row:?}: {refusal}")))
}

/// The length of the report after so many operations that leave a table.
fn length_of(operations: usize, table: &LoadedTable) -> usize {
    1 + 3 * table.kept.len() + 2 * operations
}

/// Fails where something that can be counted occurred less often than it should.
fn ensure_counts(
    counts: &BTreeMap<Extended, usize>,
    least: usize,
    test: impl Fn(&Extended) -> bool,
) -> Result<(), Failure> {
    let count = |extended: &Extended| counts.get(extended).copied().unwrap_or(0);
    let rare = Extended::all().filter(test).find(|extended| count(extended) < least);
    ensure(rare.is_none(), format!("{rare:?}, fewer than {least}"))
}

/// Every row is reported alike, and the table that it ends with, written and
/// loaded anew, has the same numbers.
#[test]
fn random_rows_agree() -> Result<(), Failure> {
    let mut rng = Rng::new(seed().wrapping_add(800));
    let (mut rows, mut anew, mut judged) = (Extensions::default(), Extensions::default(), Tally::default());
    for number in 0..24_000 {
        let row = if number % 4 == 0 { random_small_row(&mut rng) } else { random_row(&mut rng) };
        let tables = tables_of(&row)?;
        let last = &tables[row.operations.len()];
        let report = rows.compare_row(&row, length_of(row.operations.len(), last) + number % 3)?;
        let written = Row { table: last.table.to_bytes(), operations: Vec::new() };
        let loaded = anew.compare_row(&written, length_of(0, last))?;
        ensure(loaded.kept == report.kept, format!("{}\nanew: {loaded:?}", row.line(&report)))?;
        let case = Case { entry: Entry::JudgeTable, documents: vec![written.table], output_length: 0 };
        let expected = Answer::Ok { value: last.kept.len() as u64, filler: 0, output: Vec::new() };
        judged.compare_with(&case, &expected)?;
    }
    ensure([rows.total(), anew.total()] == [24_000; 2], "not as many rows")?;
    let counts = rows.finish(&format!("random rows, seed {}", seed()))?;
    anew.finish("the tables that they end with, loaded anew")?;
    judged.finish("the same tables, judged")?;
    ensure_counts(&counts, LEAST_ANSWER, |extended| !matches!(extended, Extended::Document(_)))
}

/// Counts what the operations of a row show on a side, given the answers and what
/// is kept before each and after the last.
fn count_shown(
    clauses: &mut Sides<&'static str>,
    side: Side,
    row: &Row,
    tables: &[LoadedTable],
    reports: &[Report],
) {
    for (at, operation) in row.operations.iter().enumerate() {
        let [before, after] = [&reports[at].kept[..], &reports[at + 1].kept];
        let answer = reports[at + 1].answers[at];
        let shown = Step { table: &tables[at].table, operation, answer, before, after }.shown();
        for (clause, text) in &OperationClause::ALL {
            clauses.add(side, text, shown.contains(clause));
        }
    }
}

/// After each operation of a row the numbers are kept alike.
#[test]
fn each_operation_agrees() -> Result<(), Failure> {
    let mut rng = Rng::new(seed().wrapping_add(801));
    let (mut extensions, mut clauses) = (Extensions::default(), Sides::default());
    for _ in 0..2500 {
        let row = random_row(&mut rng);
        let tables = tables_of(&row)?;
        let answers = row.run().map_err(|refusal| Failure(format!("{row:?}: {refusal}")))?.answers;
        let (mut by_reference, mut by_library) = (Vec::new(), Vec::new());
        for (count, table) in tables.iter().enumerate() {
            let beginning = Row { table: row.table.clone(), operations: row.operations[..count].to_vec() };
            by_reference.push(Report { answers: answers[..count].to_vec(), kept: table.kept.clone() });
            by_library.push(extensions.compare_row(&beginning, length_of(count, table))?);
        }
        count_shown(&mut clauses, Side::Reference, &row, &tables, &by_reference);
        count_shown(&mut clauses, Side::Library, &row, &tables, &by_library);
    }
    extensions.finish(&format!("beginnings of rows, seed {}", seed()))?;
    clauses.finish(&format!("what operations show, seed {}", seed()), LEAST_CLAUSE)
}

#[test]
fn damaged_documents_agree() -> Result<(), Failure> {
    let mut rng = Rng::new(seed().wrapping_add(802));
    let mut extensions = Extensions::default();
    for _ in 0..20_000 {
        extensions.compare(&random_extension(&mut rng))?;
    }
    let counts = extensions.finish(&format!("damaged documents, seed {}", seed()))?;
    ensure_counts(&counts, LEAST_DAMAGED, |_| true)
}

/// Rows in which each operation is accepted or refused in another way.
const WORKED: [&str; 3] = [
    "keep 1215011315001502121503111f | member 1 3 -> ok 4 | kept 3/9 2/6 2/6 1/3",
    "keep 171500111f | type 1315021501 -> ok 3 | member 0 2 -> ok 3 | member 2 0 -> ok 3 | \
     kept 1/3 1/3 2/6",
    "keep 131501150211111f | type 12150015001502 -> ok 4 | type 1500 -> refused 2 1 0 | \
     member 3 0 -> refused 19 1 0 | member 0 3 -> ok 4 | kept 2/6 1/3 1/3 3/18",
];

#[test]
fn changes_of_worked_rows_agree() -> Result<(), Failure> {
    let mut extensions = Extensions::default();
    for line in WORKED {
        let (row, stated) = parse_line(line).map_err(|message| Failure(format!("{line}: {message}")))?;
        extensions.compare_row_with(&row, &stated)?;
        let extension = row.lent(2 * stated.to_bytes().len());
        for at in 0..2 {
            for changed in changes(&extension.documents[at]) {
                let mut other = extension.clone();
                other.documents[at] = changed;
                extensions.compare(&other)?;
            }
        }
    }
    ensure(extensions.total() >= 32_000, "too few changes")?;
    let counts = extensions.finish("changes of worked rows")?;
    // The answers that a change in one place can bring about.
    ensure_counts(&counts, 1, |extended| match *extended {
        Extended::Document((number, _)) => !matches!(number, 1 | 3 | 14),
        Extended::Type(number) | Extended::Member(number) => number != 3,
    })
}

/// An output is too short by one byte, just long enough, or longer.
#[test]
fn outputs_of_all_lengths_agree() -> Result<(), Failure> {
    let mut rng = Rng::new(seed().wrapping_add(803));
    let mut extensions = Extensions::default();
    for _ in 0..60 {
        let row = random_row(&mut rng);
        let needed = row.run().map_err(|refusal| Failure(refusal.to_string()))?.to_bytes().len();
        for length in (0..needed + 4).chain([needed + 1000]) {
            let answer = extensions.compare(&row.lent(length))?;
            let accepted = matches!(answer, Answer::Ok { value, .. } if value as usize == needed);
            ensure(accepted == (length >= needed), format!("{answer} with {length} bytes of {needed}"))?;
        }
    }
    extensions.finish(&format!("outputs of all lengths, seed {}", seed())).map(drop)
}

/// A type of each kind; all but the first three name themselves.
fn models(number: usize) -> [ContentModel; 6] {
    let members = vec![0, number as u8];
    [
        ContentModel::Text,
        ContentModel::Empty,
        ContentModel::Sequence(vec![0; MOST_MEMBERS]),
        ContentModel::Choice(members.clone()),
        ContentModel::OptionalChoice(members),
        ContentModel::List(number as u8),
    ]
}

/// The 64th type of each kind is appended, the 65th refused.
#[test]
fn types_at_the_limit() -> Result<(), Failure> {
    let mut extensions = Extensions::default();
    for kind in 0..models(0).len() {
        let append = |number: usize| Operation::AppendType(models(number)[kind].to_bytes());
        for first in [1, MOST_TYPES - 1, MOST_TYPES] {
            let table = Table { types: vec![ContentModel::Empty; first] }.to_bytes();
            let row = Row { table, operations: (first..MOST_TYPES + 2).map(append).collect() };
            let report = extensions.compare_row(&row, MOST_BYTES)?;
            let accepted = (first + 1..=MOST_TYPES).map(|count| Ok(count as u64));
            let refused = [Err(Refusal::new(3, SOURCE, 0)); 2];
            let expected: Vec<Result<u64, Refusal>> = accepted.chain(refused).collect();
            ensure(report.answers == expected, row.line(&report))?;
        }
    }
    extensions.finish("types at the limit").map(drop)
}

/// The 16th member of a choice of either kind is appended, the 17th refused.
#[test]
fn members_at_the_limit() -> Result<(), Failure> {
    let mut extensions = Extensions::default();
    let count = MOST_MEMBERS as u8 + 2;
    for choice in [ContentModel::Choice, ContentModel::OptionalChoice] {
        let types = [vec![choice(vec![1, 2])], vec![ContentModel::Empty; count as usize - 1]].concat();
        let append = |member: u8| Operation::AppendMember { extended: 0, member };
        let row = Row { table: Table { types }.to_bytes(), operations: (3..count).map(append).collect() };
        let report = extensions.compare_row(&row, MOST_BYTES)?;
        let refused = report.answers.iter().position(Result::is_err);
        ensure(refused == Some(MOST_MEMBERS - 2), row.line(&report))?;
    }
    extensions.finish("members at the limit").map(drop)
}

/// Documents of operations of about 60,000 bytes, on tables of few types and of
/// as many as there may be.
#[test]
fn operations_at_the_limit() -> Result<(), Failure> {
    let mut extensions = Extensions::default();
    let repeated = [
        Operation::AppendType(Vec::new()),
        Operation::AppendType(vec![0x11; 13]),
        Operation::AppendType(vec![0x14, 0]),
        Operation::AppendMember { extended: 0, member: 0 },
        Operation::AppendMember { extended: 1, member: 0 },
    ];
    for (operation, types) in repeated.iter().flat_map(|operation| [(operation, 3), (operation, MOST_TYPES)])
    {
        let types = [vec![ContentModel::Choice(vec![1, 2])], vec![ContentModel::Empty; types - 1]].concat();
        let table = Table { types }.to_bytes();
        let document = document_of(&vec![operation.clone(); MOST_BYTES]);
        for length in MOST_BYTES - 3..=MOST_BYTES + 2 {
            let documents = [table.clone(), document[..length].to_vec()];
            let answer = extensions.compare(&Extension { documents, output_length: MOST_REPORT })?;
            let too_long = answer == Answer::Refused(Refusal::new(1, OPERATIONS, 0));
            ensure(too_long == (length > MOST_BYTES), format!("{length} bytes"))?;
        }
    }
    let counts = extensions.finish("operations at the limit")?;
    ensure(counts[&Extended::Document((0, 0))] >= 10, "too few documents were read")
}
