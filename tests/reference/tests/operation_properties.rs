//! What holds of every random row of operations on a table. Heights and filler
//! are stated here a second time, and an operation is judged a second time by
//! writing the table that it would give.

use lafindry_reference::clauses::operations::{shown, OperationClause, Step};
use lafindry_reference::extension::{
    document_of, read_operations, Kept, LoadedTable, Operation, Report, MOST_KEPT,
};
use lafindry_reference::generate::damage::split_commands;
use lafindry_reference::generate::{
    random_extension, random_row, random_small_extension, random_small_row, Rng,
};
use lafindry_reference::table::{ContentModel, Table};
use lafindry_reference::vectors::operations::Row;
use lafindry_reference::vectors::Answer;
use lafindry_reference::{judge_table, Refusal, MOST_TYPES};
use std::collections::{BTreeMap, BTreeSet};

/// How many rows there are for a property.
const COUNT: usize = 3000;

/// Random rows, every third a small one, with their reports and the table before
/// each operation and after the last.
fn rows(seed: u64) -> impl Iterator<Item = (Row, Report, Vec<LoadedTable>)> {
    let mut rng = Rng::new(seed);
    (0..COUNT).map(move |number| {
        let row = if number % 3 == 0 { random_small_row(&mut rng) } else { random_row(&mut rng) };
        let (report, tables) = (row.run().unwrap(), row.tables().unwrap());
        (row, report, tables)
    })
}

/// Calls a test on every operation of random rows.
fn each_step(seed: u64, mut test: impl FnMut(&Step, &LoadedTable)) {
    for (row, report, tables) in rows(seed) {
        for (at, operation) in row.operations.iter().enumerate() {
            let [LoadedTable { table, kept: before }, after] = [&tables[at], &tables[at + 1]];
            let answer = report.answers[at];
            test(&Step { table, operation, answer, before, after: &after.kept }, after);
        }
    }
}

/// For each number of levels up to that of the types, and each type, whether an
/// element of the type can have no more levels.
fn within_levels(table: &Table) -> Vec<Vec<bool>> {
    let mut within = vec![vec![false; table.types.len()]];
    for levels in 1..=table.types.len() {
        let below = |t: &u8| within[levels - 1][*t as usize];
        let fits = |model: &ContentModel| match model {
            ContentModel::Sequence(members) => members.iter().all(below),
            ContentModel::Choice(members) => members.iter().any(below),
            _ => true,
        };
        within.push(table.types.iter().map(fits).collect());
    }
    within
}

/// The least number of levels of an element of each type.
fn least_levels(table: &Table) -> Vec<u64> {
    let within = within_levels(table);
    let least = |t: usize| (0..within.len()).find(|&levels| within[levels][t]).unwrap();
    (0..table.types.len()).map(|t| least(t) as u64).collect()
}

/// Writes the filler element of a type behind some bytes, until there are more
/// than a document may have.
fn write_filler(table: &Table, heights: &[u64], t: u8, bytes: &mut Vec<u8>) {
    if bytes.len() as u64 >= MOST_KEPT {
        return;
    }
    bytes.extend([0x30, t]);
    match &table.types[t as usize] {
        ContentModel::Sequence(members) => {
            members.iter().for_each(|&member| write_filler(table, heights, member, bytes));
        }
        ContentModel::Choice(members) => {
            let lowest = members.iter().map(|&member| heights[member as usize]).min();
            let taken = members.iter().find(|&&member| Some(heights[member as usize]) == lowest);
            write_filler(table, heights, *taken.unwrap(), bytes);
        }
        _ => {}
    }
    bytes.push(0x32);
}

/// After loading and after each operation, all kept numbers are what they should
/// be.
#[test]
fn kept_numbers_are_heights_and_lengths() {
    let mut held = 0;
    for (row, report, tables) in rows(41) {
        assert_eq!(report.kept, tables.last().unwrap().kept);
        for LoadedTable { table, kept } in tables {
            let heights = least_levels(&table);
            let length = |t: u8| {
                let mut bytes = Vec::new();
                write_filler(&table, &heights, t, &mut bytes);
                (bytes.len() as u64).min(MOST_KEPT)
            };
            let stated: Vec<Kept> =
                (0..heights.len()).map(|t| Kept { height: heights[t], length: length(t as u8) }).collect();
            assert_eq!(kept, stated, "{}", row.line(&report));
            held += kept.iter().filter(|kept| kept.length == MOST_KEPT).count();
        }
    }
    assert!(held > 1000, "{held}");
}

/// The bytes of a table after an operation, if this appends exactly one type, or
/// a member to a choice.
fn written(table: &Table, operation: &Operation) -> Option<Vec<u8>> {
    let mut types: Vec<Vec<u8>> = table.types.iter().map(ContentModel::to_bytes).collect();
    match operation {
        Operation::AppendType(commands) => {
            let types_begun = split_commands(commands).iter().filter(|command| command[0] != 0x15).count();
            types.push(commands.clone());
            (types_begun == 1 && commands[0] != 0x15).then_some(())?;
        }
        Operation::AppendMember { extended, member } => {
            let commands = types.get_mut(*extended as usize)?;
            matches!(commands[0], 0x13 | 0x17).then_some(())?;
            commands.extend([0x15, *member]);
        }
    }
    Some([types.concat(), vec![0x1F]].concat())
}

/// An operation is judged as the table that it would give: with refusals 2 to 6
/// where that is judged so, else with 2 or 19.
#[test]
fn operations_are_judged_as_written_tables() {
    let mut refused = BTreeMap::new();
    each_step(42, |step, after| {
        let expected = match written(step.table, step.operation) {
            Some(bytes) => judge_table(&bytes).map_err(|refusal| refusal.number),
            None => match step.operation {
                Operation::AppendType(_) => Err(2),
                Operation::AppendMember { .. } => Err(19),
            },
        };
        let refusal = |number| Refusal { number, document: 1, mark: 0 };
        assert_eq!(step.answer, expected.map_err(refusal), "{:?}: {}", step.table, step.operation);
        match expected {
            Ok(_) => assert_eq!(Some(after.table.to_bytes()), written(step.table, step.operation)),
            Err(number) => {
                assert_eq!((&after.table, step.after), (step.table, step.before));
                *refused.entry(number).or_insert(0) += 1;
            }
        }
    });
    let numbers: Vec<u64> = refused.keys().copied().collect();
    assert_eq!(numbers, [2, 3, 4, 5, 6, 19]);
    assert!(refused.values().all(|&count| count > 200), "{refused:?}");
}

/// A new type moves no older number; a new member moves numbers just where a
/// needed choice gets one that is lower than all it has, and then heights only
/// fall.
#[test]
fn numbers_move_just_for_a_lower_member() {
    let mut moved = 0;
    each_step(43, |step, _| {
        let lower = step.shown().contains(&OperationClause::LowerMember);
        assert_eq!(step.after[..step.before.len()] != *step.before, lower, "{}", step.operation);
        for (before, after) in step.before.iter().zip(step.after) {
            assert!(after.height <= before.height);
        }
        moved += lower as usize;
    });
    assert!(moved > 1000, "{moved}");
}

/// Rows reach every clause, every number of members and of operations, and many
/// numbers of types and heights.
#[test]
fn rows_reach_every_clause() {
    let (mut clauses, mut heights, mut lengths) = (BTreeMap::new(), BTreeSet::new(), BTreeSet::new());
    let (mut types, mut members) = (BTreeSet::new(), BTreeSet::new());
    for (row, report, tables) in rows(44) {
        shown(&row, &report).concat().into_iter().for_each(|clause| *clauses.entry(clause).or_insert(0) += 1);
        lengths.insert(row.operations.len());
        types.insert(report.kept.len());
        heights.extend(report.kept.iter().map(|kept| kept.height));
        members.extend(tables.last().unwrap().table.types.iter().map(|model| model.named().len()));
    }
    assert_eq!((lengths, members), ((0..=40).collect(), (0..=16).collect()));
    assert!((1..=48).chain([MOST_TYPES]).all(|count| types.contains(&count)), "{types:?}");
    assert!((1..=48).all(|height| heights.contains(&height)), "{heights:?}");
    let rare =
        OperationClause::ALL.iter().find(|(clause, _)| clauses.get(clause).is_none_or(|&count| count < 10));
    assert!(rare.is_none(), "{rare:?}: {clauses:?}");
}

/// Documents of operations and reports are read as they are written.
#[test]
fn operations_and_reports_are_read_back() {
    for (row, report, _) in rows(45) {
        let document = document_of(&row.operations);
        assert_eq!(read_operations(&document), Ok(row.operations.clone()));
        let bytes = report.to_bytes();
        assert_eq!(bytes.len(), 1 + 3 * report.kept.len() + 2 * row.operations.len());
        assert_eq!(Report::read(&bytes), Some(report));
        // Cut off, the operations up to an offset can be read, or one there can't.
        let cut = document.len() * 2 / 3;
        match read_operations(&document[..cut]) {
            Ok(operations) => assert!(row.operations.starts_with(&operations)),
            Err(offset) => assert!(read_operations(&document[..offset]).is_ok()),
        }
    }
}

/// Extensions reach every answer.
#[test]
fn extensions_reach_every_answer() {
    let (mut rng, mut answers) = (Rng::new(46), BTreeMap::new());
    for _ in 0..2 * COUNT {
        let extension = random_extension(&mut rng);
        let answer = match extension.run().unwrap() {
            Answer::Ok { value, output, .. } => {
                assert!(Report::read(&output).is_some() && value as usize == output.len());
                (0, 0)
            }
            Answer::Refused(refusal) => (refusal.number, refusal.document),
        };
        *answers.entry(answer).or_insert(0) += 1;
    }
    let all: Vec<(u64, u64)> = answers.keys().copied().collect();
    assert_eq!(all, [(0, 0), (1, 1), (1, 11), (2, 1), (2, 11), (3, 1), (4, 1), (5, 1), (6, 1), (14, 5)]);
    assert!(answers.values().all(|&count| count > 10), "{answers:?}");
}

#[test]
fn small_rows_are_small() {
    let mut rng = Rng::new(47);
    for _ in 0..1000 {
        let row = random_small_row(&mut rng);
        assert!(row.operations.len() <= 4);
        assert!(row.table.len() + document_of(&row.operations).len() <= 50);
        let documents = random_small_extension(&mut rng).documents;
        assert!(documents.concat().len() <= 350);
    }
}
