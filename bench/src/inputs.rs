//! What is timed: documents of the patch of paper 01, of a table of records, of
//! one with optional settings, near the limits, a thousand different patches,
//! edited images, and rows of operations on a table.

use crate::documents::*;
use crate::images;
use lafindry_reference::extension::MOST_REPORT;
use lafindry_reference::vectors::explanations::Question;
use lafindry_reference::vectors::operations::{Extension, Row};
use lafindry_reference::vectors::{Case, Entry};
use lafindry_reference::MOST_BYTES;

/// Cases of one entry that are timed together, and what to call them.
pub struct Input {
    pub name: &'static str,
    pub cases: Vec<Case>,
}

/// All inputs, by entry.
pub fn all() -> Vec<Input> {
    let carried = images::carried();
    let given = |entry| carried.iter().map(|input| images::images(input, entry)).collect();
    let (brought_back, read): (Vec<Input>, Vec<Input>) = (given(Entry::BringBack), given(Entry::ReadAlong));
    let all = [tables(), embeddings(), trees(), carried, brought_back, read, images::edited()];
    all.into_iter().flatten().collect()
}

/// An input of one judgement.
fn judged(name: &'static str, entry: Entry, documents: &[&[u8]]) -> Input {
    let documents = documents.iter().map(|document| document.to_vec()).collect();
    Input { name, cases: vec![Case { entry, documents, output_length: 0 }] }
}

fn tables() -> Vec<Input> {
    let many = [vec![0x11; MOST_BYTES - 1], vec![0x1F]].concat();
    let table = |name, table: &[u8]| judged(name, Entry::JudgeTable, &[table]);
    vec![
        table("patch", PATCH_SOURCE),
        table("records", RECORDS_SOURCE),
        table("64 types, 16 members each", &chain()),
        table("64 optional choices", &last_table(&many_members())),
        table("48 choices, 16 sequences", &last_table(&lower_members())),
        table("59,999 types", &many),
    ]
}

fn embeddings() -> Vec<Input> {
    let (chain, wide) = (chain(), wide_target());
    vec![
        judged("patch", Entry::JudgeEmbedding, &[PATCH_SOURCE, PATCH_TARGET, PATCH_EMBEDDING]),
        judged("records", Entry::JudgeEmbedding, &[RECORDS_SOURCE, RECORDS_TARGET, RECORDS_EMBEDDING]),
        judged("1,008 paths of 2 steps", Entry::JudgeEmbedding, &[&chain, &wide, &long_paths(2)]),
        judged("1,008 paths of 12 steps", Entry::JudgeEmbedding, &[&chain, &wide, &long_paths(12)]),
    ]
}

/// A question why paths clash, and what to call it.
pub struct Asked {
    pub name: &'static str,
    pub question: Question,
}

/// Questions: the patch with its two switches at one place, and the longest
/// paths, without a clash and where the last two clash.
pub fn questions() -> Vec<Asked> {
    let asked = |name, documents: [&[u8]; 3]| Asked {
        name,
        question: Question { documents: documents.map(<[u8]>::to_vec) },
    };
    let (chain, wide, free) = (chain(), wide_target(), long_paths(12));
    vec![
        asked("patch", [PATCH_SOURCE, PATCH_TARGET, PATCH_CLASHING]),
        asked("1,008 paths, none clashes", [&chain, &wide, &free]),
        asked("1,008 paths, the last clashes", [&chain, &wide, &last_clashing(free.clone())]),
    ]
}

/// Operations on a table, and what to call them.
pub struct Operated {
    pub name: &'static str,
    pub extension: Extension,
}

/// Rows of operations that make a table of 64 types from one, and the tables that
/// they end with, loaded at once.
pub fn operated() -> Vec<Operated> {
    let operated = |name, row: &Row| Operated { name, extension: row.lent(MOST_REPORT) };
    let loaded = |name, row: &Row| operated(name, &Row { table: last_table(row), operations: Vec::new() });
    let (many, lower) = (many_members(), lower_members());
    vec![
        operated("63 types, 15 members each", &many),
        loaded("64 optional choices, loaded", &many),
        operated("63 types, 672 lower members", &lower),
        loaded("48 choices, loaded", &lower),
    ]
}

/// The table that a row of operations ends with.
fn last_table(row: &Row) -> Vec<u8> {
    let tables = row.tables().expect("the table is accepted");
    tables[row.operations.len()].table.to_bytes()
}

fn trees() -> Vec<Input> {
    let tree = |name, table: &[u8], tree: &[u8]| judged(name, Entry::JudgeTree, &[table, tree]);
    vec![
        tree("patch", PATCH_SOURCE, PATCH_TREE),
        tree("patch's image", PATCH_TARGET, PATCH_IMAGE),
        tree("records", RECORDS_SOURCE, &records(100)),
        tree("records", RECORDS_SOURCE, &records(1000)),
        tree("records", RECORDS_SOURCE, &records(10_000)),
        tree("records", RECORDS_SOURCE, &records(30_000)),
        tree("records", RECORDS_SOURCE, &records(MOST_BYTES)),
        tree("one text", &[0x10, 0x1F], &filled(&[0x31, 0x41])),
        tree("empty elements", &[0x14, 1, 0x11, 0x1F], &filled(&[0x30, 1, 0x32])),
        tree("last of 16 members", &list_of_choices(), &filled(LAST_CHOICE)),
        tree("up to 128 levels", &[0x14, 0, 0x1F], &filled(&all_levels())),
    ]
}
