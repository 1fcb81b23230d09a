//! The stored tallies with which the C tests compare their own: what the
//! reference answers when one byte of one of the patch's documents, of a table or
//! of operations on it takes each other value.

use lafindry_reference::vectors::operations::Extension;
use lafindry_reference::vectors::{from_hex, Answer, Case, Entry};
use std::collections::BTreeMap;

/// The length of output that the C tests lend with changed documents, and with a
/// changed table or changed operations.
const ROOM: usize = 22;
const REPORT_ROOM: usize = 33;

/// The bytes of a file of the repository.
fn read(name: &str) -> Vec<u8> {
    let path = format!("{}/../../{name}", env!("CARGO_MANIFEST_DIR"));
    std::fs::read(&path).expect(&path)
}

/// The patch as a case of an entry; the tree to bring back or to read is its
/// image.
fn patch(entry: Entry) -> Case {
    let [source, target, embedding, tree] =
        ["s1", "s2", "em", "tr"].map(|name| read(&format!("examples/patch/{name}")));
    let documents = match entry {
        Entry::JudgeTable => vec![source],
        Entry::JudgeEmbedding => vec![source, target, embedding],
        Entry::JudgeTree => vec![source, tree],
        Entry::Carry => vec![source, target, embedding, tree],
        Entry::BringBack | Entry::ReadAlong => {
            let Ok(Answer::Ok { output, .. }) = patch(Entry::Carry).run() else {
                panic!("the patch is carried")
            };
            vec![source, target, embedding, output]
        }
    };
    Case { entry, documents, output_length: if entry.writes() { ROOM } else { 0 } }
}

/// The documents whose bytes change, in the order of the C tests: a name, the
/// patch as a case, and the place of the document.
fn places() -> Vec<(&'static str, Case, usize)> {
    let names: [(Entry, &[&str]); 6] = [
        (Entry::JudgeTable, &["table, source", "table, target"]),
        (Entry::JudgeEmbedding, &["embedding, source table", "embedding, target table", "embedding"]),
        (Entry::JudgeTree, &["tree, table", "tree"]),
        (Entry::Carry, &["carry, source table", "carry, target table", "carry, embedding", "carry, tree"]),
        (
            Entry::BringBack,
            &[
                "bring back, source table",
                "bring back, target table",
                "bring back, embedding",
                "bring back, tree",
            ],
        ),
        (
            Entry::ReadAlong,
            &[
                "read along, source table",
                "read along, target table",
                "read along, embedding",
                "read along, tree",
            ],
        ),
    ];
    let mut places = Vec::new();
    for (entry, names) in names {
        for (at, &name) in names.iter().enumerate() {
            match (entry, at) {
                // Either table is judged alone.
                (Entry::JudgeTable, 1) => {
                    let documents = vec![read("examples/patch/s2")];
                    places.push((name, Case { entry, documents, output_length: 0 }, 0));
                }
                _ => places.push((name, patch(entry), at)),
            }
        }
    }
    places
}

/// The table and the operations of the C tests.
fn operated() -> Extension {
    let table = "1215011315001502121503111f";
    let operations = "520103 51051715011504 520403 520003 5100 520103 5103121505 520105";
    let hex = |text: &str| from_hex(&text.replace(' ', "")).expect("hexadecimal");
    Extension { documents: [hex(table), hex(operations)], output_length: REPORT_ROOM }
}

/// The tally of all changes of one byte of a document, given what answers to each,
/// as an initializer in C.
fn tally(name: &str, document: &[u8], answer: impl Fn(Vec<u8>) -> Result<Answer, String>) -> String {
    let mut counts: BTreeMap<(u64, u64), u64> = BTreeMap::new();
    let [mut marks, mut values, mut fillers, mut bytes] = [0; 4];
    let offsets = 0..document.len();
    for (offset, change) in offsets.flat_map(|offset| (1..=0xFF).map(move |change| (offset, change))) {
        let mut changed = document.to_vec();
        changed[offset] ^= change;
        match answer(changed).expect("the output is kept") {
            Answer::Ok { value, filler, output } => {
                *counts.entry((0, 0)).or_default() += 1;
                values += value;
                fillers += filler;
                bytes += (1..).zip(&output).map(|(place, &byte)| place * byte as u64).sum::<u64>();
            }
            Answer::Refused(refusal) => {
                *counts.entry((refusal.number, refusal.document)).or_default() += 1;
                marks += refusal.mark;
            }
        }
    }
    let counts = counts.iter().map(|((number, document), count)| format!("[{number}][{document}] = {count}"));
    let counts = counts.collect::<Vec<String>>().join(", ");
    format!(
        "    /* {name} */\n    {{.count = {{{counts}}},\n     \
         .marks = {marks}, .values = {values}, .fillers = {fillers}, .bytes = {bytes}}},\n"
    )
}

/// The tally of a place of the patch.
fn tally_of_patch((name, patch, at): (&str, Case, usize)) -> String {
    tally(name, &patch.documents[at], |changed| {
        let mut case = patch.clone();
        case.documents[at] = changed;
        case.run()
    })
}

/// The tally of a place of the table and its operations.
fn tally_of_operated((name, at): (&str, usize)) -> String {
    tally(name, &operated().documents[at], |changed| {
        let mut extension = operated();
        extension.documents[at] = changed;
        extension.run()
    })
}

#[test]
fn stored_tallies_are_the_references() {
    let of_patch = places().into_iter().map(tally_of_patch);
    let of_operated = [("extend, table", 0), ("extend, operations", 1)].map(tally_of_operated);
    let text: String = of_patch.chain(of_operated).collect();
    let stored = String::from_utf8(read("tests/c/changes.inc")).expect("text");
    assert!(text == stored, "tests/c/changes.inc should be:\n{text}");
}
