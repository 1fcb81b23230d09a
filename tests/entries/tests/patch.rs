//! The C entries agree with the reference on the worked patch and on every
//! document that differs from it in one place.

mod changes;

use changes::changes;
use lafindry_entries::{ensure, Failure, Kind, Tally};
use lafindry_reference::generate::cases::Made;
use lafindry_reference::vectors::{Answer, Case, Entry};
use lafindry_reference::MOST_BYTES;

/// The source table, target table, embedding and tree of the patch.
fn patch() -> [Vec<u8>; 4] {
    ["s1", "s2", "em", "tr"].map(|name| {
        let path = format!("{}/../../examples/patch/{name}", env!("CARGO_MANIFEST_DIR"));
        std::fs::read(&path).expect(&path)
    })
}

/// How many tables, embeddings, trees and images differ from the patch's in one
/// place, those given to several entries counted for each.
const CHANGED: [usize; 4] = [84_460, 54_268, 15_866, 22_008];

/// The patch as a case of an entry; the tree to bring back or to read is its
/// image.
fn patch_case(entry: Entry) -> Case {
    let [source, target, embedding, tree] = patch();
    let documents = match entry {
        Entry::JudgeTable => vec![source],
        Entry::JudgeEmbedding => vec![source, target, embedding],
        Entry::JudgeTree => vec![source, tree],
        Entry::Carry => vec![source, target, embedding, tree],
        Entry::BringBack | Entry::ReadAlong => {
            let carried = patch_case(Entry::Carry).run_into(&mut [0; MOST_BYTES]);
            let Answer::Ok { output, .. } = carried else { panic!("the patch is carried") };
            vec![source, target, embedding, output]
        }
    };
    Case { entry, documents, output_length: if entry.writes() { 30 } else { 0 } }
}

#[test]
fn changes_of_the_patch_agree() -> Result<(), Failure> {
    let mut tally = Tally::default();
    for entry in Entry::ALL {
        let patch = patch_case(entry);
        for at in 0..patch.documents.len() {
            for changed in changes(&patch.documents[at]) {
                let mut case = patch.clone();
                case.documents[at] = changed;
                tally.count_change(entry, at, Made::Damaged);
                tally.compare(&case)?;
            }
        }
    }
    let histogram = tally.finish("changes of the patch")?;
    // The refusals that a change in one place can bring about.
    let rare = [2, 4, 5, 6, 8, 9, 11, 15].into_iter().find(|&number| histogram.of_any(number) == 0);
    ensure(rare.is_none(), format!("refusal {rare:?} did not occur"))?;
    let damaged = [Kind::Table, Kind::Embedding, Kind::Tree, Kind::Image];
    let damaged = damaged.map(|kind| histogram.made(kind, Made::Damaged));
    ensure(damaged == CHANGED && histogram.total() == CHANGED.iter().sum(), "not as many changes")?;
    ensure(histogram.of_any(0) > 300, "too few accepted")
}
