//! The C entries agree with the reference on random cases with a list on the
//! path of a choice, and every clause about such lists occurs among them.
//! LAFINDRY_SEED sets another seed.

mod clauses;
mod seed;

use clauses::Subject;
use lafindry_entries::{ensure, Failure, Kind};
use lafindry_reference::clauses::lists::{has_list_on_choice, shown, ListClause};
use lafindry_reference::generate::cases::Made;
use lafindry_reference::generate::{Rng, World};
use lafindry_reference::vectors::Entry;
use seed::seed;

/// How often each clause has to occur. With seed 1 the rarest occurs 28 times.
const LEAST: usize = 5;

/// Lists on the paths of choices. A case is counted only where its tables are
/// accepted, its embedding has the right form, and a path of a choice of either
/// kind leaves a list.
const LISTS: Subject<ListClause> = Subject {
    name: "lists on the paths of choices",
    world: World::listed,
    has: has_list_on_choice,
    shown,
    clauses: &ListClause::ALL,
};

/// The entries that are given an embedding.
const ENTRIES: [Entry; 3] = [Entry::JudgeEmbedding, Entry::Carry, Entry::BringBack];

/// The answers that each of these entries has to give in such a case, by
/// refusal number; 0 where it accepts.
const ANSWERS: [&[u64]; 3] = [
    &[0, 3, 4, 7, 8, 9, 10],
    &[0, 2, 3, 4, 7, 8, 9, 10, 11, 12, 13, 14],
    &[0, 2, 3, 4, 7, 8, 9, 10, 11, 14, 15],
];

#[test]
fn cases_with_lists_on_paths_agree() -> Result<(), Failure> {
    let rng = Rng::new(seed().wrapping_add(700));
    let histogram = LISTS.compare(rng, 6000, &ENTRIES, LEAST)?;
    for (entry, numbers) in ENTRIES.into_iter().zip(ANSWERS) {
        let missing = numbers.iter().find(|&&number| histogram.of(entry, number) == 0);
        ensure(missing.is_none(), format!("{}: {missing:?} did not occur", entry.name()))?;
    }
    let ways = [(Kind::Embedding, Made::Damaged), (Kind::Image, Made::Damaged), (Kind::Image, Made::Altered)];
    histogram.ensure_made(&ways, 1000)?;
    ensure(histogram.total() >= 50_000, "too few cases")
}
