//! The C entries agree with the reference on random cases with an optional
//! choice in a table, and every clause about optional choices occurs among
//! them. LAFINDRY_SEED sets another seed.

mod clauses;
mod seed;

use clauses::Subject;
use lafindry_entries::{ensure, Failure, DAMAGED};
use lafindry_reference::clauses::{has_optional, shown, Clause};
use lafindry_reference::generate::{Rng, World};
use lafindry_reference::vectors::Entry;
use seed::seed;

/// How often each clause has to occur. With seed 1 the rarest occurs 31 times.
const LEAST: usize = 5;

/// Optional choices. A case is counted only where a command 17 stands in a
/// table.
const OPTIONAL: Subject<Clause> = Subject {
    name: "optional choices",
    world: World::optional,
    has: has_optional,
    shown,
    clauses: &Clause::ALL,
};

#[test]
fn cases_with_optional_choices_agree() -> Result<(), Failure> {
    let rng = Rng::new(seed().wrapping_add(500));
    let histogram = OPTIONAL.compare(rng, 6500, &Entry::FIVE, LEAST)?;
    histogram.ensure_all(&Entry::FIVE, 1)?;
    histogram.ensure_made(&DAMAGED, 1000)?;
    ensure(histogram.total() >= 100_000, "too few cases")
}
