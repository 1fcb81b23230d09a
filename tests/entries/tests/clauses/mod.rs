//! Random cases about one subject, among which every clause about it occurs.

use crate::seed::seed;
use lafindry_entries::{Failure, Histogram, Side, Sides, Tally};
use lafindry_reference::generate::cases::draw_case;
use lafindry_reference::generate::{Rng, World};
use lafindry_reference::vectors::{Answer, Case, Entry};

/// How many cases there are of each entry in a world.
const CASES_OF_ENTRY: usize = 4;

/// A subject: how worlds with it are drawn, which cases have it, and the
/// clauses about it that a case and its answer show.
pub struct Subject<C: 'static> {
    pub name: &'static str,
    pub world: fn(&mut Rng) -> World,
    pub has: fn(&Case) -> bool,
    pub shown: fn(&Case, &Answer) -> Vec<C>,
    pub clauses: &'static [(C, &'static str)],
}

impl<C: PartialEq> Subject<C> {
    /// Compares the library with the reference on cases of some entries in so
    /// many worlds, and counts those that have the subject. Fails unless each
    /// clause is shown so often.
    pub fn compare(
        &self,
        mut rng: Rng,
        worlds: usize,
        entries: &[Entry],
        least: usize,
    ) -> Result<Histogram, Failure> {
        let (mut tally, mut others, mut shown) = (Tally::default(), Tally::default(), Sides::default());
        for _ in 0..worlds {
            let world = (self.world)(&mut rng);
            for &entry in entries.iter().flat_map(|entry| [entry; CASES_OF_ENTRY]) {
                let drawn = draw_case(&mut rng, &world, entry);
                if (self.has)(&drawn.case) {
                    let (reference, library) = tally.compare_drawn(&drawn)?;
                    self.count(&mut shown, Side::Reference, &drawn.case, &reference);
                    self.count(&mut shown, Side::Library, &drawn.case, &library);
                } else {
                    others.compare_drawn(&drawn)?;
                }
            }
        }
        let (name, seed) = (self.name, seed());
        let histogram = tally.finish(&format!("cases with {name}, seed {seed}"))?;
        others.finish(&format!("cases drawn with these that have no {name}, seed {seed}"))?;
        shown.finish(&format!("clauses about {name}, seed {seed}"), least)?;
        Ok(histogram)
    }

    /// Counts the clauses that a case and the answer of a side show.
    fn count(&self, counts: &mut Sides<&'static str>, side: Side, case: &Case, answer: &Answer) {
        let shown = (self.shown)(case, answer);
        for (clause, text) in self.clauses {
            counts.add(side, text, shown.contains(clause));
        }
    }
}
