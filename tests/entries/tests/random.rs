//! The C entries agree with the reference on random cases: valid, damaged and
//! arbitrary documents, short and long. LAFINDRY_SEED sets another seed.

mod arbitrary;
mod seed;

use arbitrary::{arbitrary_case, long_case};
use lafindry_entries::{ensure, refused_by, Failure, Tally, DAMAGED};
use lafindry_reference::generate::cases::{draw_case, Drawn};
use lafindry_reference::generate::{Rng, Shape, TableSize, World};
use lafindry_reference::vectors::Entry;
use seed::seed;

/// How often each answer of each entry has to occur. With seed 1 the rarest
/// occurs 48 times.
const LEAST: usize = 15;

/// Runs cases and counts their answers.
#[derive(Default)]
struct Run {
    tally: Tally,
    /// Of these, the cases whose last document has more than 59,000 bytes.
    long: Tally,
}

impl Run {
    /// Compares the library with the reference on one case.
    fn compare(&mut self, drawn: Drawn) -> Result<(), Failure> {
        let (reference, library) = self.tally.compare_drawn(&drawn)?;
        if drawn.case.documents.last().is_some_and(|document| document.len() > 59_000) {
            self.long.count(drawn.case.entry, refused_by(&reference), refused_by(&library));
        }
        Ok(())
    }
}

/// A world whose documents are short.
fn small_world(rng: &mut Rng) -> World {
    let (optional, lists) = (rng.pick(&[0, 0, 40]), rng.pick(&[0, 0, 30]));
    let size = TableSize { types: rng.between(1, 5), members: 3, optional, lists };
    let shape = Shape { levels: 6, bytes: rng.pick(&[4, 8, 12, 20, 30]), deep: rng.chance(30), wide: false };
    World::random(rng, size, shape)
}

/// A world with a tree of about 60,000 bytes, or of some thousand.
fn long_world(rng: &mut Rng) -> World {
    let size = TableSize::random(rng);
    if rng.chance(60) {
        return World::at_most_bytes(rng, size);
    }
    let shape = Shape::wide(rng);
    World::random(rng, size, shape)
}

#[test]
fn random_cases_agree() -> Result<(), Failure> {
    let mut rng = Rng::new(seed());
    let mut run = Run::default();
    for number in 0..4000 {
        let mixed = World::mixed(&mut rng);
        let small = small_world(&mut rng);
        for entry in Entry::ALL {
            for _ in 0..3 {
                run.compare(draw_case(&mut rng, &mixed, entry))?;
                run.compare(draw_case(&mut rng, &small, entry))?;
            }
            let world = if rng.chance(50) { &mixed } else { &small };
            run.compare(arbitrary_case(&mut rng, world, entry))?;
        }
        if number % 10 == 0 {
            let world = long_world(&mut rng);
            for entry in Entry::ALL {
                run.compare(draw_case(&mut rng, &world, entry))?;
                run.compare(long_case(&mut rng, &world, entry))?;
            }
        }
    }
    let histogram = run.tally.finish(&format!("random cases, seed {}", seed()))?;
    let long = run.long.finish(&format!("of these with more than 59,000 bytes, seed {}", seed()))?;
    histogram.ensure_all(&Entry::ALL, LEAST)?;
    histogram.ensure_made(&DAMAGED, 1000)?;
    let enough = histogram.total() >= 20_000 && long.total() >= 1000 && long.of_any(0) >= 100;
    ensure(enough, "too few cases")
}
