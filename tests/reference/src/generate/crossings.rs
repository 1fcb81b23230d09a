//! Documents that go across, to be counted.

use super::cases::{case_of, World};
use super::tables::TableSize;
use super::trees::Shape;
use super::Rng;
use crate::vectors::crossings::Crossing;
use crate::vectors::Entry;

/// The documents of a world.
pub fn crossing_of(world: &World) -> Crossing {
    Crossing { documents: world.all_documents() }
}

/// The documents of a world as a case of carrying has them: in about half of these
/// cases some are damaged.
pub fn damaged_crossing(rng: &mut Rng, world: &World) -> Crossing {
    let documents = case_of(rng, world, Entry::Carry).documents;
    Crossing { documents: documents.try_into().expect("four documents") }
}

/// Documents of at most 60 bytes each and 110 together, a few of them damaged.
pub fn random_small_crossing(rng: &mut Rng) -> Crossing {
    loop {
        let (bytes, members) = (rng.pick(&[8, 12, 20, 30]), rng.pick(&[2, 3]));
        let (optional, lists) = (rng.pick(&[0, 40, 80]), rng.pick(&[0, 30, 50]));
        let size = TableSize { types: rng.between(1, 5), members, optional, lists };
        let shape = Shape { levels: 6, bytes, deep: rng.chance(30), wide: false };
        let world = World::random(rng, size, shape);
        let crossing = if rng.chance(5) { damaged_crossing(rng, &world) } else { crossing_of(&world) };
        let lengths = || crossing.documents.iter().map(Vec::len);
        if lengths().all(|length| length <= 60) && lengths().sum::<usize>() <= 110 {
            return crossing;
        }
    }
}
