//! Seeded generators of tables, embeddings, trees, damage and whole cases.
//!
//! The same seed always gives the same values. Begin with
//!
//! ```
//! use lafindry_reference::generate::{random_case, Rng};
//! let mut rng = Rng::new(7);
//! let case = random_case(&mut rng);
//! let answer = case.run().unwrap();
//! println!("{case} -> {answer}");
//! ```
//!
//! | Module | What it generates |
//! |---|---|
//! | [`tables`] | tables whose types all have a finite instance |
//! | [`embeddings`] | a target table and a valid embedding for a source table |
//! | [`trees`] | conforming trees of bounded length and levels |
//! | [`damage`] | documents with errors, and altered images |
//! | [`detours`] | paths changed together with the target table |
//! | [`bunches`] | paths of one source type with what they go through, some clashing |
//! | [`clashes`] | clashing embeddings, and questions why they clash |
//! | [`cases`] | an entry with all its documents |
//! | [`crossings`] | documents that go across, to be counted |
//! | [`edits`] | images in which something is changed, to be read along the paths |
//! | [`operations`] | rows of operations on a table, and such rows as documents |

pub mod bunches;
pub mod cases;
pub mod clashes;
pub mod crossings;
pub mod damage;
pub mod detours;
pub mod edits;
pub mod embeddings;
pub mod operations;
pub mod tables;
pub mod trees;

pub use cases::{
    random_case, random_small_accented_case, random_small_case, random_small_listed_case,
    random_small_optional_case, World,
};
pub use clashes::{random_question, random_small_question};
pub use crossings::{crossing_of, damaged_crossing, random_small_crossing};
pub use edits::{edited_case, random_small_edited_case, Edits};
pub use embeddings::{random_embedded, Embedded};
pub use operations::{random_extension, random_row, random_small_extension, random_small_row};
pub use tables::{random_table, TableSize};
pub use trees::{random_tree, Shape};

/// A small generator of pseudorandom numbers (splitmix64).
#[derive(Debug, Clone)]
pub struct Rng {
    state: u64,
}

impl Rng {
    /// Starts from a seed.
    pub fn new(seed: u64) -> Rng {
        Rng { state: seed }
    }

    /// The next 64 bits.
    pub fn bits(&mut self) -> u64 {
        self.state = self.state.wrapping_add(0x9E37_79B9_7F4A_7C15);
        let mut z = self.state;
        z = (z ^ (z >> 30)).wrapping_mul(0xBF58_476D_1CE4_E5B9);
        z = (z ^ (z >> 27)).wrapping_mul(0x94D0_49BB_1331_11EB);
        z ^ (z >> 31)
    }

    /// A number from 0 to `count` - 1; 0 where `count` is 0.
    pub fn below(&mut self, count: usize) -> usize {
        (self.bits() % count.max(1) as u64) as usize
    }

    /// A number from `low` to `high`, both included.
    pub fn between(&mut self, low: usize, high: usize) -> usize {
        low + self.below(high.saturating_sub(low) + 1)
    }

    /// True in so many of 100 cases.
    pub fn chance(&mut self, percent: usize) -> bool {
        self.below(100) < percent
    }

    /// Any byte.
    pub fn byte(&mut self) -> u8 {
        self.bits() as u8
    }

    /// One of some values, which must not be empty.
    pub fn pick<T: Clone>(&mut self, values: &[T]) -> T {
        values[self.below(values.len())].clone()
    }

    /// An index drawn by weights.
    pub fn weighted(&mut self, weights: &[usize]) -> usize {
        let mut left = self.below(weights.iter().sum());
        for (index, &weight) in weights.iter().enumerate() {
            if left < weight {
                return index;
            }
            left -= weight;
        }
        0
    }

    /// Puts some values in random order.
    pub fn shuffle<T>(&mut self, values: &mut [T]) {
        for last in (1..values.len()).rev() {
            values.swap(last, self.below(last + 1));
        }
    }
}
