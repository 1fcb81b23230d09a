//! Two tables and an embedding as documents, and the entries called with them.

use crate::{Failure, Tally};
use lafindry_reference::generate::World;
use lafindry_reference::vectors::{Answer, Case, Entry};
use lafindry_reference::Refusal;

/// The documents of a source table, a target table and an embedding.
pub struct Setting {
    documents: [Vec<u8>; 3],
}

impl Setting {
    /// The setting of a world.
    pub fn of(world: &World) -> Setting {
        let embedded = &world.embedded;
        Setting::new(embedded.source.to_bytes(), embedded.target.to_bytes(), embedded.embedding.to_bytes())
    }

    /// The setting of three documents.
    pub fn new(source: Vec<u8>, target: Vec<u8>, embedding: Vec<u8>) -> Setting {
        Setting { documents: [source, target, embedding] }
    }

    /// The case of carrying a tree, bringing it back or reading it along, into so
    /// many bytes.
    pub fn case(&self, entry: Entry, tree: &[u8], output_length: usize) -> Case {
        let documents = [&self.documents[..], &[tree.to_vec()]].concat();
        Case { entry, documents, output_length }
    }

    /// Carries a tree, brings it back or reads it along, into so many bytes, and
    /// compares with the reference. Gives the document written.
    pub fn written(
        &self,
        tally: &mut Tally,
        entry: Entry,
        tree: &[u8],
        output_length: usize,
    ) -> Result<Result<Vec<u8>, Refusal>, Failure> {
        Ok(match tally.compare(&self.case(entry, tree, output_length))? {
            Answer::Ok { output, .. } => Ok(output),
            Answer::Refused(refusal) => Err(refusal),
        })
    }

    /// Judges a tree by the target table, and compares with the reference.
    pub fn judge_image(&self, tally: &mut Tally, tree: &[u8]) -> Result<Answer, Failure> {
        let documents = vec![self.documents[1].clone(), tree.to_vec()];
        tally.compare(&Case { entry: Entry::JudgeTree, documents, output_length: 0 })
    }
}
