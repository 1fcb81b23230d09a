//! Documents that differ from one in one place.

use std::collections::BTreeSet;

/// All documents that differ from one in one place: cut off there, a byte
/// changed, left out or put in.
pub fn changes(document: &[u8]) -> BTreeSet<Vec<u8>> {
    let mut all = BTreeSet::new();
    for at in 0..=document.len() {
        let (before, after) = document.split_at(at);
        all.insert(before.to_vec());
        all.extend((0..=0xFF).map(|byte| [before, &[byte], after].concat()));
        if let Some((_, rest)) = after.split_first() {
            all.insert([before, rest].concat());
            all.extend((0..=0xFF).map(|byte| [before, &[byte], rest].concat()));
        }
    }
    all.remove(document);
    all
}
