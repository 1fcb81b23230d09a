//! Counting what a test met, so that it fails where it met too little.

use crate::seed::seed;
use lafindry_entries::{ensure, report, Failure};
use std::collections::BTreeMap;

/// Counts of what occurred, by name.
#[derive(Default)]
pub struct Counts(BTreeMap<&'static str, usize>);

impl Counts {
    /// Counts a name if something is so.
    pub fn add(&mut self, name: &'static str, occurred: bool) {
        *self.0.entry(name).or_default() += occurred as usize;
    }

    /// Prints all counts after a title; fails unless each is at least so much.
    pub fn finish(&self, title: &str, least: usize) -> Result<(), Failure> {
        let texts: Vec<String> = self.0.iter().map(|(name, count)| format!("{count} {name}")).collect();
        report(&format!("{title}, seed {}: {}", seed(), texts.join("; ")));
        let rare = self.0.iter().find(|(_, &count)| count < least);
        ensure(rare.is_none(), format!("{title}: {rare:?}, fewer than {least}"))
    }
}
