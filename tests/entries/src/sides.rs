//! Counts kept on two sides: of what the reference answered, and of what the
//! library answered.

use crate::{ensure, report, Failure};
use std::collections::BTreeMap;

/// A side of the counts.
#[derive(Debug, Clone, Copy, PartialEq, Eq)]
pub enum Side {
    Reference,
    Library,
}

/// How often something occurred on each side.
#[derive(Debug, Default, Clone, Copy, PartialEq, Eq)]
pub struct Pair {
    pub reference: usize,
    pub library: usize,
}

/// How often each of some things occurred on each side.
pub struct Sides<K>(BTreeMap<K, Pair>);

impl<K> Default for Sides<K> {
    fn default() -> Sides<K> {
        Sides(BTreeMap::new())
    }
}

impl<K: Ord + Copy> Sides<K> {
    /// Counts something on a side if it occurred there.
    pub fn add(&mut self, side: Side, key: K, occurred: bool) {
        let pair = self.0.entry(key).or_default();
        match side {
            Side::Reference => pair.reference += occurred as usize,
            Side::Library => pair.library += occurred as usize,
        }
    }

    /// Both counts of something.
    pub fn of(&self, key: K) -> Pair {
        self.0.get(&key).copied().unwrap_or_default()
    }

    /// All counts.
    pub fn iter(&self) -> impl Iterator<Item = (K, Pair)> + '_ {
        self.0.iter().map(|(&key, &pair)| (key, pair))
    }

    /// The counts on which both sides agree. Fails where they differ, and says
    /// of what by the names that it is given.
    pub fn agreed(self, name: impl Fn(K) -> String) -> Result<BTreeMap<K, usize>, Failure> {
        let differing = self.iter().filter(|(_, pair)| pair.reference != pair.library);
        let texts: Vec<String> = differing
            .map(|(key, Pair { reference, library })| {
                format!("{}: {reference} by the reference, {library} by the library", name(key))
            })
            .collect();
        ensure(texts.is_empty(), texts.join("\n"))?;
        Ok(self.0.into_iter().map(|(key, pair)| (key, pair.library)).collect())
    }

    /// Prints both counts of each thing after a title, by the names that it is
    /// given, and gives those on which both sides agree. Fails where they differ.
    pub fn reported(self, title: &str, name: impl Fn(K) -> String) -> Result<BTreeMap<K, usize>, Failure> {
        let text = |(key, Pair { reference, library })| format!("{reference}/{library} {}", name(key));
        report(&format!("{title}: {}", self.iter().map(text).collect::<Vec<String>>().join("; ")));
        self.agreed(name).map_err(|failure| Failure(format!("{title}: {}", failure.0)))
    }
}

impl Sides<&'static str> {
    /// Prints both counts of each name after a title. Fails where they differ,
    /// and unless each is at least so much.
    pub fn finish(self, title: &str, least: usize) -> Result<(), Failure> {
        let counts = self.reported(title, str::to_string)?;
        let rare = counts.iter().find(|(_, &count)| count < least);
        ensure(rare.is_none(), format!("{title}: {rare:?}, fewer than {least}"))
    }
}
