//! The path of an embedding that a refusal marks, and what is wrong with it.

use crate::embedding::{before_choice, left, TypeMap};
use crate::explanation::{first_clash, Earlier};
use crate::generate::Embedded;
use crate::table::{ContentModel, Table};

/// The path that a refusal marks, with its source type.
pub struct Marked<'a> {
    target: &'a Table,
    pub model: &'a ContentModel,
    map: &'a TypeMap,
    pub edge: usize,
}

/// A rule of check 9 that a path of an optional choice breaks.
#[derive(Debug, Clone, Copy, PartialEq, Eq)]
pub enum Broken {
    NoChoice,
    NeededChoiceFirst,
    OtherBeginning,
}

impl<'a> Marked<'a> {
    /// The path at an offset: that of its command 21 or of one of its steps.
    pub fn at(embedded: &'a Embedded, offset: usize) -> Option<Marked<'a>> {
        let mut maps = embedded.source.types.iter().zip(&embedded.embedding.maps);
        maps.find_map(|(model, map)| {
            let edge = map.paths.iter().position(|path| {
                let end = path.offset + 2 * path.steps.len();
                (path.offset..=end).contains(&offset)
            })?;
            Some(Marked { target: &embedded.target, model, map, edge })
        })
    }

    /// The target types that the steps of a path of the source type leave.
    pub fn left(&self, edge: usize) -> Vec<&'a ContentModel> {
        left(self.target, self.map.target, &self.map.paths[edge].steps)
    }

    /// The steps of a path before its first that leaves a choice.
    fn beginning(&self, edge: usize) -> Option<&'a [u8]> {
        before_choice(self.target, self.map.target, &self.map.paths[edge].steps)
    }

    /// The only rule of check 9 that the path of an optional choice breaks.
    pub fn broken(&self) -> Option<Broken> {
        let first_left = self.left(self.edge).into_iter().find(|model| model.is_choice());
        let kind = match first_left {
            None => Some(Broken::NoChoice),
            Some(model) => (!model.is_optional()).then_some(Broken::NeededChoiceFirst),
        };
        let beginning = self.beginning(self.edge);
        let differs = beginning.is_some() && beginning != self.beginning(0);
        match (kind, differs) {
            (None, true) => Some(Broken::OtherBeginning),
            (Some(_), true) => None,
            (kind, false) => kind,
        }
    }

    /// The first earlier path that the path clashes with.
    pub fn clash(&self) -> Option<Earlier> {
        first_clash(self.target, self.model, self.map, self.edge)
    }
}
