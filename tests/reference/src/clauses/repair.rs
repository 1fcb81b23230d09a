//! Changes of one element that make a tree an image.

use super::accepted_table;
use crate::image::{fillers, Filler};
use crate::places::{element_at, places_of};
use crate::table::{ContentModel, Table};
use crate::tree::{self, Element};
use crate::vectors::{Answer, Case};
use crate::MOST_BYTES;

/// The most bytes of a tree that is looked at for a change that makes it an
/// image, and of the filler that is tried.
const MOST_LOOKED_AT: usize = 400;

/// A tree that is no image, whose elements are changed one at a time.
pub struct Repair<'a> {
    case: &'a Case,
    target: Table,
    fillers: Vec<Filler>,
    root: Element,
}

impl Repair<'_> {
    /// The tree of a case of bringing back, if it is short.
    pub fn of(case: &Case) -> Option<Repair<'_>> {
        let target = accepted_table(&case.documents[1]);
        let fillers = fillers(&target);
        let tree = &case.documents[3];
        (tree.len() <= MOST_LOOKED_AT).then(|| Repair { case, target, fillers, root: tree::build(tree) })
    }

    /// The places of all elements whose type is of a kind.
    pub fn places(&self, is_kind: fn(&ContentModel) -> bool) -> Vec<Vec<usize>> {
        places_of(&self.target, &self.root, is_kind)
    }

    /// The children of the element at a place, and the types that its own type
    /// names.
    pub fn at(&mut self, place: &[usize]) -> (Vec<Element>, Vec<u8>) {
        let element = element_at(&mut self.root, place);
        let named = self.target.types[element.element_type as usize].named();
        (element.children.clone(), named.to_vec())
    }

    /// The characters of the element at a place.
    pub fn characters(&mut self, place: &[usize]) -> &[u8] {
        &element_at(&mut self.root, place).characters
    }

    /// The source document that is brought back where the element at a place
    /// is changed.
    pub fn brought_back(&mut self, place: &[usize], change: impl FnOnce(&mut Element)) -> Option<Vec<u8>> {
        let element = element_at(&mut self.root, place);
        let unchanged = element.clone();
        change(element);
        let mut case = self.case.clone();
        case.documents[3] = self.root.to_bytes();
        *element_at(&mut self.root, place) = unchanged;
        match case.run_into(&mut vec![0; MOST_BYTES]) {
            Answer::Ok { output, .. } => Some(output),
            Answer::Refused(_) => None,
        }
    }

    /// The filler element of a type, if it is short.
    pub fn filler(&self, t: u8) -> Option<Element> {
        let filler = &self.fillers[t as usize];
        (filler.length <= MOST_LOOKED_AT as u64).then(|| self.whole_filler(t))
    }

    /// The filler element of a type.
    fn whole_filler(&self, t: u8) -> Element {
        let children = &self.fillers[t as usize].children;
        let children = children.iter().map(|&child| self.whole_filler(child)).collect();
        Element { children, ..Element::new(t) }
    }
}
