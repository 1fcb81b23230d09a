//! Reading along the paths (paper 02, N4): the source document that the paths of
//! a target document lead to, whatever else it holds.
//!
//! The document conforms to the target table. From the element that stands for a
//! source element its paths are followed, step by step: to a member of a
//! sequence, to the member of a choice if that is there, to the first item of a
//! list. In the list that takes a source list's items, each of them is followed.

use crate::embedding::{left, Embedding, TypeMap};
use crate::table::{ContentModel, Table};
use crate::tree::{nodes, Element, Node};
use crate::{ReadAlong, Refusal, OUTPUT, TREE};

/// Writes the source document at the start of the output and answers its length
/// and the number of target elements, the root aside, on no followed path;
/// refuses by 17 and 14.
pub fn read_along(
    source: &Table,
    target: &Table,
    embedding: &Embedding,
    document: &[u8],
    output: &mut [u8],
) -> Result<ReadAlong, Refusal> {
    let nodes = nodes(document);
    let followed = vec![false; nodes.len()];
    let mut reading = Reading { source, target, maps: &embedding.maps, nodes: &nodes, followed };
    let root = reading.element(ROOT, 0)?;
    let bytes = root.to_bytes();
    match output.get_mut(..bytes.len()) {
        Some(start) => start.copy_from_slice(&bytes),
        None => return Err(Refusal::new(14, OUTPUT, 0)),
    }
    let aside = reading.followed.iter().skip(1).filter(|&&followed| !followed).count();
    Ok(ReadAlong { length: bytes.len() as u64, aside: aside as u64 })
}

/// The number of the root element.
const ROOT: usize = 0;

/// What the paths of one source element lead to.
#[derive(Default)]
struct Found {
    /// The elements that stand for its children, each with the child's type.
    children: Vec<(u8, usize)>,
    /// The text element at the end of its character path.
    text: Option<usize>,
}

/// Follows the paths in one target document.
struct Reading<'a> {
    source: &'a Table,
    target: &'a Table,
    maps: &'a [TypeMap],
    nodes: &'a [Node],
    /// Which elements are on a followed path.
    followed: Vec<bool>,
}

impl Reading<'_> {
    /// The source element of type `t` that a target element stands for. First its
    /// own paths are followed, then its children are read in order.
    fn element(&mut self, number: usize, t: u8) -> Result<Element, Refusal> {
        let Some(found) = self.follow_own(number, t) else {
            return Err(Refusal::new(17, TREE, self.nodes[number].offset));
        };
        let mut element = Element::new(t);
        if let Some(text) = found.text {
            element.characters = self.nodes[text].characters.clone();
        }
        for (child_type, child) in found.children {
            element.children.push(self.element(child, child_type)?);
        }
        Ok(element)
    }

    /// Follows the paths of a source element of type `t` from the target element
    /// that stands for it, if they can be followed.
    fn follow_own(&mut self, number: usize, t: u8) -> Option<Found> {
        let map = &self.maps[t as usize];
        let steps = |edge: usize| &map.paths[edge].steps[..];
        let source = self.source;
        let mut found = Found::default();
        match &source.types[t as usize] {
            ContentModel::Empty => {}
            ContentModel::Text => found.text = Some(self.follow(number, steps(0))?),
            ContentModel::Sequence(members) => {
                for (edge, &member) in members.iter().enumerate() {
                    found.children.push((member, self.follow(number, steps(edge))?));
                }
            }
            ContentModel::Choice(members) => {
                let edge = self.present(number, map)?;
                found.children.push((members[edge], self.follow(number, steps(edge))?));
            }
            ContentModel::OptionalChoice(members) => {
                let agreed = self.steps_before(map, ContentModel::is_choice);
                let choice = self.follow(number, &steps(0)[..agreed])?;
                if !self.nodes[choice].children.is_empty() {
                    let edge = self.present(number, map)?;
                    found.children.push((members[edge], self.follow(number, steps(edge))?));
                }
            }
            ContentModel::List(item) => {
                let before = self.steps_before(map, ContentModel::is_list);
                let list = self.follow(number, &steps(0)[..before])?;
                let nodes = self.nodes;
                for &one in &nodes[list].children {
                    self.followed[one] = true;
                    found.children.push((*item, self.follow(one, &steps(0)[before + 1..])?));
                }
            }
        }
        Some(found)
    }

    /// How many steps the first path of a map has before its first that leaves a
    /// type of a kind.
    fn steps_before(&self, map: &TypeMap, is_kind: fn(&ContentModel) -> bool) -> usize {
        let steps = &map.paths[0].steps;
        let left = left(self.target, map.target, steps);
        left.into_iter().position(is_kind).unwrap_or(steps.len())
    }

    /// The member whose path is there, if there is one. As paths part at a
    /// choice, there are not two.
    fn present(&self, number: usize, map: &TypeMap) -> Option<usize> {
        let is_there =
            |steps: &[u8]| steps.iter().try_fold(number, |at, &step| self.step(at, step)).is_some();
        map.paths.iter().position(|path| is_there(&path.steps))
    }

    /// The element at the end of a path, if it is there. All on the way to it are
    /// followed.
    fn follow(&mut self, from: usize, steps: &[u8]) -> Option<usize> {
        let mut at = from;
        for &step in steps {
            at = self.step(at, step)?;
            self.followed[at] = true;
        }
        Some(at)
    }

    /// The element that a step leads to, if it is there.
    fn step(&self, from: usize, step: u8) -> Option<usize> {
        let Node { element_type, children, .. } = &self.nodes[from];
        match &self.target.types[*element_type as usize] {
            ContentModel::Sequence(_) => children.get(step as usize - 1).copied(),
            ContentModel::Choice(members) | ContentModel::OptionalChoice(members) => {
                let member = members[step as usize - 1];
                children.first().copied().filter(|&child| self.nodes[child].element_type == member)
            }
            ContentModel::List(_) => children.first().copied(),
            ContentModel::Text | ContentModel::Empty => None,
        }
    }
}
