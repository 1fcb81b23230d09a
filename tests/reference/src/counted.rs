//! What went across, counted (paper 02, N14): how many elements an image has, how
//! many of them are filler, how many the paths build, how often each character
//! occurs, and at which element of the image each source element stands.
//!
//! What the paths build is counted without the image. Where source elements stand
//! is found in the image, by walking along the paths from the root.

use crate::embedding::{self, left, Embedding, TypeMap};
use crate::table::{self, ContentModel, Table};
use crate::tree::{self, commands, Command, Element, Node};
use crate::{carry, Refusal, MOST_BYTES, SOURCE, TARGET};
use std::collections::BTreeSet;

/// A source element: its type, its offset in the source document, and the offset
/// in the image of the element that it stands at.
#[derive(Debug, Clone, Copy, PartialEq, Eq, PartialOrd, Ord)]
pub struct Correspondence {
    pub element_type: u8,
    pub source: usize,
    pub image: usize,
}

/// What is counted of an image: its elements, its filler elements, those that the
/// paths build, and where each source element stands, in document order.
#[derive(Debug, Clone, PartialEq, Eq)]
pub struct Counted {
    pub elements: u64,
    pub filler: u64,
    pub path: u64,
    pub standing: Vec<Correspondence>,
}

/// Carries a tree with as much output as there may be, and counts its image.
pub fn count_across(source: &[u8], target: &[u8], embedding: &[u8], tree: &[u8]) -> Result<Counted, Refusal> {
    let mut output = vec![0; MOST_BYTES];
    let carried = carry(source, target, embedding, tree, &mut output)?;
    let image = &output[..carried.length as usize];
    let counting = Counting::new(source, target, embedding)?;
    Ok(Counted {
        elements: tree::count(image) as u64,
        filler: carried.filler,
        path: counting.path_elements(&tree::build(tree)),
        standing: counting.standing(tree, image).expect("the paths lead through the image"),
    })
}

/// How often each character occurs in a tree of right form.
pub fn occurrences(document: &[u8]) -> [u64; 256] {
    let mut counts = [0; 256];
    for (_, command) in commands(document) {
        if let Command::Character(character) = command {
            counts[character as usize] += 1;
        }
    }
    counts
}

/// Two tables and an embedding by which images are counted.
pub struct Counting {
    source: Table,
    target: Table,
    embedding: Embedding,
}

impl Counting {
    /// That of three documents, if they are accepted.
    pub fn new(source: &[u8], target: &[u8], embedding: &[u8]) -> Result<Counting, Refusal> {
        let source = table::accept(source, SOURCE)?;
        let target = table::accept(target, TARGET)?;
        let embedding = embedding::accept(&source, &target, embedding)?;
        Ok(Counting { source, target, embedding })
    }

    /// The target type that a source type is mapped to.
    pub fn mapped(&self, source_type: u8) -> u8 {
        self.embedding.maps[source_type as usize].target
    }

    /// How many elements the paths of a source element and of all below it build.
    pub fn path_elements(&self, element: &Element) -> u64 {
        let below: u64 = element.children.iter().map(|child| self.path_elements(child)).sum();
        self.own_path_elements(element) as u64 + below
    }

    /// How many elements a source element's own paths build.
    fn own_path_elements(&self, element: &Element) -> usize {
        let map = &self.embedding.maps[element.element_type as usize];
        let steps = |edge: usize| map.paths[edge].steps.len();
        match &self.source.types[element.element_type as usize] {
            ContentModel::Empty => 0,
            ContentModel::Text => steps(0),
            ContentModel::Sequence(_) => beginnings(map).len(),
            ContentModel::Choice(members) | ContentModel::OptionalChoice(members) => {
                match element.children.first() {
                    Some(child) => steps(edge_of(members, child.element_type)),
                    None => self.steps_before(map, ContentModel::is_choice),
                }
            }
            ContentModel::List(_) => {
                let before = self.steps_before(map, ContentModel::is_list);
                before + element.children.len() * (steps(0) - before)
            }
        }
    }

    /// How many steps a type's first path has before its first that leaves a type
    /// of a kind.
    fn steps_before(&self, map: &TypeMap, is_kind: fn(&ContentModel) -> bool) -> usize {
        let left = left(&self.target, map.target, &map.paths[0].steps);
        left.into_iter().take_while(|model| !is_kind(model)).count()
    }

    /// Where each source element of a tree stands in its image, in document order;
    /// none where the image lacks what a path should lead through.
    pub fn standing(&self, tree: &[u8], image: &[u8]) -> Option<Vec<Correspondence>> {
        let (elements, image) = (tree::nodes(tree), tree::nodes(image));
        let walk = Walk { counting: self, image: &image };
        // The root stands at the root. An element comes before its children.
        let mut at = vec![0; elements.len()];
        for (number, element) in elements.iter().enumerate() {
            for (place, &child) in element.children.iter().enumerate() {
                let edge = self.edge_to(element.element_type, place, elements[child].element_type)?;
                at[child] = walk.to_child(at[number], element.element_type, edge, place)?;
            }
        }
        let standing = elements.iter().zip(at).map(|(element, at)| {
            let (element_type, source) = (element.element_type, element.offset);
            Correspondence { element_type, source, image: image[at].offset }
        });
        Some(standing.collect())
    }

    /// The edge by which a child with a place and a type stands in an element of
    /// some type, if such an element holds children.
    fn edge_to(&self, parent_type: u8, place: usize, child_type: u8) -> Option<usize> {
        match &self.source.types[parent_type as usize] {
            ContentModel::Text | ContentModel::Empty => None,
            ContentModel::Sequence(_) => Some(place),
            ContentModel::Choice(members) | ContentModel::OptionalChoice(members) => {
                Some(edge_of(members, child_type))
            }
            ContentModel::List(_) => Some(0),
        }
    }
}

/// The rows of one step or more with which paths of a type begin, each once.
fn beginnings(map: &TypeMap) -> BTreeSet<&[u8]> {
    map.paths.iter().flat_map(|path| (1..=path.steps.len()).map(|length| &path.steps[..length])).collect()
}

/// The edge of a choice's member.
fn edge_of(members: &[u8], member: u8) -> usize {
    members.iter().position(|&other| other == member).expect("a member of the choice")
}

/// Walks in an image.
struct Walk<'a> {
    counting: &'a Counting,
    image: &'a [Node],
}

impl Walk<'_> {
    /// The element that a child stands at, by an edge of a source type and with a
    /// place, counted from 0, among the children of an element that stands at
    /// `from`.
    fn to_child(&self, from: usize, parent_type: u8, edge: usize, place: usize) -> Option<usize> {
        let map = &self.counting.embedding.maps[parent_type as usize];
        let steps = &map.paths[edge].steps[..];
        if !self.counting.source.types[parent_type as usize].is_list() {
            return self.along(from, steps);
        }
        // The first list of the path has an item for each one.
        let before = self.counting.steps_before(map, ContentModel::is_list);
        let list = self.along(from, &steps[..before])?;
        let item = *self.image[list].children.get(place)?;
        self.along(item, &steps[before + 1..])
    }

    /// The element that some steps lead to.
    fn along(&self, from: usize, steps: &[u8]) -> Option<usize> {
        steps.iter().try_fold(from, |at, &step| self.step(at, step))
    }

    /// The element that one step leads to. Every list that it leaves holds just
    /// one item.
    fn step(&self, at: usize, step: u8) -> Option<usize> {
        let Node { element_type, children, .. } = &self.image[at];
        let named = self.counting.target.step(*element_type, step)?;
        let child = match &self.counting.target.types[*element_type as usize] {
            ContentModel::Sequence(_) => children.get(step as usize - 1),
            _ => children.first().filter(|_| children.len() == 1),
        };
        child.copied().filter(|&child| self.image[child].element_type == named)
    }
}
