//! Random conforming trees.

use super::Rng;
use crate::image::{fillers, Filler};
use crate::table::{ContentModel, Table};
use crate::tree::Element;
use crate::{MOST_BYTES, MOST_LEVELS};

/// The greatest levels and length of a tree, and whether it is to come near
/// them: `deep` in levels, `wide` in bytes.
#[derive(Debug, Clone, Copy)]
pub struct Shape {
    pub levels: usize,
    pub bytes: usize,
    pub deep: bool,
    pub wide: bool,
}

impl Shape {
    /// A tree of some hundred bytes at most.
    pub fn small(rng: &mut Rng) -> Shape {
        let bytes = rng.pick(&[20, 60, 100, 200, 400]);
        Shape { levels: rng.between(3, 30), bytes, deep: rng.chance(10), wide: false }
    }

    /// A tree near the greatest number of levels.
    pub fn deep(rng: &mut Rng) -> Shape {
        let levels = rng.pick(&[20, 40, 64, 100, 127, MOST_LEVELS, MOST_LEVELS]);
        Shape { levels, bytes: rng.pick(&[600, 1000, 3000]), deep: true, wide: false }
    }

    /// A tree near the greatest length.
    pub fn wide(rng: &mut Rng) -> Shape {
        let bytes = rng.pick(&[5000, 20_000, 40_000, MOST_BYTES, MOST_BYTES]);
        Shape { levels: rng.between(8, MOST_LEVELS), bytes, deep: rng.chance(30), wide: true }
    }
}

/// A conforming tree of a shape; `None` where the filler of the root is
/// already larger.
pub fn random_tree(rng: &mut Rng, table: &Table, shape: Shape) -> Option<Element> {
    random_element(rng, table, 0, shape)
}

/// An element of a type as in the tree of a shape.
pub fn random_element(rng: &mut Rng, table: &Table, t: u8, shape: Shape) -> Option<Element> {
    let fillers = fillers(table);
    let least = &fillers[t as usize];
    if least.height > shape.levels as u64 || least.length >= shape.bytes as u64 {
        return None;
    }
    let spare = shape.bytes as u64 - 1 - least.length;
    let recursive = recursive_types(table);
    let mut grower = Grower { rng, table, fillers: &fillers, recursive, shape, spare };
    Some(grower.element(t, shape.levels as u64))
}

/// For each type, whether it leads to a type that leads back to itself.
pub fn recursive_types(table: &Table) -> Vec<bool> {
    // Types that only lead to finite trees are taken away step by step.
    let mut finite = vec![false; table.types.len()];
    for _ in 0..table.types.len() {
        for (t, model) in table.types.iter().enumerate() {
            finite[t] = model.named().iter().all(|&named| finite[named as usize]);
        }
    }
    finite.into_iter().map(|finite| !finite).collect()
}

/// Builds elements; `spare` bytes may still be added to the filler of what is
/// not yet built.
struct Grower<'a> {
    rng: &'a mut Rng,
    table: &'a Table,
    fillers: &'a [Filler],
    recursive: Vec<bool>,
    shape: Shape,
    spare: u64,
}

impl Grower<'_> {
    /// An element of a type with at most so many levels, whose filler has no
    /// more than those.
    fn element(&mut self, t: u8, levels: u64) -> Element {
        let mut element = Element::new(t);
        let table = self.table;
        match &table.types[t as usize] {
            ContentModel::Empty => {}
            ContentModel::Text => element.characters = self.characters(),
            ContentModel::Sequence(members) => {
                element.children = members.iter().map(|&member| self.element(member, levels - 1)).collect();
            }
            ContentModel::Choice(members) => {
                let member = self.member(t, members, levels - 1);
                element.children = vec![self.element(member, levels - 1)];
            }
            ContentModel::OptionalChoice(members) => {
                let member = self.optional_member(members, levels - 1);
                element.children =
                    member.map(|member| self.element(member, levels - 1)).into_iter().collect();
            }
            ContentModel::List(item) => {
                for _ in 0..self.items(*item) {
                    if self.pay(*item, 0, levels - 1) {
                        element.children.push(self.element(*item, levels - 1));
                    }
                }
            }
        }
        element
    }

    /// Takes the filler length of a type from the spare bytes, given back
    /// `saved` ones, if the type fits.
    fn pay(&mut self, t: u8, saved: u64, levels: u64) -> bool {
        let filler = &self.fillers[t as usize];
        let fits = filler.height <= levels && filler.length <= self.spare.saturating_add(saved);
        if fits {
            self.spare = self.spare + saved - filler.length;
        }
        fits
    }

    /// Some characters.
    fn characters(&mut self) -> Vec<u8> {
        let most = if self.shape.wide { self.rng.pick(&[3, 50, 3000]) } else { self.rng.pick(&[0, 1, 2, 5]) };
        let count = self.rng.between(0, most).min(self.spare as usize / 2);
        self.spare -= 2 * count as u64;
        (0..count).map(|_| random_character(self.rng)).collect()
    }

    /// How many items to try for a list.
    fn items(&mut self, item: u8) -> usize {
        let goes_deep = self.shape.deep && self.recursive[item as usize];
        match self.shape.wide {
            true => self.rng.pick(&[2, 8, 60, 3000]),
            false if goes_deep => self.rng.pick(&[1, 1, 1, 2]),
            false => self.rng.pick(&[0, 0, 1, 1, 2, 3, 5]),
        }
    }

    /// The member of a choice to take: a random one that fits, else the one
    /// of its filler.
    fn member(&mut self, t: u8, members: &[u8], levels: u64) -> u8 {
        let default = self.fillers[t as usize].children[0];
        let saved = self.fillers[default as usize].length;
        for _ in 0..4 {
            let member = self.rng.pick(members);
            let wanted = !self.shape.deep || self.recursive[member as usize];
            if wanted && self.pay(member, saved, levels) {
                return member;
            }
        }
        default
    }

    /// The member of an optional choice to take, if any: in half of the cases,
    /// and wherever the tree is to be deep, a random one that fits.
    fn optional_member(&mut self, members: &[u8], levels: u64) -> Option<u8> {
        if !self.shape.deep && self.rng.chance(50) {
            return None;
        }
        let tries: Vec<u8> = (0..4).map(|_| self.rng.pick(members)).collect();
        let wanted = |&member: &u8| !self.shape.deep || self.recursive[member as usize];
        let member = tries.iter().copied().find(wanted).unwrap_or(tries[0]);
        self.pay(member, 0, levels).then_some(member)
    }
}

/// An allowed character, in about a third of the cases an accent, with those at
/// the ends of the ranges and two that are commands too more often.
pub fn random_character(rng: &mut Rng) -> u8 {
    match rng.weighted(&[20, 52, 28]) {
        0 => rng.pick(&[0x09, 0x0A, 0x20, 0x7E, 0x30, 0x32, 0xA0, 0xFF]),
        1 => rng.between(0x20, 0x7E) as u8,
        _ => random_accent(rng),
    }
}

/// Any of the characters from A0 to FF.
pub fn random_accent(rng: &mut Rng) -> u8 {
    rng.between(0xA0, 0xFF) as u8
}

/// A character that isn't allowed, with those at the ends of the ranges more
/// often.
pub fn forbidden_character(rng: &mut Rng) -> u8 {
    if rng.chance(60) {
        return rng.pick(&[0x00, 0x08, 0x0B, 0x0D, 0x1F, 0x7F, 0x80, 0x9F]);
    }
    let (first, last) = rng.pick(&[(0x00, 0x08), (0x0B, 0x1F), (0x7F, 0x9F)]);
    rng.between(first, last) as u8
}

/// Adds characters to the first text element found; false if there is none.
pub fn pad(rng: &mut Rng, table: &Table, root: &mut Element, count: usize) -> bool {
    if table.types[root.element_type as usize] == ContentModel::Text {
        root.characters.extend((0..count).map(|_| random_character(rng)));
        return true;
    }
    root.children.iter_mut().any(|child| pad(rng, table, child, count))
}
