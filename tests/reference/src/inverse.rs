//! Bringing back: the source document of a tree that is an image.
//!
//! The tree conforms to the target table. It is walked along the same places
//! that carrying builds; every element that no path builds must be filler.

use crate::image::{Mapping, Place};
use crate::table::ContentModel;
use crate::tree::Element;
use crate::{Refusal, OUTPUT, TREE};

/// Writes the source document at the start of the output and answers its
/// length; refuses by 15 and 14.
pub fn bring_back(mapping: &Mapping, root: &Element, output: &mut [u8]) -> Result<u64, Refusal> {
    let inverse = Inverse { mapping };
    let Some(source) = inverse.element(root, 0) else {
        return Err(Refusal::new(15, TREE, 0));
    };
    let bytes = source.to_bytes();
    match output.get_mut(..bytes.len()) {
        Some(start) => start.copy_from_slice(&bytes),
        None => return Err(Refusal::new(14, OUTPUT, 0)),
    }
    Ok(bytes.len() as u64)
}

/// What one walk below the image of a source element finds.
#[derive(Default)]
struct Found<'a> {
    /// The images of children, each with its edge.
    children: Vec<(usize, &'a Element)>,
    /// The characters at the end of a character path.
    characters: &'a [u8],
}

/// Walks images of one mapping.
struct Inverse<'a> {
    mapping: &'a Mapping,
}

impl Inverse<'_> {
    /// The source element of type `t` whose image this is, if there is one.
    fn element(&self, image: &Element, t: u8) -> Option<Element> {
        let alternatives = &self.mapping.types[t as usize].alternatives;
        let taken = alternatives.iter().position(|place| is_taken(place, image))?;
        let mut found = Found::default();
        if !self.walk(&alternatives[taken], image, &mut found) {
            return None;
        }
        found.children.sort_by_key(|&(edge, _)| edge);
        let mut element = Element::new(t);
        element.characters = found.characters.to_vec();
        for (number, (_, child)) in found.children.into_iter().enumerate() {
            let child_type = self.child_type(t, taken, number);
            element.children.push(self.element(child, child_type)?);
        }
        Some(element)
    }

    /// The type of a child of an element of type `t`, whose member `taken` is
    /// there if it is a choice of either kind.
    fn child_type(&self, t: u8, taken: usize, number: usize) -> u8 {
        let model = &self.mapping.models[t as usize];
        match model {
            ContentModel::Choice(members) | ContentModel::OptionalChoice(members) => members[taken],
            ContentModel::List(item) => *item,
            _ => model.named()[number],
        }
    }

    /// Whether an element holds what its place asks for; notes what it finds.
    fn walk<'t>(&self, place: &Place, image: &'t Element, found: &mut Found<'t>) -> bool {
        match place {
            Place::Filler(types) => self.holds_filler(image, types),
            Place::Child(edge) => {
                found.children.push((*edge, image));
                true
            }
            Place::Characters => {
                found.characters = &image.characters;
                true
            }
            Place::Sequence(members) => {
                members.iter().zip(&image.children).all(|((_, member), child)| match member {
                    Some(member) => self.walk(member, child, found),
                    None => self.is_filler(child),
                })
            }
            Place::Choice(t, rest) => member(image, *t).is_some_and(|member| self.walk(rest, member, found)),
            Place::Nothing => image.children.is_empty(),
            Place::Item(_, rest) => image.children.len() == 1 && self.walk(rest, &image.children[0], found),
            Place::Items(_, rest) => image.children.iter().all(|item| self.walk(rest, item, found)),
        }
    }

    /// Whether an element is the filler of its type.
    fn is_filler(&self, element: &Element) -> bool {
        let filler = &self.mapping.fillers[element.element_type as usize];
        self.holds_filler(element, &filler.children)
    }

    /// Whether an element holds filler children of just these types.
    fn holds_filler(&self, element: &Element, types: &[u8]) -> bool {
        let children = &element.children;
        element.characters.is_empty()
            && children.len() == types.len()
            && children.iter().zip(types).all(|(child, &t)| child.element_type == t && self.is_filler(child))
    }
}

/// The member of type `t` that a choice of either kind holds, if it holds that.
fn member(choice: &Element, t: u8) -> Option<&Element> {
    choice.children.first().filter(|member| member.element_type == t)
}

/// Whether the choices on a place's path are taken as in this image. In a list
/// that stands for one item the first is followed; where it is missing, the
/// path is not there. Of the members of a source choice at most one has such a
/// path; where an optional choice holds nothing, none has.
fn is_taken(place: &Place, image: &Element) -> bool {
    match place {
        Place::Choice(t, rest) => member(image, *t).is_some_and(|member| is_taken(rest, member)),
        Place::Nothing => image.children.is_empty(),
        Place::Item(_, rest) => image.children.first().is_some_and(|item| is_taken(rest, item)),
        Place::Sequence(members) => members
            .iter()
            .zip(&image.children)
            .all(|((_, member), child)| member.as_ref().is_none_or(|member| is_taken(member, child))),
        _ => true,
    }
}
