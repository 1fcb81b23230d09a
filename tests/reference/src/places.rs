//! Where elements of a tree stand: those of a kind, and in an image its filler,
//! the lists on the paths of choices, and what else the paths lead through. Each
//! place is given by the numbers of the children that lead to it from the root.

use crate::image::{alternative, Mapping, Place};
use crate::table::{ContentModel, Table};
use crate::tree::Element;

/// The element of a tree at a place.
pub fn element_at<'a>(root: &'a mut Element, place: &[usize]) -> &'a mut Element {
    place.iter().fold(root, |element, &child| &mut element.children[child])
}

/// The places of all elements of a tree whose type is of a kind.
pub fn places_of(table: &Table, root: &Element, is_kind: fn(&ContentModel) -> bool) -> Vec<Vec<usize>> {
    let mut found = Vec::new();
    if is_kind(&table.types[root.element_type as usize]) {
        found.push(Vec::new());
    }
    for (number, child) in root.children.iter().enumerate() {
        let below = places_of(table, child, is_kind);
        found.extend(below.into_iter().map(|place| [vec![number], place].concat()));
    }
    found
}

/// What stands on a path and can be edited.
#[derive(Debug, Clone, Copy, PartialEq, Eq, PartialOrd, Ord)]
pub enum OnPath {
    /// A list that stands for one item.
    OneItem,
    /// The list that takes a source list's items.
    Items,
    /// A choice of either kind that the path leaves.
    Choice,
    /// The optional choice that is empty where the source holds nothing.
    Nothing,
    /// The text element at the end of a character path.
    Text,
}

/// Places in an image.
#[derive(Debug, Default, Clone, PartialEq, Eq)]
pub struct Places {
    /// The filler elements that stand in no other filler.
    pub filler: Vec<Vec<usize>>,
    /// The lists that a path of a choice of either kind leaves.
    pub lists: Vec<Vec<usize>>,
    /// What stands on the paths of all source elements.
    pub on_paths: Vec<(Vec<usize>, OnPath)>,
}

impl Places {
    /// Those in the image of a source tree.
    pub fn of(mapping: &Mapping, root: &Element) -> Places {
        let mut search = Search { mapping, at: Vec::new(), found: Places::default() };
        search.content(root);
        search.found
    }
}

/// Goes through an image as the places of its source elements say.
struct Search<'a> {
    mapping: &'a Mapping,
    /// Where in the image the search is.
    at: Vec<usize>,
    found: Places,
}

/// The children of a source element whose image is gone through, and whether
/// it is a choice of either kind.
#[derive(Clone, Copy)]
struct Parent<'a> {
    children: &'a [Element],
    is_choice: bool,
}

impl Search<'_> {
    /// Goes through what the image of a source element holds.
    fn content(&mut self, element: &Element) {
        let t = element.element_type as usize;
        let mapping = self.mapping;
        let model = &mapping.models[t];
        let parent = Parent { children: &element.children, is_choice: model.is_choice() };
        self.place(&mapping.types[t].alternatives[alternative(model, element)], parent);
    }

    /// Goes through what stands at a place below the image of an element.
    fn place(&mut self, place: &Place, parent: Parent) {
        match place {
            Place::Characters => self.on_path(OnPath::Text),
            Place::Nothing => self.on_path(OnPath::Nothing),
            Place::Child(edge) => self.content(&parent.children[*edge]),
            Place::Filler(types) => (0..types.len()).for_each(|number| self.filler(number)),
            Place::Sequence(members) => {
                for (number, (_, member)) in members.iter().enumerate() {
                    match member {
                        Some(member) => self.child(number, member, parent),
                        None => self.filler(number),
                    }
                }
            }
            Place::Choice(_, rest) => {
                self.on_path(OnPath::Choice);
                self.child(0, rest, parent);
            }
            Place::Item(_, rest) => {
                self.on_path(OnPath::OneItem);
                if parent.is_choice {
                    self.found.lists.push(self.at.clone());
                }
                self.child(0, rest, parent);
            }
            Place::Items(_, rest) => {
                self.on_path(OnPath::Items);
                for (number, item) in parent.children.iter().enumerate() {
                    self.child(number, rest, Parent { children: std::slice::from_ref(item), ..parent });
                }
            }
        }
    }

    /// Notes what stands here on a path.
    fn on_path(&mut self, what: OnPath) {
        self.found.on_paths.push((self.at.clone(), what));
    }

    /// Goes into a child that a path builds.
    fn child(&mut self, number: usize, place: &Place, parent: Parent) {
        self.at.push(number);
        self.place(place, parent);
        self.at.pop();
    }

    /// Notes a child that is filler.
    fn filler(&mut self, number: usize) {
        self.found.filler.push([&self.at[..], &[number]].concat());
    }
}
