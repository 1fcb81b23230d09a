//! What images show of optional choices, and why a tree is none.

use super::repair::Repair;
use super::Clause;
use crate::generate::Embedded;
use crate::table::ContentModel;
use crate::tree::{self, Element};
use crate::vectors::Case;
use crate::MOST_MEMBERS;

/// Whether a test holds for an element of a tree.
pub fn any_element(element: &Element, test: &impl Fn(&Element) -> bool) -> bool {
    test(element) || element.children.iter().any(|child| any_element(child, test))
}

/// The clauses whose test holds for an element of a tree.
pub fn clauses_of<C, T: Fn(&Element) -> bool>(root: &Element, tests: impl Iterator<Item = (C, T)>) -> Vec<C> {
    let shown = tests.filter(|(_, test)| any_element(root, test));
    shown.map(|(clause, _)| clause).collect()
}

/// A clause and what an element must show for it.
type Test<'a> = (Clause, &'a dyn Fn(&Element) -> bool);

/// What the source tree of an image shows, as a case of carrying has it.
pub fn carried_clauses(embedded: &Embedded, source_document: &[u8]) -> Vec<Clause> {
    let carried = Carried { embedded };
    let tests: [Test; 8] = [
        (Clause::CarriedEmpty, &|element| carried.is_empty(element)),
        (Clause::CarriedFull, &|element| carried.is_full(element)),
        (Clause::CarriedNested, &|element| carried.is_nested(element)),
        (Clause::CarriedSixteen, &|element| carried.has_sixteen(element)),
        (Clause::CarriedShared, &|element| carried.is_empty(element) && carried.is_below(element)),
        (Clause::CarriedThenNeeded, &|element| carried.goes_on(element, false)),
        (Clause::CarriedThenOptional, &|element| carried.goes_on(element, true)),
        (Clause::CarriedThrough, &|element| carried.goes_through(element)),
    ];
    clauses_of(&tree::build(source_document), tests.into_iter())
}

/// What the source tree that was brought back shows.
pub fn brought_back_clauses(embedded: &Embedded, source_document: &[u8]) -> Vec<Clause> {
    let carried = Carried { embedded };
    let tests: [Test; 3] = [
        (Clause::BroughtBackEmpty, &|element| carried.is_empty(element)),
        (Clause::BroughtBackFull, &|element| carried.is_full(element)),
        (Clause::BroughtBackNested, &|element| carried.is_nested(element)),
    ];
    clauses_of(&tree::build(source_document), tests.into_iter())
}

/// The setting of an image, to look at source elements by.
struct Carried<'a> {
    embedded: &'a Embedded,
}

impl Carried<'_> {
    /// Whether an element is an optional choice.
    fn is_optional(&self, element: &Element) -> bool {
        self.embedded.model_of(element).is_optional()
    }

    /// Whether an element is an optional choice that holds nothing.
    fn is_empty(&self, element: &Element) -> bool {
        self.is_optional(element) && element.children.is_empty()
    }

    /// Whether an element is an optional choice that holds a member.
    fn is_full(&self, element: &Element) -> bool {
        self.is_optional(element) && !element.children.is_empty()
    }

    /// Whether an element is an optional choice that holds another one at some
    /// depth.
    fn is_nested(&self, element: &Element) -> bool {
        let within = |child: &Element| any_element(child, &|inner| self.is_optional(inner));
        self.is_optional(element) && element.children.iter().any(within)
    }

    /// Whether an element is an optional choice of as many members as there
    /// may be.
    fn has_sixteen(&self, element: &Element) -> bool {
        self.is_optional(element) && self.embedded.model_of(element).edges() == MOST_MEMBERS
    }

    /// Whether the optional choice that stands for an empty one is not its
    /// image, but is below it.
    fn is_below(&self, element: &Element) -> bool {
        !self.embedded.left_by(element).is_empty()
    }

    /// Whether the path from an optional choice to its member goes through a
    /// choice of one kind, optional or needed, after its first choice.
    fn goes_on(&self, element: &Element, optional: bool) -> bool {
        let left = if self.is_full(element) { self.embedded.left_by(element) } else { Vec::new() };
        let mut further = left.into_iter().filter(|model| model.is_choice()).skip(1);
        further.any(|model| model.is_optional() == optional)
    }

    /// Whether an element is a needed choice whose path goes through an
    /// optional one.
    fn goes_through(&self, element: &Element) -> bool {
        matches!(self.embedded.model_of(element), ContentModel::Choice(_))
            && self.embedded.left_by(element).iter().any(|model| model.is_optional())
    }
}

/// Why a tree is no image: some optional choice must be empty, must be full,
/// or must hold another member. It is that if the tree becomes an image by
/// such a change of one element, with filler as the new member.
pub fn no_image_clause(case: &Case) -> Option<Clause> {
    let mut repair = Repair::of(case)?;
    let places = repair.places(ContentModel::is_optional);
    places.iter().find_map(|place| changed_choice(&mut repair, place))
}

/// The change of the optional choice at a place that makes the tree an image,
/// if there is one.
fn changed_choice(repair: &mut Repair, place: &[usize]) -> Option<Clause> {
    let (held, members) = repair.at(place);
    if !held.is_empty() && repair.brought_back(place, |choice| choice.children.clear()).is_some() {
        return Some(Clause::FullForNothing);
    }
    let fillers: Vec<Element> = members.iter().filter_map(|&member| repair.filler(member)).collect();
    let mut fillers = fillers.into_iter();
    let mut brought_back = |filler| repair.brought_back(place, |choice| choice.children = vec![filler]);
    let is_image = fillers.any(|filler| brought_back(filler).is_some());
    is_image.then_some(if held.is_empty() { Clause::EmptyForMember } else { Clause::FullForOther })
}
