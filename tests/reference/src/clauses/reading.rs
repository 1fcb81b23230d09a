//! What reading along the paths shows: what is read and what is left out, or
//! which source elements can't be read and why.
//!
//! A document is gone through a second time here, by the places that carrying
//! builds and without stopping at the first element that can't be read.

use super::embedded_of;
use crate::image::{MappedType, Mapping, Place};
use crate::table::ContentModel;
use crate::tree::{self, Element};
use crate::vectors::{Answer, Case, Entry};
use crate::{bring_back, OUTPUT, TREE};

/// Something that a reading shows.
#[derive(Debug, Clone, Copy, PartialEq, Eq, PartialOrd, Ord)]
pub enum ReadingClause {
    AtRoot,
    Below,
    SequenceItem,
    TextItem,
    NeededItem,
    NeededMember,
    NeededNothing,
    OptionalItem,
    OptionalMember,
    FirstItem,
    LaterItem,
    Several,
    OwnFirst,
    SourceOrder,
    BeforeShort,
    OneShort,
    NoOutput,
    Image,
    Edited,
    NoneAside,
    SomeAside,
    CharactersAside,
    FirstOfSeveral,
    Nothing,
    NothingFirst,
    Member,
    NoItems,
    SeveralItems,
}

impl ReadingClause {
    /// All clauses, each with its text.
    pub const ALL: [(ReadingClause, &'static str); 28] = [
        (ReadingClause::AtRoot, "17, at the root"),
        (ReadingClause::Below, "17, below the root"),
        (ReadingClause::SequenceItem, "17, a list on the path of a sequence is empty"),
        (ReadingClause::TextItem, "17, a list on a character path is empty"),
        (ReadingClause::NeededItem, "17, a list on a path of a needed choice is empty"),
        (ReadingClause::NeededMember, "17, another member stands on the paths of a needed choice"),
        (ReadingClause::NeededNothing, "17, nothing stands on the paths of a needed choice"),
        (ReadingClause::OptionalItem, "17, a list on the way to an optional choice is empty"),
        (ReadingClause::OptionalMember, "17, an optional choice holds what is on no whole path"),
        (ReadingClause::FirstItem, "17, the first item of a list lacks the rest of the path"),
        (ReadingClause::LaterItem, "17, a later item of a list lacks the rest of the path"),
        (ReadingClause::Several, "17, several source elements can't be read"),
        (ReadingClause::OwnFirst, "17, an element whose child can't be read either"),
        (ReadingClause::SourceOrder, "17, the first element in the source is not the first in the target"),
        (ReadingClause::BeforeShort, "17, with an output of no bytes"),
        (ReadingClause::OneShort, "14, an output one byte too short"),
        (ReadingClause::NoOutput, "14, an output of no bytes"),
        (ReadingClause::Image, "an image read"),
        (ReadingClause::Edited, "read, and no image"),
        (ReadingClause::NoneAside, "read, with no element on no followed path"),
        (ReadingClause::SomeAside, "read, with elements on no followed path"),
        (ReadingClause::CharactersAside, "read, with characters that no path leads to"),
        (ReadingClause::FirstOfSeveral, "read by the first of several items"),
        (ReadingClause::Nothing, "an optional choice read as nothing"),
        (ReadingClause::NothingFirst, "an optional choice read as nothing by the first of several items"),
        (ReadingClause::Member, "an optional choice read with a member"),
        (ReadingClause::NoItems, "a list read without items"),
        (ReadingClause::SeveralItems, "a list read with several items"),
    ];
}

/// The clauses that a case of reading along and its answer show.
pub fn shown(case: &Case, answer: &Answer) -> Vec<ReadingClause> {
    let is_read = match answer {
        Answer::Ok { .. } => true,
        Answer::Refused(refusal) => matches!((refusal.number, refusal.document), (17, TREE) | (14, OUTPUT)),
    };
    if case.entry != Entry::ReadAlong || !is_read {
        return Vec::new();
    }
    let survey = Survey::of(case);
    match answer {
        Answer::Ok { filler, output, .. } => survey.read_clauses(case, *filler, output),
        Answer::Refused(refusal) if refusal.number == 17 => {
            survey.refused_clauses(refusal.mark as usize, case.output_length)
        }
        Answer::Refused(_) => {
            let needed = survey.source.to_bytes().len();
            let tests = [
                (ReadingClause::OneShort, case.output_length + 1 == needed),
                (ReadingClause::NoOutput, case.output_length == 0),
            ];
            holding(&tests)
        }
    }
}

/// Those of some clauses that hold.
fn holding(tests: &[(ReadingClause, bool)]) -> Vec<ReadingClause> {
    tests.iter().filter(|test| test.1).map(|test| test.0).collect()
}

/// A source element whose own paths can't be followed: the offset of the target
/// element that stands for it, and why.
#[derive(Debug, Clone, Copy, PartialEq, Eq)]
pub struct Stop {
    pub offset: usize,
    pub why: ReadingClause,
}

/// What going through a target document finds.
#[derive(Debug)]
pub struct Survey {
    /// The source elements that can't be read, in source document order. None of
    /// them stands below another.
    pub stops: Vec<Stop>,
    /// Whether a child of the first one can't be read either.
    own_first: bool,
    /// The elements on the followed paths.
    pub followed: u64,
    /// What is read; where an element can't be read, it holds nothing.
    pub source: Element,
    /// What is shown on the way.
    met: Vec<ReadingClause>,
}

impl Survey {
    /// That of the tree of a case that conforms to the accepted target table.
    pub fn of(case: &Case) -> Survey {
        let embedded = embedded_of(case).expect("an accepted embedding");
        let mapping = Mapping::new(&embedded.source, &embedded.target, &embedded.embedding);
        let mut surveyor = Surveyor { mapping: &mapping, stops: Vec::new(), followed: 0, met: Vec::new() };
        let root = tree::build(&case.documents[3]);
        let (source, own_first) = surveyor.element(Placed { element: &root, offset: 0 }, 0);
        let Surveyor { stops, followed, met, .. } = surveyor;
        Survey { stops, own_first, followed, source, met }
    }

    /// What a document that is read shows.
    fn read_clauses(&self, case: &Case, aside: u64, output: &[u8]) -> Vec<ReadingClause> {
        let [source, target, embedding, tree] = &case.documents[..] else { return Vec::new() };
        let is_image = bring_back(source, target, embedding, tree, &mut vec![0; tree.len()]).is_ok();
        let characters = |tree: &[u8]| super::characters::characters(tree).count();
        let mut tests = vec![
            (ReadingClause::Image, is_image),
            (ReadingClause::Edited, !is_image),
            (ReadingClause::NoneAside, aside == 0),
            (ReadingClause::SomeAside, aside > 0),
            (ReadingClause::CharactersAside, characters(tree) > characters(output)),
        ];
        let met = [
            ReadingClause::FirstOfSeveral,
            ReadingClause::Nothing,
            ReadingClause::NothingFirst,
            ReadingClause::Member,
            ReadingClause::NoItems,
            ReadingClause::SeveralItems,
        ];
        tests.extend(met.map(|clause| (clause, self.met.contains(&clause))));
        holding(&tests)
    }

    /// What a document that is refused with 17 and this mark shows.
    fn refused_clauses(&self, mark: usize, output_length: usize) -> Vec<ReadingClause> {
        let Some(first) = self.stops.first() else { return Vec::new() };
        let mut clauses = holding(&[
            (ReadingClause::AtRoot, mark == 0),
            (ReadingClause::Below, mark > 0),
            (ReadingClause::Several, self.stops.len() > 1),
            (ReadingClause::OwnFirst, self.own_first),
            (ReadingClause::SourceOrder, self.stops.iter().any(|stop| stop.offset < mark)),
            (ReadingClause::BeforeShort, output_length == 0),
        ]);
        clauses.push(first.why);
        clauses
    }
}

/// An element and the offset at which it is opened.
#[derive(Debug, Clone, Copy)]
struct Placed<'t> {
    element: &'t Element,
    offset: usize,
}

impl<'t> Placed<'t> {
    /// Its children.
    fn children(self) -> Vec<Placed<'t>> {
        let mut offset = self.offset + 2 + 2 * self.element.characters.len();
        let placed = self.element.children.iter().map(|element| {
            let child = Placed { element, offset };
            offset += length(element);
            child
        });
        placed.collect()
    }
}

/// The number of bytes of an element.
fn length(element: &Element) -> usize {
    3 + 2 * element.characters.len() + element.children.iter().map(length).sum::<usize>()
}

/// What one walk below the element that stands for a source element finds.
#[derive(Default)]
struct Found<'t> {
    /// The elements that stand for children, each with its edge.
    children: Vec<(usize, Placed<'t>)>,
    characters: &'t [u8],
    /// What is missing first, if something is.
    missing: Option<Missing>,
    /// Whether a list on the way has several items of which the first is followed.
    several: bool,
    /// How many elements the walk passed.
    passed: u64,
}

/// What is missing on a path.
#[derive(Debug, Clone, Copy, PartialEq, Eq)]
enum Missing {
    /// The item of a list.
    Item,
    /// The member of a choice, which holds another one.
    Member,
    /// The member of an optional choice, which holds nothing.
    Held,
    /// The rest of the path under the first item of the list that takes a source
    /// list's, or under a later one only.
    Rest { first: bool },
}

/// Goes through a target document.
struct Surveyor<'a> {
    mapping: &'a Mapping,
    stops: Vec<Stop>,
    followed: u64,
    met: Vec<ReadingClause>,
}

impl Surveyor<'_> {
    /// The source element of type `t` that an element stands for, and where it
    /// can't be read, whether a child that is there can't be read either.
    fn element(&mut self, placed: Placed, t: u8) -> (Element, bool) {
        let mapping = self.mapping;
        let (mapped, model) = (&mapping.types[t as usize], &mapping.models[t as usize]);
        let taken = mapped.alternatives.iter().position(|place| walked(place, placed).missing.is_none());
        let found = walked(&mapped.alternatives[taken.unwrap_or(0)], placed);
        let mut element = Element::new(t);
        let children = found.children.iter().enumerate().map(|(number, &(edge, child))| {
            let child_type = match model {
                ContentModel::List(item) => *item,
                ContentModel::Sequence(members) => members[edge],
                _ => model.named()[taken.unwrap_or(number)],
            };
            (edge, child_type, child)
        });
        let mut children: Vec<(usize, u8, Placed)> = children.collect();
        children.sort_by_key(|&(edge, _, _)| edge);
        if taken.is_none() {
            let why = why(model, mapped, placed);
            return (element, self.stop(Stop { offset: placed.offset, why }, &children));
        }
        self.note(model, &found);
        element.characters = found.characters.to_vec();
        for (_, child_type, child) in children {
            element.children.push(self.element(child, child_type).0);
        }
        (element, false)
    }

    /// Notes an element that can't be read. Whether one of its children that are
    /// there can't be read either; these are not noted.
    fn stop(&mut self, stop: Stop, children: &[(usize, u8, Placed)]) -> bool {
        let mut apart = Surveyor { mapping: self.mapping, stops: Vec::new(), followed: 0, met: Vec::new() };
        children.iter().for_each(|&(_, child_type, child)| _ = apart.element(child, child_type));
        self.stops.push(stop);
        !apart.stops.is_empty()
    }

    /// Notes what an element that is read shows.
    fn note(&mut self, model: &ContentModel, found: &Found) {
        self.followed += found.passed;
        let (items, is_optional) = (found.children.len(), model.is_optional());
        self.met.extend(holding(&[
            (ReadingClause::FirstOfSeveral, found.several),
            (ReadingClause::Nothing, is_optional && items == 0),
            (ReadingClause::NothingFirst, is_optional && items == 0 && found.several),
            (ReadingClause::Member, is_optional && items == 1),
            (ReadingClause::NoItems, model.is_list() && items == 0),
            (ReadingClause::SeveralItems, model.is_list() && items > 1),
        ]));
    }
}

/// Why the paths of a source element can't be followed.
fn why(model: &ContentModel, mapped: &MappedType, placed: Placed) -> ReadingClause {
    let missing: Vec<Missing> =
        mapped.alternatives.iter().filter_map(|place| walked(place, placed).missing).collect();
    let lacks_item = missing.contains(&Missing::Item);
    match model {
        ContentModel::List(_) if missing.contains(&Missing::Rest { first: true }) => ReadingClause::FirstItem,
        ContentModel::List(_) => ReadingClause::LaterItem,
        ContentModel::Choice(_) if lacks_item => ReadingClause::NeededItem,
        ContentModel::Choice(_) if missing.contains(&Missing::Held) => ReadingClause::NeededNothing,
        ContentModel::Choice(_) => ReadingClause::NeededMember,
        // The last of the alternatives is to hold nothing.
        ContentModel::OptionalChoice(_) if missing.last() == Some(&Missing::Item) => {
            ReadingClause::OptionalItem
        }
        ContentModel::OptionalChoice(_) => ReadingClause::OptionalMember,
        ContentModel::Text => ReadingClause::TextItem,
        _ => ReadingClause::SequenceItem,
    }
}

/// What a walk along a place from an element finds.
fn walked<'t>(place: &Place, placed: Placed<'t>) -> Found<'t> {
    let mut found = Found::default();
    walk(place, placed, &mut found);
    found
}

/// Walks along a place, past what is missing.
fn walk<'t>(place: &Place, placed: Placed<'t>, found: &mut Found<'t>) {
    let held = &placed.element.children;
    match place {
        Place::Filler(_) => {}
        Place::Child(edge) => found.children.push((*edge, placed)),
        Place::Characters => found.characters = &placed.element.characters,
        Place::Nothing if held.is_empty() => {}
        Place::Nothing => miss(found, Missing::Member),
        Place::Sequence(members) => {
            for ((_, member), child) in members.iter().zip(placed.children()) {
                if let Some(member) = member {
                    found.passed += 1;
                    walk(member, child, found);
                }
            }
        }
        Place::Choice(_, _) if held.is_empty() => miss(found, Missing::Held),
        Place::Choice(t, _) if held[0].element_type != *t => miss(found, Missing::Member),
        Place::Item(_, _) if held.is_empty() => miss(found, Missing::Item),
        Place::Choice(_, rest) | Place::Item(_, rest) => {
            found.several |= held.len() > 1;
            found.passed += 1;
            walk(rest, Placed { element: &held[0], offset: placed.offset + 2 }, found);
        }
        Place::Items(_, rest) => {
            for (number, item) in placed.children().into_iter().enumerate() {
                let mut under = walked(rest, item);
                found.passed += 1 + under.passed;
                found.several |= under.several;
                found.children.append(&mut under.children);
                if under.missing.is_some() {
                    miss(found, Missing::Rest { first: number == 0 });
                }
            }
        }
    }
}

/// Notes that something is missing, if nothing was before.
fn miss(found: &mut Found, what: Missing) {
    found.missing = found.missing.or(Some(what));
}
