//! What a count of what went across shows: which of the sums about path elements
//! occur, and what the image holds.

use super::embedded_in;
use crate::counted::{occurrences, Counted};
use crate::embedding::{left, TypeMap};
use crate::generate::Embedded;
use crate::table::ContentModel;
use crate::tree::{self, is_accent, Element};
use crate::vectors::crossings::Crossing;
use crate::Refusal;

/// Something that a count of what went across shows.
#[derive(Debug, Clone, Copy, PartialEq, Eq, PartialOrd, Ord)]
pub enum CrossingClause {
    Filler,
    NoFiller,
    Repeated,
    Empty,
    StaysText,
    OneItem,
    OnlyRoot,
    OtherOrder,
    Accent,
    LongText,
    NoItems,
    SeveralItems,
    Nothing,
    LongNeeded,
    LongOptional,
    SharedBeginning,
    SharedList,
    NothingBelow,
    NoItemsBelow,
    RestOfSeveral,
    BeforeAndRest,
    LaterList,
}

impl CrossingClause {
    /// All clauses, each with its text.
    pub const ALL: [(CrossingClause, &'static str); 22] = [
        (CrossingClause::Filler, "an image with filler"),
        (CrossingClause::NoFiller, "an image without filler"),
        (CrossingClause::Repeated, "a character that occurs several times"),
        (CrossingClause::Empty, "an empty element"),
        (CrossingClause::StaysText, "a text whose path has no steps"),
        (CrossingClause::OneItem, "a list of one item"),
        (CrossingClause::OnlyRoot, "no source element but the root"),
        (CrossingClause::OtherOrder, "source elements that stand in another order"),
        (CrossingClause::Accent, "an accent"),
        (CrossingClause::LongText, "a text whose path has several steps"),
        (CrossingClause::NoItems, "a list without items, its image the list that takes them"),
        (CrossingClause::SeveralItems, "a list of several items, with one step for each"),
        (CrossingClause::Nothing, "an optional choice with nothing, its image the one left empty"),
        (CrossingClause::LongNeeded, "a needed choice by a path of several steps"),
        (CrossingClause::LongOptional, "a full optional choice by a path of several steps"),
        (CrossingClause::SharedBeginning, "a sequence whose paths share a beginning"),
        (CrossingClause::SharedList, "a sequence whose paths share a list"),
        (CrossingClause::NothingBelow, "an optional choice with nothing, with steps to the one left empty"),
        (CrossingClause::NoItemsBelow, "a list without items, with steps to the list that takes them"),
        (CrossingClause::RestOfSeveral, "a list of several items, with several steps for each"),
        (CrossingClause::BeforeAndRest, "a list of several items, with steps before and several for each"),
        (CrossingClause::LaterList, "a list of several items by a path through several lists"),
    ];
}

/// The clauses that what is counted of a crossing shows.
pub fn shown(crossing: &Crossing, counted: &Result<Counted, Refusal>) -> Vec<CrossingClause> {
    let (Ok(counted), Some(embedded)) = (counted, embedded_in(&crossing.documents)) else {
        return Vec::new();
    };
    let tree = &crossing.documents[3];
    let characters = occurrences(tree);
    let has_accent = (0..=u8::MAX).any(|byte| is_accent(byte) && characters[byte as usize] > 0);
    let in_order = counted.standing.windows(2).all(|pair| pair[0].image < pair[1].image);
    let mut tests = vec![
        (CrossingClause::Filler, counted.filler > 0),
        (CrossingClause::NoFiller, counted.filler == 0),
        (CrossingClause::Repeated, characters.iter().any(|&count| count > 1)),
        (CrossingClause::OnlyRoot, counted.standing.len() == 1),
        (CrossingClause::OtherOrder, !in_order),
        (CrossingClause::Accent, has_accent),
    ];
    add_elements(&embedded, &tree::build(tree), &mut tests);
    let holds = |clause: CrossingClause| tests.iter().any(|&(tested, holds)| tested == clause && holds);
    CrossingClause::ALL.iter().map(|&(clause, _)| clause).filter(|&clause| holds(clause)).collect()
}

/// A clause, and whether it holds of something.
type Test = (CrossingClause, bool);

/// Adds what a source element and all below it show.
fn add_elements(embedded: &Embedded, element: &Element, tests: &mut Vec<Test>) {
    let map = &embedded.embedding.maps[element.element_type as usize];
    let first = map.paths.first().map_or(0, |path| path.steps.len());
    match embedded.model_of(element) {
        ContentModel::Empty => tests.push((CrossingClause::Empty, true)),
        ContentModel::Text => {
            tests.extend([(CrossingClause::StaysText, first == 0), (CrossingClause::LongText, first > 1)]);
        }
        ContentModel::Sequence(_) => add_sequence(embedded, map, tests),
        ContentModel::Choice(_) => {
            tests.push((CrossingClause::LongNeeded, embedded.left_by(element).len() > 1));
        }
        ContentModel::OptionalChoice(_) => {
            let (taken, is_empty) = (embedded.left_by(element).len(), element.children.is_empty());
            tests.extend([
                (CrossingClause::LongOptional, !is_empty && taken > 1),
                (CrossingClause::Nothing, is_empty && taken == 0),
                (CrossingClause::NothingBelow, is_empty && taken > 0),
            ]);
        }
        ContentModel::List(_) => add_list(embedded, map, element.children.len(), tests),
    }
    element.children.iter().for_each(|child| add_elements(embedded, child, tests));
}

/// Adds what a sequence shows.
fn add_sequence(embedded: &Embedded, map: &TypeMap, tests: &mut Vec<Test>) {
    for (number, later) in map.paths.iter().enumerate() {
        let left = left(&embedded.target, map.target, &later.steps);
        for earlier in &map.paths[..number] {
            let shared = earlier.steps.iter().zip(&later.steps).take_while(|(a, b)| a == b).count();
            tests.extend([
                (CrossingClause::SharedBeginning, shared > 0),
                (CrossingClause::SharedList, left[..shared].iter().any(|model| model.is_list())),
            ]);
        }
    }
}

/// Adds what a list of so many items shows.
fn add_list(embedded: &Embedded, map: &TypeMap, items: usize, tests: &mut Vec<Test>) {
    let left = left(&embedded.target, map.target, &map.paths[0].steps);
    let lists: Vec<usize> = (0..left.len()).filter(|&step| left[step].is_list()).collect();
    let before = lists.first().copied().unwrap_or(left.len());
    let for_each = left.len() - before;
    tests.extend([
        (CrossingClause::OneItem, items == 1),
        (CrossingClause::NoItems, items == 0 && before == 0),
        (CrossingClause::NoItemsBelow, items == 0 && before > 0),
        (CrossingClause::SeveralItems, items > 1 && for_each == 1),
        (CrossingClause::RestOfSeveral, items > 1 && for_each > 1),
        (CrossingClause::BeforeAndRest, items > 1 && for_each > 1 && before > 0),
        (CrossingClause::LaterList, items > 1 && lists.len() > 1),
    ]);
}
