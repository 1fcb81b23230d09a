//! Which clause about lists on the paths of choices decides the answer to a
//! case.

use super::images::clauses_of;
use super::marked::{Broken, Marked};
use super::repair::Repair;
use super::{accepted_embedding, embedded_of};
use crate::explanation::Reason;
use crate::generate::Embedded;
use crate::image::Mapping;
use crate::places::Places;
use crate::table::ContentModel;
use crate::tree::{self, Element};
use crate::vectors::{Answer, Case, Entry};
use crate::{Refusal, EMBEDDING, TREE};

/// A clause about lists on the paths of choices of either kind, or something
/// that an accepted document shows of them.
#[derive(Debug, Clone, Copy, PartialEq, Eq, PartialOrd, Ord)]
pub enum ListClause {
    NoSuchStep,
    NeededWithoutChoice,
    OptionalWithoutChoice,
    NeededChoiceBehind,
    OtherBeginning,
    SequenceThrough,
    TextThrough,
    ListThrough,
    EqualPaths,
    EarlierBeginsLater,
    LaterBeginsEarlier,
    PartingAtSequence,
    SecondItem,
    MissingItem,
    NeededBefore,
    NeededBetween,
    NeededAfter,
    OptionalBefore,
    OptionalBetween,
    OptionalAfter,
    EmptyBehind,
    FirstStep,
    SeveralLists,
    BroughtBackNeeded,
    BroughtBackFull,
    BroughtBackEmpty,
}

impl ListClause {
    /// All clauses, each with its text.
    pub const ALL: [(ListClause, &'static str); 26] = [
        (ListClause::NoSuchStep, "4, no such step from a list on a path of a choice"),
        (ListClause::NeededWithoutChoice, "9, a path of a needed choice leaves a list and no choice"),
        (ListClause::OptionalWithoutChoice, "9, a path of an optional choice leaves a list and no choice"),
        (
            ListClause::NeededChoiceBehind,
            "9, the first choice of an optional choice, behind a list, is needed",
        ),
        (ListClause::OtherBeginning, "9, paths of an optional choice begin unlike, one with a list"),
        (ListClause::SequenceThrough, "9, a sequence goes through a choice and a list"),
        (ListClause::TextThrough, "9, a text goes through a choice and a list"),
        (ListClause::ListThrough, "9, a list goes through a choice and a list"),
        (ListClause::EqualPaths, "10, equal paths of a choice with a list"),
        (ListClause::EarlierBeginsLater, "10, the earlier path of a choice, with a list, begins the later"),
        (ListClause::LaterBeginsEarlier, "10, the later path of a choice, with a list, begins the earlier"),
        (ListClause::PartingAtSequence, "10, paths of a choice part at a sequence behind a list"),
        (ListClause::SecondItem, "15, an image if an item were taken out of a list on a choice's path"),
        (ListClause::MissingItem, "15, an image if filler were put into a list on a choice's path"),
        (ListClause::NeededBefore, "a needed choice carried, a list before the first choice"),
        (ListClause::NeededBetween, "a needed choice carried, a list between two choices"),
        (ListClause::NeededAfter, "a needed choice carried, a list after the last choice"),
        (ListClause::OptionalBefore, "a full optional choice carried, a list before the first choice"),
        (ListClause::OptionalBetween, "a full optional choice carried, a list between two choices"),
        (ListClause::OptionalAfter, "a full optional choice carried, a list after the last choice"),
        (ListClause::EmptyBehind, "an empty optional choice carried behind a list"),
        (ListClause::FirstStep, "a choice carried whose image is a list"),
        (ListClause::SeveralLists, "a choice carried by a path with two lists or more"),
        (ListClause::BroughtBackNeeded, "a needed choice brought back through a list"),
        (ListClause::BroughtBackFull, "a full optional choice brought back from behind a list"),
        (ListClause::BroughtBackEmpty, "an empty optional choice brought back from behind a list"),
    ];
}

/// How many lists a path of a choice leaves before its first choice, between
/// its first and its last one, and after that.
#[derive(Debug, Clone, Copy, PartialEq, Eq)]
pub struct ListsOnPath {
    pub before: usize,
    pub between: usize,
    pub after: usize,
}

impl ListsOnPath {
    /// Those of a path that leaves these target types. Without a choice all of
    /// its lists are before.
    pub fn of(left: &[&ContentModel]) -> ListsOnPath {
        let lists = |models: &[&ContentModel]| models.iter().filter(|model| model.is_list()).count();
        let first = left.iter().position(|model| model.is_choice()).unwrap_or(left.len());
        let last = left.iter().rposition(|model| model.is_choice()).unwrap_or(left.len());
        ListsOnPath {
            before: lists(&left[..first]),
            between: lists(&left[first..last]),
            after: lists(&left[last..]),
        }
    }

    /// All lists of the path.
    pub fn count(&self) -> usize {
        self.before + self.between + self.after
    }
}

/// Whether in a case with accepted tables and an embedding of the right form a
/// path of a choice of either kind leaves a list, be it by a step that doesn't
/// exist.
pub fn has_list_on_choice(case: &Case) -> bool {
    embedded_of(case).is_some_and(|embedded| embedded.has_list_on_choice())
}

/// The clauses that a case and its answer show.
pub fn shown(case: &Case, answer: &Answer) -> Vec<ListClause> {
    match (answer, case.entry) {
        (Answer::Refused(refusal), _) => refusal_clause(case, *refusal).into_iter().collect(),
        (Answer::Ok { .. }, Entry::Carry) => carried_clauses(&accepted_embedding(case), &case.documents[3]),
        (Answer::Ok { output, .. }, Entry::BringBack) => {
            brought_back_clauses(&accepted_embedding(case), output)
        }
        _ => Vec::new(),
    }
}

/// The clause that decides a refusal.
fn refusal_clause(case: &Case, refusal: Refusal) -> Option<ListClause> {
    match (refusal.document, refusal.number) {
        (EMBEDDING, _) => embedding_clause(&embedded_of(case)?, refusal),
        (TREE, 15) => no_image_clause(case),
        _ => None,
    }
}

/// The clause by which an embedding between accepted tables is refused.
fn embedding_clause(embedded: &Embedded, refusal: Refusal) -> Option<ListClause> {
    let marked = Marked::at(embedded, refusal.mark as usize)?;
    let is_choice = marked.model.is_choice();
    match refusal.number {
        // The marked step would leave the last of these types.
        4 if is_choice => marked.left(marked.edge).last()?.is_list().then_some(ListClause::NoSuchStep),
        9 => wrong_steps(&marked),
        10 if is_choice => clash(&marked),
        _ => None,
    }
}

/// The clause of check 9: the only one that the path breaks.
fn wrong_steps(marked: &Marked) -> Option<ListClause> {
    let left = marked.left(marked.edge);
    let lists = ListsOnPath::of(&left);
    let through = lists.count() > 0 && left.iter().any(|model| model.is_choice());
    let clause = match marked.model {
        ContentModel::Choice(_) => (lists.count() > 0, ListClause::NeededWithoutChoice),
        ContentModel::OptionalChoice(_) => match marked.broken()? {
            Broken::NoChoice => (lists.count() > 0, ListClause::OptionalWithoutChoice),
            Broken::NeededChoiceFirst => (lists.before > 0, ListClause::NeededChoiceBehind),
            Broken::OtherBeginning => {
                let before = lists.before + ListsOnPath::of(&marked.left(0)).before;
                (before > 0, ListClause::OtherBeginning)
            }
        },
        ContentModel::Sequence(_) => (through, ListClause::SequenceThrough),
        ContentModel::Text => (through, ListClause::TextThrough),
        ContentModel::List(_) => (through, ListClause::ListThrough),
        ContentModel::Empty => return None,
    };
    clause.0.then_some(clause.1)
}

/// The clause of check 10: how the path clashes with the first that it clashes
/// with, where the steps that they share leave a list.
fn clash(marked: &Marked) -> Option<ListClause> {
    let clash = marked.clash()?;
    let clause = match clash.reason {
        Reason::Equal => ListClause::EqualPaths,
        Reason::EarlierBeginsLater => ListClause::EarlierBeginsLater,
        Reason::LaterBeginsEarlier => ListClause::LaterBeginsEarlier,
        Reason::PartsAtSequence => ListClause::PartingAtSequence,
    };
    let left = marked.left(marked.edge);
    left[..clash.shared].iter().any(|model| model.is_list()).then_some(clause)
}

/// What a source element shows of lists: the kind of choice that it is, and
/// the lists on the path that is built for it.
struct Shown<'a> {
    model: &'a ContentModel,
    is_empty: bool,
    lists: ListsOnPath,
    /// Whether the first step leaves a list.
    at_once: bool,
}

impl Shown<'_> {
    /// What an element shows, if it is a choice of either kind.
    fn of<'a>(embedded: &'a Embedded, element: &Element) -> Option<Shown<'a>> {
        let model = embedded.model_of(element);
        if !model.is_choice() {
            return None;
        }
        let left = embedded.left_by(element);
        let at_once = left.first().is_some_and(|model| model.is_list());
        Some(Shown { model, is_empty: element.children.is_empty(), lists: ListsOnPath::of(&left), at_once })
    }

    /// Whether it is a needed choice.
    fn is_needed(&self) -> bool {
        !self.model.is_optional()
    }

    /// Whether it is an optional choice that holds a member.
    fn is_full(&self) -> bool {
        self.model.is_optional() && !self.is_empty
    }
}

/// A clause and what a choice must show for it.
type Test = (ListClause, fn(&Shown) -> bool);

/// What the source tree of an image shows.
fn carried_clauses(embedded: &Embedded, source_document: &[u8]) -> Vec<ListClause> {
    let tests: [Test; 9] = [
        (ListClause::NeededBefore, |choice| choice.is_needed() && choice.lists.before > 0),
        (ListClause::NeededBetween, |choice| choice.is_needed() && choice.lists.between > 0),
        (ListClause::NeededAfter, |choice| choice.is_needed() && choice.lists.after > 0),
        (ListClause::OptionalBefore, |choice| choice.is_full() && choice.lists.before > 0),
        (ListClause::OptionalBetween, |choice| choice.is_full() && choice.lists.between > 0),
        (ListClause::OptionalAfter, |choice| choice.is_full() && choice.lists.after > 0),
        (ListClause::EmptyBehind, |choice| choice.is_empty && choice.lists.before > 0),
        (ListClause::FirstStep, |choice| choice.at_once),
        (ListClause::SeveralLists, |choice| choice.lists.count() > 1),
    ];
    choice_clauses(embedded, source_document, &tests)
}

/// What the source tree that was brought back shows.
fn brought_back_clauses(embedded: &Embedded, source_document: &[u8]) -> Vec<ListClause> {
    let tests: [Test; 3] = [
        (ListClause::BroughtBackNeeded, |choice| choice.is_needed() && choice.lists.count() > 0),
        (ListClause::BroughtBackFull, |choice| choice.is_full() && choice.lists.before > 0),
        (ListClause::BroughtBackEmpty, |choice| choice.is_empty && choice.lists.before > 0),
    ];
    choice_clauses(embedded, source_document, &tests)
}

/// The clauses whose test holds for a choice of a source tree.
fn choice_clauses(embedded: &Embedded, source_document: &[u8], tests: &[Test]) -> Vec<ListClause> {
    let of_element = |&(clause, test): &Test| {
        let holds = move |element: &Element| Shown::of(embedded, element).is_some_and(|choice| test(&choice));
        (clause, holds)
    };
    clauses_of(&tree::build(source_document), tests.iter().map(of_element))
}

/// Why a tree is no image: some list on the path of a choice must have an item
/// less, or must have one. It is that if the tree becomes an image by such a
/// change of one list, with filler as the new item.
fn no_image_clause(case: &Case) -> Option<ListClause> {
    let embedded = accepted_embedding(case);
    let mapping = Mapping::new(&embedded.source, &embedded.target, &embedded.embedding);
    let mut repair = Repair::of(case)?;
    let places = repair.places(ContentModel::is_list);
    places.iter().find_map(|place| changed_list(&mapping, &mut repair, place))
}

/// The change of the list at a place that makes the tree an image in which it
/// is on the path of a choice, if there is one.
fn changed_list(mapping: &Mapping, repair: &mut Repair, place: &[usize]) -> Option<ListClause> {
    let (items, item) = repair.at(place);
    let (clause, single) = match items.len() {
        0 => (ListClause::MissingItem, repair.filler(item[0]).into_iter().collect()),
        2 => (ListClause::SecondItem, items),
        _ => return None,
    };
    let brought_back = |item| repair.brought_back(place, |list| list.children = vec![item]);
    let mut sources = single.into_iter().filter_map(brought_back);
    let is_on_path = |source: Vec<u8>| {
        let lists = Places::of(mapping, &tree::build(&source)).lists;
        lists.iter().any(|list| list == place)
    };
    sources.any(is_on_path).then_some(clause)
}
