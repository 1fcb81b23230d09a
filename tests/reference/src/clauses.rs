//! Which clause about optional choices decides the answer to a case; in
//! [`lists`], which clause about lists on the paths of choices; in
//! [`characters`], which clause about characters; in [`clashes`], what the
//! explanation of a clash shows; in [`operations`], what an operation on a table
//! shows; in [`reading`], what reading along the paths shows; in [`crossings`],
//! what a count of what went across shows.
//!
//! A refusal is given a clause where the other clauses of the same check hold
//! at the place that it marks, so that the clause is seen apart.

pub mod characters;
pub mod clashes;
pub mod crossings;
mod embeddings;
mod images;
pub mod lists;
mod marked;
pub mod operations;
pub mod reading;
mod repair;

use crate::embedding;
use crate::generate::damage::split_commands;
use crate::generate::Embedded;
use crate::table::{self, ContentModel, Table};
use crate::tree::{self, commands, open_elements, Command, Element};
use crate::vectors::{Answer, Case, Entry};
use crate::{Refusal, EMBEDDING, SOURCE, TARGET, TREE};

/// A clause about optional choices, or something that an accepted document
/// shows of them.
#[derive(Debug, Clone, Copy, PartialEq, Eq, PartialOrd, Ord)]
pub enum Clause {
    NoMember,
    SeventeenthMember,
    MemberWithoutType,
    RepeatedMember,
    NoSuchStep,
    WrongEnd,
    NoChoiceOnPath,
    NeededChoiceFirst,
    OtherBeginning,
    SequenceThrough,
    TextThrough,
    ListThrough,
    EqualPaths,
    EarlierBeginsLater,
    LaterBeginsEarlier,
    PartingAtSequence,
    ChoicePartingBefore,
    WrongMember,
    SecondMember,
    Character,
    FullForNothing,
    EmptyForMember,
    FullForOther,
    OnlyInstance,
    ConformsEmpty,
    CarriedEmpty,
    CarriedFull,
    CarriedNested,
    CarriedSixteen,
    CarriedShared,
    CarriedThenNeeded,
    CarriedThenOptional,
    CarriedThrough,
    BroughtBackEmpty,
    BroughtBackFull,
    BroughtBackNested,
}

impl Clause {
    /// All clauses, each with its text.
    pub const ALL: [(Clause, &'static str); 36] = [
        (Clause::NoMember, "2, an optional choice without member"),
        (Clause::SeventeenthMember, "3, the 17th member of an optional choice"),
        (Clause::MemberWithoutType, "4, a member of an optional choice names no type"),
        (Clause::RepeatedMember, "5, an optional choice names a type twice"),
        (Clause::NoSuchStep, "4, no such step from an optional choice"),
        (Clause::WrongEnd, "8, a path of an optional choice ends at the wrong type"),
        (Clause::NoChoiceOnPath, "9, a path of an optional choice leaves no choice"),
        (Clause::NeededChoiceFirst, "9, the first choice on a path of an optional choice is needed"),
        (Clause::OtherBeginning, "9, a path of an optional choice begins unlike the first"),
        (Clause::SequenceThrough, "9, a sequence goes through an optional choice"),
        (Clause::TextThrough, "9, a text goes through an optional choice"),
        (Clause::ListThrough, "9, a list goes through an optional choice"),
        (Clause::EqualPaths, "10, equal paths of an optional choice"),
        (Clause::EarlierBeginsLater, "10, the earlier path of an optional choice begins the later"),
        (Clause::LaterBeginsEarlier, "10, the later path of an optional choice begins the earlier"),
        (Clause::PartingAtSequence, "10, paths of an optional choice part at a sequence"),
        (Clause::ChoicePartingBefore, "10, paths of a choice part before an optional choice"),
        (Clause::WrongMember, "11, no member of the optional choice"),
        (Clause::SecondMember, "11, a second member in an optional choice"),
        (Clause::Character, "11, a character in an optional choice"),
        (Clause::FullForNothing, "15, an image if an optional choice were emptied"),
        (Clause::EmptyForMember, "15, an image if an optional choice were filled"),
        (Clause::FullForOther, "15, an image only if an optional choice held another member"),
        (Clause::OnlyInstance, "a table with finite instances by an optional choice alone"),
        (Clause::ConformsEmpty, "a tree with an empty optional choice"),
        (Clause::CarriedEmpty, "an empty optional choice carried"),
        (Clause::CarriedFull, "a full optional choice carried"),
        (Clause::CarriedNested, "an optional choice within another carried"),
        (Clause::CarriedSixteen, "an optional choice of 16 members carried"),
        (Clause::CarriedShared, "an empty optional choice carried below its image"),
        (Clause::CarriedThenNeeded, "a full optional choice carried through a needed one too"),
        (Clause::CarriedThenOptional, "a full optional choice carried through two optional ones"),
        (Clause::CarriedThrough, "a choice carried through an optional choice"),
        (Clause::BroughtBackEmpty, "an empty optional choice brought back"),
        (Clause::BroughtBackFull, "a full optional choice brought back"),
        (Clause::BroughtBackNested, "an optional choice within another brought back"),
    ];
}

/// Whether a command 17 stands in a table of a case.
pub fn has_optional(case: &Case) -> bool {
    let tables = match case.entry {
        Entry::JudgeTable | Entry::JudgeTree => 1,
        _ => 2,
    };
    let mut commands = case.documents[..tables].iter().flat_map(|table| split_commands(table));
    commands.any(|command| command == [0x17])
}

/// The clauses that a case and its answer show.
pub fn shown(case: &Case, answer: &Answer) -> Vec<Clause> {
    match answer {
        Answer::Refused(refusal) => refusal_clause(case, *refusal).into_iter().collect(),
        Answer::Ok { output, .. } => accepted_clauses(case, output),
    }
}

/// The table that a document of an accepted case is.
fn accepted_table(document: &[u8]) -> Table {
    table::accept(document, SOURCE).expect("an accepted table")
}

/// The table by which the tree of a case is judged, where it is accepted.
fn judging_table(case: &Case) -> Table {
    let judging = if case.entry.is_given_target() { 1 } else { 0 };
    accepted_table(&case.documents[judging])
}

/// The tables and the embedding of a case, if it has accepted tables and an
/// embedding of the right form.
fn embedded_of(case: &Case) -> Option<Embedded> {
    embedded_in(&case.documents)
}

/// The same of some documents in the order in which they are given.
fn embedded_in(documents: &[Vec<u8>]) -> Option<Embedded> {
    let [source, target, bytes, ..] = documents else {
        return None;
    };
    let (source, target) = (table::accept(source, SOURCE).ok()?, table::accept(target, TARGET).ok()?);
    let embedding = embedding::read(&source, bytes).ok()?;
    Some(Embedded { source, target, embedding })
}

/// The tables and the embedding of an accepted case.
fn accepted_embedding(case: &Case) -> Embedded {
    embedded_of(case).expect("an accepted embedding")
}

/// The clause that decides a refusal.
fn refusal_clause(case: &Case, refusal: Refusal) -> Option<Clause> {
    let documents = &case.documents;
    match refusal.document {
        SOURCE => table_clause(&documents[0], refusal),
        TARGET => table_clause(&documents[1], refusal),
        EMBEDDING => embeddings::embedding_clause(&embedded_of(case)?, refusal),
        TREE if refusal.number == 15 => images::no_image_clause(case),
        TREE => tree_clause(&judging_table(case), documents.last()?, refusal),
        _ => None,
    }
}

/// The clause by which a table is refused: the last type before the mark is an
/// optional choice, and the mark is its member, or it has none.
fn table_clause(table: &[u8], refusal: Refusal) -> Option<Clause> {
    let mark = refusal.mark as usize;
    if !(2..=5).contains(&refusal.number) {
        return None;
    }
    let before = split_commands(&table[..mark]);
    let last_type = before.iter().rfind(|command| command[0] != 0x15)?;
    let is_member = table.get(mark) == Some(&0x15);
    match refusal.number {
        _ if last_type[..] != [0x17] => None,
        2 if before.last() == Some(last_type) => Some(Clause::NoMember),
        3 if is_member => Some(Clause::SeventeenthMember),
        4 if is_member => Some(Clause::MemberWithoutType),
        5 => Some(Clause::RepeatedMember),
        _ => None,
    }
}

/// The clause by which a tree doesn't conform: the mark stands in an optional
/// choice.
fn tree_clause(table: &Table, bytes: &[u8], refusal: Refusal) -> Option<Clause> {
    if refusal.number != 11 {
        return None;
    }
    let marked = MarkedCommand::at(table, bytes, refusal.mark as usize)?;
    match marked.command {
        _ if !marked.model.is_optional() => None,
        Command::Open(_) if marked.children == 0 => Some(Clause::WrongMember),
        Command::Open(_) => Some(Clause::SecondMember),
        Command::Character(_) => Some(Clause::Character),
        _ => None,
    }
}

/// A command of a tree that a refusal marks: the element that it stands in has
/// a model and so many children before it.
struct MarkedCommand<'a> {
    command: Command,
    model: &'a ContentModel,
    children: usize,
}

impl MarkedCommand<'_> {
    /// The command at an offset, if it stands in an element.
    fn at<'a>(table: &'a Table, tree: &[u8], offset: usize) -> Option<MarkedCommand<'a>> {
        let &(t, children) = open_elements(&tree[..offset]).last()?;
        let (_, command) = commands(tree).find(|command| command.0 == offset)?;
        Some(MarkedCommand { command, model: &table.types[t as usize], children })
    }
}

/// What an accepted case shows.
fn accepted_clauses(case: &Case, output: &[u8]) -> Vec<Clause> {
    let documents = &case.documents;
    match case.entry {
        Entry::JudgeTable => {
            let table = accepted_table(&documents[0]);
            only_instance(&table).then_some(Clause::OnlyInstance).into_iter().collect()
        }
        Entry::JudgeTree => {
            let table = accepted_table(&documents[0]);
            let empty = images::any_element(&tree::build(&documents[1]), &|element: &Element| {
                table.types[element.element_type as usize].is_optional() && element.children.is_empty()
            });
            empty.then_some(Clause::ConformsEmpty).into_iter().collect()
        }
        Entry::JudgeEmbedding | Entry::ReadAlong => Vec::new(),
        Entry::Carry => images::carried_clauses(&accepted_embedding(case), &documents[3]),
        Entry::BringBack => images::brought_back_clauses(&accepted_embedding(case), output),
    }
}

/// Whether a type of the table would have no finite instance if its optional
/// choices had to hold a member.
fn only_instance(table: &Table) -> bool {
    let needed = |model: &ContentModel| match model {
        ContentModel::OptionalChoice(members) => ContentModel::Choice(members.clone()),
        other => other.clone(),
    };
    let needing = Table { types: table.types.iter().map(needed).collect() };
    needing.heights().contains(&None)
}
