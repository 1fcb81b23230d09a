//! Which clause about characters decides the answer to a case.
//!
//! Accents are the characters from A0 to FF; forbidden characters are those
//! that a tree may not hold.

use super::repair::Repair;
use super::{judging_table, MarkedCommand};
use crate::table::{ContentModel, Table};
use crate::tree::{self, commands, is_accent, is_character, Command};
use crate::vectors::{Answer, Case, Entry};
use crate::{judge_embedding, judge_table, Refusal, MOST_BYTES, OUTPUT, TREE};

/// A clause about characters, or something that an accepted document shows of
/// accents.
#[derive(Debug, Clone, Copy, PartialEq, Eq, PartialOrd, Ord)]
pub enum CharacterClause {
    FormFirst,
    LevelsFirst,
    ForbiddenLow,
    ForbiddenHigh,
    ForbiddenInEmpty,
    ForbiddenInSequence,
    ForbiddenInNeeded,
    ForbiddenInOptional,
    ForbiddenInList,
    ForbiddenBehind,
    InEmpty,
    InSequence,
    InNeeded,
    InOptional,
    InList,
    InFiller,
    ShortForImage,
    ShortForSource,
    Conforms,
    Carried,
    BroughtBack,
    Read,
    LeftOut,
}

impl CharacterClause {
    /// All clauses, each with its text.
    pub const ALL: [(CharacterClause, &'static str); 23] = [
        (CharacterClause::FormFirst, "2, a form that breaks behind a forbidden character"),
        (CharacterClause::LevelsFirst, "3, a 129th level behind a forbidden character"),
        (CharacterClause::ForbiddenLow, "4, a character below 20 in a text"),
        (CharacterClause::ForbiddenHigh, "4, a character from 7F to 9F in a text"),
        (CharacterClause::ForbiddenInEmpty, "4, a forbidden character in an empty element"),
        (CharacterClause::ForbiddenInSequence, "4, a forbidden character in a sequence"),
        (CharacterClause::ForbiddenInNeeded, "4, a forbidden character in a needed choice"),
        (CharacterClause::ForbiddenInOptional, "4, a forbidden character in an optional choice"),
        (CharacterClause::ForbiddenInList, "4, a forbidden character in a list"),
        (CharacterClause::ForbiddenBehind, "4, a forbidden character behind a fault of 11"),
        (CharacterClause::InEmpty, "11, an accent in an empty element"),
        (CharacterClause::InSequence, "11, an accent in a sequence"),
        (CharacterClause::InNeeded, "11, an accent in a needed choice"),
        (CharacterClause::InOptional, "11, an accent in an optional choice"),
        (CharacterClause::InList, "11, an accent in a list"),
        (CharacterClause::InFiller, "15, an image if a text with an accent were emptied"),
        (CharacterClause::ShortForImage, "14, an output one byte shorter than an image with an accent"),
        (CharacterClause::ShortForSource, "14, an output one byte shorter than a source with an accent"),
        (CharacterClause::Conforms, "a tree with an accent"),
        (CharacterClause::Carried, "an accent carried"),
        (CharacterClause::BroughtBack, "an accent brought back"),
        (CharacterClause::Read, "an accent read along the paths"),
        (CharacterClause::LeftOut, "accents that no path leads to"),
    ];
}

/// The characters of a tree, or of a beginning of it, read command by command.
pub fn characters(tree: &[u8]) -> impl Iterator<Item = u8> + '_ {
    commands(tree).filter_map(|(_, command)| match command {
        Command::Character(character) => Some(character),
        _ => None,
    })
}

/// Whether an accent stands in a tree, read command by command.
pub fn holds_accent(tree: &[u8]) -> bool {
    characters(tree).any(is_accent)
}

/// The tree of a case, if its entry is given one.
fn tree_of(case: &Case) -> Option<&[u8]> {
    let is_given = Entry::WITH_TREE.contains(&case.entry);
    case.documents.last().filter(|_| is_given).map(Vec::as_slice)
}

/// Whether a case has an accent in its tree, whatever the tree's form.
pub fn has_accent(case: &Case) -> bool {
    tree_of(case).is_some_and(holds_accent)
}

/// Whether all that is judged before the tree of a case is accepted.
pub fn is_tree_judged(case: &Case) -> bool {
    match &case.documents[..] {
        [table, _] => judge_table(table).is_ok(),
        [source, target, embedding, _] => judge_embedding(source, target, embedding).is_ok(),
        _ => false,
    }
}

/// The clauses that a case and its answer show.
pub fn shown(case: &Case, answer: &Answer) -> Vec<CharacterClause> {
    let Some(tree) = tree_of(case) else {
        return Vec::new();
    };
    match answer {
        Answer::Refused(refusal) => refusal_clauses(case, tree, *refusal),
        Answer::Ok { .. } if !holds_accent(tree) => Vec::new(),
        Answer::Ok { output, .. } => vec![match case.entry {
            Entry::Carry => CharacterClause::Carried,
            Entry::BringBack => CharacterClause::BroughtBack,
            Entry::ReadAlong if holds_accent(output) => CharacterClause::Read,
            Entry::ReadAlong => CharacterClause::LeftOut,
            _ => CharacterClause::Conforms,
        }],
    }
}

/// The clauses that a refusal of a case with a tree shows.
fn refusal_clauses(case: &Case, tree: &[u8], refusal: Refusal) -> Vec<CharacterClause> {
    let mark = refusal.mark as usize;
    let is_behind_forbidden = || characters(&tree[..mark]).any(|character| !is_character(character));
    let clause = match (refusal.document, refusal.number) {
        (TREE, 2) => is_behind_forbidden().then_some(CharacterClause::FormFirst),
        (TREE, 3) => is_behind_forbidden().then_some(CharacterClause::LevelsFirst),
        (TREE, 4) => return forbidden_clauses(&judging_table(case), tree, mark),
        (TREE, 11) => misplaced_clause(&judging_table(case), tree, mark),
        (TREE, 15) => is_in_filler(case).then_some(CharacterClause::InFiller),
        (OUTPUT, 14) => short_clause(case),
        _ => None,
    };
    clause.into_iter().collect()
}

/// Of five clauses, the one for the kind of an element that holds no
/// characters: empty, sequence, needed choice, optional choice, list.
fn of_kind(model: &ContentModel, clauses: [CharacterClause; 5]) -> Option<CharacterClause> {
    let [empty, sequence, needed, optional, list] = clauses;
    match model {
        ContentModel::Text => None,
        ContentModel::Empty => Some(empty),
        ContentModel::Sequence(_) => Some(sequence),
        ContentModel::Choice(_) => Some(needed),
        ContentModel::OptionalChoice(_) => Some(optional),
        ContentModel::List(_) => Some(list),
    }
}

/// The clauses for what check 4 marks, if it is a character: where it stands,
/// and whether a fault of check 11 stands before it.
fn forbidden_clauses(table: &Table, tree: &[u8], mark: usize) -> Vec<CharacterClause> {
    use CharacterClause::*;
    let Some(MarkedCommand { command: Command::Character(character), model, .. }) =
        MarkedCommand::at(table, tree, mark)
    else {
        return Vec::new();
    };
    let elsewhere =
        [ForbiddenInEmpty, ForbiddenInSequence, ForbiddenInNeeded, ForbiddenInOptional, ForbiddenInList];
    let in_text = if character < 0x20 { ForbiddenLow } else { ForbiddenHigh };
    let stands = of_kind(model, elsewhere).unwrap_or(in_text);
    let behind = is_behind_fault(table, tree, mark).then_some(ForbiddenBehind);
    [stands].into_iter().chain(behind).collect()
}

/// Whether a tree would not conform before a place if its characters were all
/// allowed.
fn is_behind_fault(table: &Table, tree: &[u8], place: usize) -> bool {
    let mut allowed = tree.to_vec();
    for (offset, command) in commands(tree) {
        if matches!(command, Command::Character(_)) {
            allowed[offset + 1] = b'A';
        }
    }
    let judged = tree::judge(table, &allowed);
    judged.is_err_and(|refusal| refusal.number == 11 && (refusal.mark as usize) < place)
}

/// The clause for what check 11 marks, if it is an accent.
fn misplaced_clause(table: &Table, tree: &[u8], mark: usize) -> Option<CharacterClause> {
    use CharacterClause::*;
    let marked = MarkedCommand::at(table, tree, mark)?;
    match marked.command {
        Command::Character(character) if is_accent(character) => {
            of_kind(marked.model, [InEmpty, InSequence, InNeeded, InOptional, InList])
        }
        _ => None,
    }
}

/// Whether a tree that is no image is one once a text with an accent is
/// emptied. Such a text is filler, as any other may hold what it likes.
fn is_in_filler(case: &Case) -> bool {
    let Some(mut repair) = Repair::of(case) else {
        return false;
    };
    let texts = repair.places(|model| *model == ContentModel::Text);
    texts.iter().any(|place| {
        repair.characters(place).iter().copied().any(is_accent)
            && repair.brought_back(place, |text| text.characters.clear()).is_some()
    })
}

/// The clause for an output that is too short by one byte for a document with
/// an accent.
fn short_clause(case: &Case) -> Option<CharacterClause> {
    let Answer::Ok { value, output, .. } = case.run_into(&mut vec![0; MOST_BYTES]) else {
        return None;
    };
    let clause = match case.entry {
        Entry::Carry => CharacterClause::ShortForImage,
        _ => CharacterClause::ShortForSource,
    };
    (value == case.output_length as u64 + 1 && holds_accent(&output)).then_some(clause)
}
