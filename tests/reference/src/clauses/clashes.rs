//! What the explanation of a clash shows: its reason and the kind of its source
//! type, whether other paths clash too, and where lists are on the two paths.

use super::embedded_in;
use crate::embedding::left;
use crate::explanation::{clash_of, first_clash, Clash, Explanation, Reason};
use crate::generate::Embedded;
use crate::table::ContentModel;
use crate::vectors::explanations::Question;

/// A reason with a kind of source type, or something else that a clash shows.
#[derive(Debug, Clone, Copy, PartialEq, Eq, PartialOrd, Ord)]
pub enum ClashClause {
    SequenceEqual,
    SequenceEarlierBegins,
    SequenceLaterBegins,
    ChoiceEqual,
    ChoiceEarlierBegins,
    ChoiceLaterBegins,
    ChoiceParts,
    OptionalEqual,
    OptionalEarlierBegins,
    OptionalLaterBegins,
    OptionalParts,
    SeveralTypes,
    SeveralLater,
    SeveralEarlier,
    ListShared,
    ListBehind,
}

impl ClashClause {
    /// All clauses, each with its text.
    pub const ALL: [(ClashClause, &'static str); 16] = [
        (ClashClause::SequenceEqual, "equal paths of a sequence"),
        (ClashClause::SequenceEarlierBegins, "the earlier path of a sequence begins the later"),
        (ClashClause::SequenceLaterBegins, "the later path of a sequence begins the earlier"),
        (ClashClause::ChoiceEqual, "equal paths of a needed choice"),
        (ClashClause::ChoiceEarlierBegins, "the earlier path of a needed choice begins the later"),
        (ClashClause::ChoiceLaterBegins, "the later path of a needed choice begins the earlier"),
        (ClashClause::ChoiceParts, "paths of a needed choice part at a sequence"),
        (ClashClause::OptionalEqual, "equal paths of an optional choice"),
        (ClashClause::OptionalEarlierBegins, "the earlier path of an optional choice begins the later"),
        (ClashClause::OptionalLaterBegins, "the later path of an optional choice begins the earlier"),
        (ClashClause::OptionalParts, "paths of an optional choice part at a sequence"),
        (ClashClause::SeveralTypes, "paths of several types clash"),
        (ClashClause::SeveralLater, "a path behind the marked one clashes with one of its type too"),
        (ClashClause::SeveralEarlier, "the marked path clashes with several earlier ones"),
        (ClashClause::ListShared, "a list is left by the steps that the paths share"),
        (ClashClause::ListBehind, "a list is left behind the steps that the paths share"),
    ];
}

/// What a question and its explanation show. Of a clash the first is the reason
/// with the kind of source type.
pub fn shown(question: &Question, explanation: &Explanation) -> Vec<ClashClause> {
    let Explanation::Clash { clash, .. } = explanation else {
        return Vec::new();
    };
    let embedded = embedded_in(&question.documents).expect("documents of the right form");
    let model = &embedded.source.types[clash.source_type as usize];
    let several = several(&embedded, clash).into_iter();
    reason_clause(model, clash.reason).into_iter().chain(several).chain(lists(&embedded, clash)).collect()
}

/// A reason with a kind of source type, if such paths can clash so.
fn reason_clause(model: &ContentModel, reason: Reason) -> Option<ClashClause> {
    Some(match (model, reason) {
        (ContentModel::Sequence(_), Reason::Equal) => ClashClause::SequenceEqual,
        (ContentModel::Sequence(_), Reason::EarlierBeginsLater) => ClashClause::SequenceEarlierBegins,
        (ContentModel::Sequence(_), Reason::LaterBeginsEarlier) => ClashClause::SequenceLaterBegins,
        (ContentModel::Choice(_), Reason::Equal) => ClashClause::ChoiceEqual,
        (ContentModel::Choice(_), Reason::EarlierBeginsLater) => ClashClause::ChoiceEarlierBegins,
        (ContentModel::Choice(_), Reason::LaterBeginsEarlier) => ClashClause::ChoiceLaterBegins,
        (ContentModel::Choice(_), Reason::PartsAtSequence) => ClashClause::ChoiceParts,
        (ContentModel::OptionalChoice(_), Reason::Equal) => ClashClause::OptionalEqual,
        (ContentModel::OptionalChoice(_), Reason::EarlierBeginsLater) => ClashClause::OptionalEarlierBegins,
        (ContentModel::OptionalChoice(_), Reason::LaterBeginsEarlier) => ClashClause::OptionalLaterBegins,
        (ContentModel::OptionalChoice(_), Reason::PartsAtSequence) => ClashClause::OptionalParts,
        _ => return None,
    })
}

/// Which other paths clash.
fn several(embedded: &Embedded, clash: &Clash) -> Vec<ClashClause> {
    let Embedded { source, target, embedding } = embedded;
    let clashes_in =
        |t: usize, edge: usize| first_clash(target, &source.types[t], &embedding.maps[t], edge).is_some();
    let clashing = |t: usize| (0..embedding.maps[t].paths.len()).any(|edge| clashes_in(t, edge));
    let (t, later) = (clash.source_type as usize, clash.later as usize - 1);
    let (model, map) = (&source.types[t], &embedding.maps[t]);
    let of_types = (0..source.types.len()).filter(|&t| clashing(t)).count();
    let behind = (later + 1..map.paths.len()).filter(|&edge| clashes_in(t, edge)).count();
    let before = (0..later).filter(|&edge| clash_of(target, model, map, edge, later).is_some()).count();
    let tests = [
        (ClashClause::SeveralTypes, of_types > 1),
        (ClashClause::SeveralLater, behind > 0),
        (ClashClause::SeveralEarlier, before > 1),
    ];
    tests.into_iter().filter(|test| test.1).map(|test| test.0).collect()
}

/// Where the two paths leave lists.
fn lists(embedded: &Embedded, clash: &Clash) -> Vec<ClashClause> {
    let map = &embedded.embedding.maps[clash.source_type as usize];
    let lists_of = |member: u64| {
        let left = left(&embedded.target, map.target, &map.paths[member as usize - 1].steps);
        let (shared, behind) = left.split_at(clash.shared as usize);
        [shared, behind].map(|left| left.iter().any(|model| model.is_list()))
    };
    let [earlier, later] = [clash.earlier, clash.later].map(lists_of);
    let tests = [(ClashClause::ListShared, later[0]), (ClashClause::ListBehind, earlier[1] || later[1])];
    tests.into_iter().filter(|test| test.1).map(|test| test.0).collect()
}
