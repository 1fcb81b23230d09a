//! By which clause about optional choices an embedding is refused.

use super::marked::{Broken, Marked};
use super::Clause;
use crate::explanation::Reason;
use crate::generate::Embedded;
use crate::table::ContentModel;
use crate::Refusal;

/// The clause by which an embedding between accepted tables is refused.
pub fn embedding_clause(embedded: &Embedded, refusal: Refusal) -> Option<Clause> {
    let marked = Marked::at(embedded, refusal.mark as usize)?;
    match refusal.number {
        // The marked step would leave the last of these types.
        4 => marked.left(marked.edge).last()?.is_optional().then_some(Clause::NoSuchStep),
        8 => marked.model.is_optional().then_some(Clause::WrongEnd),
        9 => wrong_steps(&marked),
        10 => clash(&marked),
        _ => None,
    }
}

/// The clause of check 9: the only one that the path breaks.
fn wrong_steps(marked: &Marked) -> Option<Clause> {
    let left = marked.left(marked.edge);
    let through = left.iter().any(|model| model.is_optional())
        && !left.iter().any(|model| matches!(model, ContentModel::Choice(_)));
    match marked.model {
        ContentModel::OptionalChoice(_) => Some(match marked.broken()? {
            Broken::NoChoice => Clause::NoChoiceOnPath,
            Broken::NeededChoiceFirst => Clause::NeededChoiceFirst,
            Broken::OtherBeginning => Clause::OtherBeginning,
        }),
        _ if !through => None,
        ContentModel::Sequence(_) => Some(Clause::SequenceThrough),
        ContentModel::Text => Some(Clause::TextThrough),
        ContentModel::List(_) => left.iter().any(|model| model.is_list()).then_some(Clause::ListThrough),
        ContentModel::Choice(_) | ContentModel::Empty => None,
    }
}

/// The clause of check 10: how the path clashes with the first that it clashes
/// with.
fn clash(marked: &Marked) -> Option<Clause> {
    if !marked.model.is_choice() {
        return None;
    }
    let clash = marked.clash()?;
    match clash.reason {
        Reason::PartsAtSequence if !marked.model.is_optional() => {
            let before = part_before(marked, clash.earlier, clash.shared);
            before.then_some(Clause::ChoicePartingBefore)
        }
        _ if !marked.model.is_optional() => None,
        Reason::Equal => Some(Clause::EqualPaths),
        Reason::EarlierBeginsLater => Some(Clause::EarlierBeginsLater),
        Reason::LaterBeginsEarlier => Some(Clause::LaterBeginsEarlier),
        Reason::PartsAtSequence => Some(Clause::PartingAtSequence),
    }
}

/// Whether the marked path and another one part by a step before the first
/// choice on both, which is an optional one.
fn part_before(marked: &Marked, other: usize, shared: usize) -> bool {
    [marked.edge, other].into_iter().all(|edge| {
        let left = marked.left(edge);
        let first = left.iter().position(|model| model.is_choice());
        first.is_some_and(|first| first > shared && left[first].is_optional())
    })
}
