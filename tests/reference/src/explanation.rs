//! Why paths clash (paper 02, N9): two members of a source type, how many steps
//! their paths share, and the one of four reasons that holds of them.

use crate::embedding::{self, walk, TypeMap};
use crate::table::{self, ContentModel, Table};
use crate::{judge_embedding, Refusal, SOURCE, TARGET};

/// Why the paths of two members clash.
#[derive(Debug, Clone, Copy, PartialEq, Eq, PartialOrd, Ord)]
pub enum Reason {
    /// The paths are equal.
    Equal,
    /// The earlier path is a shorter beginning of the later one.
    EarlierBeginsLater,
    /// The later path is a shorter beginning of the earlier one.
    LaterBeginsEarlier,
    /// The paths of a choice of either kind part at a sequence.
    PartsAtSequence,
}

impl Reason {
    /// All reasons, in the order of the paper.
    pub const ALL: [Reason; 4] =
        [Reason::Equal, Reason::EarlierBeginsLater, Reason::LaterBeginsEarlier, Reason::PartsAtSequence];

    /// The name used in vector lines.
    pub fn name(self) -> &'static str {
        match self {
            Reason::Equal => "equal",
            Reason::EarlierBeginsLater => "earlier-begins-later",
            Reason::LaterBeginsEarlier => "later-begins-earlier",
            Reason::PartsAtSequence => "parts-at-sequence",
        }
    }
}

/// Two members of a source type whose paths clash, counted from 1, and the
/// number of steps that both paths begin with.
#[derive(Debug, Clone, Copy, PartialEq, Eq)]
pub struct Clash {
    pub source_type: u64,
    pub earlier: u64,
    pub later: u64,
    pub shared: u64,
    pub reason: Reason,
}

/// The answer of [`explain_clash`]: a clash with the refusal that marks it, or
/// that there is none to explain, with the answer of judging inside.
#[derive(Debug, Clone, Copy, PartialEq, Eq)]
pub enum Explanation {
    Clash { refusal: Refusal, clash: Clash },
    Nothing(Result<u64, Refusal>),
}

impl Explanation {
    /// The answer of judging the embedding.
    pub fn judged(&self) -> Result<u64, Refusal> {
        match *self {
            Explanation::Clash { refusal, .. } => Err(refusal),
            Explanation::Nothing(judged) => judged,
        }
    }
}

/// Judges an embedding between two tables; where two of its paths clash, says
/// which and why.
pub fn explain_clash(source: &[u8], target: &[u8], embedding: &[u8]) -> Explanation {
    match judge_embedding(source, target, embedding) {
        Err(refusal) if refusal.number == 10 => {
            let clash = marked_clash(source, target, embedding, refusal.mark as usize);
            Explanation::Clash { refusal, clash: clash.expect("the marked path clashes") }
        }
        judged => Explanation::Nothing(judged),
    }
}

/// The clash of the path at an offset with the first one of its type that it
/// clashes with.
fn marked_clash(source: &[u8], target: &[u8], embedding: &[u8], mark: usize) -> Option<Clash> {
    let source = table::accept(source, SOURCE).ok()?;
    let target = table::accept(target, TARGET).ok()?;
    let maps = embedding::read(&source, embedding).ok()?.maps;
    let (source_type, later) = maps.iter().enumerate().find_map(|(source_type, map)| {
        let later = map.paths.iter().position(|path| path.offset == mark)?;
        Some((source_type, later))
    })?;
    let first = first_clash(&target, &source.types[source_type], &maps[source_type], later)?;
    Some(Clash {
        source_type: source_type as u64,
        earlier: first.earlier as u64 + 1,
        later: later as u64 + 1,
        shared: first.shared as u64,
        reason: first.reason,
    })
}

/// An edge, counted from 0, with whose path a later one clashes, the number of
/// steps that both begin with, and why they clash.
#[derive(Debug, Clone, Copy, PartialEq, Eq)]
pub struct Earlier {
    pub earlier: usize,
    pub shared: usize,
    pub reason: Reason,
}

/// The first of the earlier edges of a source type with whose path that of an
/// edge clashes.
pub fn first_clash(target: &Table, model: &ContentModel, map: &TypeMap, later: usize) -> Option<Earlier> {
    (0..later).find_map(|earlier| {
        let (shared, reason) = clash_of(target, model, map, earlier, later)?;
        Some(Earlier { earlier, shared, reason })
    })
}

/// The number of steps that the paths of two edges share and why they clash, if
/// they do.
pub fn clash_of(
    target: &Table,
    model: &ContentModel,
    map: &TypeMap,
    earlier: usize,
    later: usize,
) -> Option<(usize, Reason)> {
    let [earlier, later] = [earlier, later].map(|edge| &map.paths[edge].steps[..]);
    let shared = earlier.iter().zip(later).take_while(|(a, b)| a == b).count();
    let reason = match (shared == earlier.len(), shared == later.len()) {
        (true, true) => Reason::Equal,
        (true, false) => Reason::EarlierBeginsLater,
        (false, true) => Reason::LaterBeginsEarlier,
        (false, false) => {
            let parting = *walk(target, map.target, &later[..shared]).ok()?.last()?;
            let at_sequence = matches!(target.types[parting as usize], ContentModel::Sequence(_));
            (model.is_choice() && at_sequence).then_some(Reason::PartsAtSequence)?
        }
    };
    Some((shared, reason))
}
