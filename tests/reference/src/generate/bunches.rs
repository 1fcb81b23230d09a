//! Random bunches of paths for the members of one source type, drawn with the
//! target types that they go through. Each path is valid by itself; some clash.

use super::Rng;
use crate::explanation::Reason;
use crate::table::ContentModel;
use crate::{MOST_MEMBERS, MOST_STEPS};
use std::collections::BTreeMap;

/// The kinds of source types whose paths can clash.
#[derive(Debug, Clone, Copy, PartialEq, Eq)]
pub enum Kind {
    Sequence,
    Choice,
    OptionalChoice,
}

impl Kind {
    /// All kinds.
    pub const ALL: [Kind; 3] = [Kind::Sequence, Kind::Choice, Kind::OptionalChoice];

    /// The content model of this kind with some members.
    pub fn model(self, members: Vec<u8>) -> ContentModel {
        match self {
            Kind::Sequence => ContentModel::Sequence(members),
            Kind::Choice => ContentModel::Choice(members),
            Kind::OptionalChoice => ContentModel::OptionalChoice(members),
        }
    }
}

/// Which paths are drawn so that they clash with an earlier one.
#[derive(Debug, Clone, Copy, PartialEq, Eq)]
pub enum Clashing {
    None,
    /// The last one only.
    Last,
    /// So many of 100, and the paths are put in another order.
    Some(usize),
}

/// How a bunch is drawn: the kind of its source type, the most paths, the most
/// steps of a path, how many of 100 target types on the paths are lists, and
/// which paths clash.
#[derive(Debug, Clone, Copy)]
pub struct Plan {
    pub kind: Kind,
    pub members: usize,
    pub steps: usize,
    pub lists: usize,
    pub clashing: Clashing,
}

/// How the steps of paths leave a target type.
#[derive(Debug, Clone, Copy, PartialEq, Eq)]
pub enum Left {
    Sequence,
    Choice,
    OptionalChoice,
    List,
}

impl Left {
    /// Whether it is a choice of either kind.
    pub fn is_choice(self) -> bool {
        matches!(self, Left::Choice | Left::OptionalChoice)
    }
}

/// A place that steps lead to: how paths leave it, if they do, whether they left
/// a choice before, and where each step leads.
#[derive(Debug, Clone, Default)]
pub struct Stop {
    pub left: Option<Left>,
    passed: bool,
    pub onward: BTreeMap<u8, usize>,
}

/// Paths of one source type, and the stops on them. They start at stop 0, and no
/// stop is reached in two ways.
#[derive(Debug, Clone)]
pub struct Bunch {
    pub kind: Kind,
    pub stops: Vec<Stop>,
    pub paths: Vec<Vec<u8>>,
}

impl Bunch {
    /// The stops along a path, the start included.
    pub fn along(&self, path: &[u8]) -> Vec<usize> {
        let mut along = vec![0];
        let mut at = 0;
        for step in path {
            at = self.stops[at].onward[step];
            along.push(at);
        }
        along
    }

    /// The stop at the end of a path.
    pub fn end(&self, path: &[u8]) -> usize {
        path.iter().fold(0, |at, step| self.stops[at].onward[step])
    }

    /// Whether a path has the steps that it must have.
    fn is_complete(&self, path: &[u8]) -> bool {
        match self.kind {
            Kind::Sequence => !path.is_empty(),
            _ => self.stops[self.end(path)].passed,
        }
    }

    /// The steps that no path takes yet from a stop, up to a few more than those
    /// that are taken.
    fn free_steps(&self, at: usize, more: usize) -> Vec<u8> {
        let stop = &self.stops[at];
        let most = match stop.left {
            Some(Left::List) => 1,
            _ => (stop.onward.len() + more).min(MOST_MEMBERS),
        };
        (1..=most as u8).filter(|step| !stop.onward.contains_key(step)).collect()
    }
}

/// How many stops a bunch may have.
const MOST_STOPS: usize = 48;
/// How often a further path is tried for.
const TRIES: usize = 8;

/// A bunch drawn by a plan, if one is found: there may be fewer paths than the
/// plan has, but two at least.
pub fn random_bunch(rng: &mut Rng, plan: Plan) -> Option<Bunch> {
    let bunch = Bunch { kind: plan.kind, stops: vec![Stop::default()], paths: Vec::new() };
    let mut drawing = Drawing { rng, plan, bunch };
    let length = if drawing.rng.chance(50) { plan.steps } else { drawing.rng.between(1, plan.steps) };
    let first = drawing.lengthened(Vec::new(), length)?;
    drawing.bunch.paths.push(first);
    for number in 1..plan.members {
        let clashes = match plan.clashing {
            Clashing::None => false,
            Clashing::Last => number + 1 == plan.members,
            Clashing::Some(percent) => drawing.rng.chance(percent),
        };
        drawing.add(clashes);
    }
    let Drawing { rng, mut bunch, .. } = drawing;
    if matches!(plan.clashing, Clashing::Some(_)) {
        rng.shuffle(&mut bunch.paths);
    }
    (bunch.paths.len() > 1).then_some(bunch)
}

/// A bunch that is being drawn.
struct Drawing<'a> {
    rng: &'a mut Rng,
    plan: Plan,
    bunch: Bunch,
}

impl Drawing<'_> {
    /// Adds a path, if one is found. Half of the tries are for the reason that was
    /// drawn first, so that no reason is rare.
    fn add(&mut self, clashes: bool) {
        let first = self.reason();
        for number in 0..TRIES {
            let before = self.bunch.stops.clone();
            let base = self.rng.pick(&self.bunch.paths);
            let reason = if 2 * number < TRIES { first } else { self.reason() };
            let path = if clashes { self.clashing(base, reason) } else { self.free(base) };
            match path {
                Some(path) => return self.bunch.paths.push(path),
                None => self.bunch.stops = before,
            }
        }
    }

    /// A reason for which paths of this kind of source type can clash.
    fn reason(&mut self) -> Reason {
        let parts = if self.plan.kind == Kind::Sequence { 0 } else { 40 };
        Reason::ALL[self.rng.weighted(&[20, 20, 20, parts])]
    }

    /// A path that clashes with a given one.
    fn clashing(&mut self, base: Vec<u8>, reason: Reason) -> Option<Vec<u8>> {
        match reason {
            Reason::Equal => Some(base),
            Reason::EarlierBeginsLater => self.prolonged(base),
            Reason::LaterBeginsEarlier => self.cut(base),
            Reason::PartsAtSequence => self.parted(&base, |left| left == Left::Sequence),
        }
    }

    /// A path that clashes with none that the given one doesn't clash with.
    fn free(&mut self, base: Vec<u8>) -> Option<Vec<u8>> {
        match self.plan.kind {
            Kind::Sequence => self.parted(&base, |left| left == Left::Sequence),
            _ => self.parted(&base, Left::is_choice),
        }
    }

    /// A shorter beginning of a path.
    fn cut(&mut self, base: Vec<u8>) -> Option<Vec<u8>> {
        let lengths: Vec<usize> = (1..base.len()).filter(|&n| self.bunch.is_complete(&base[..n])).collect();
        let length = *lengths.get(self.rng.below(lengths.len()))?;
        Some(base[..length].to_vec())
    }

    /// A path that goes on from the end of another.
    fn prolonged(&mut self, base: Vec<u8>) -> Option<Vec<u8>> {
        let length = base.len() + self.rng.pick(&[1, 1, 2, 4]);
        let most = self.plan.steps.max(base.len() + 1);
        self.lengthened(base, length.min(most))
    }

    /// A path that parts from another where it leaves a stop as wanted, and goes
    /// its own way. Paths of an optional choice part no earlier than at a choice.
    fn parted(&mut self, base: &[u8], wanted: impl Fn(Left) -> bool) -> Option<Vec<u8>> {
        let along = self.bunch.along(base);
        let may_part = |&place: &usize| {
            let stop = &self.bunch.stops[along[place]];
            let late = stop.passed || stop.left.is_some_and(Left::is_choice);
            let late = late || self.plan.kind != Kind::OptionalChoice;
            late && stop.left.is_some_and(&wanted) && !self.bunch.free_steps(along[place], 2).is_empty()
        };
        let places: Vec<usize> = (0..base.len()).filter(may_part).collect();
        let place = *places.get(self.rng.below(places.len()))?;
        let more = self.rng.pick(&[1, 1, 1, 2, 3, self.plan.steps]);
        self.lengthened(base[..place].to_vec(), (place + more).min(self.plan.steps.max(place + 1)))
    }

    /// A path that goes on by steps not yet taken up to a length, or further
    /// where it still lacks a step that it must have.
    fn lengthened(&mut self, mut path: Vec<u8>, length: usize) -> Option<Vec<u8>> {
        while path.len() < length || !self.bunch.is_complete(&path) {
            if path.len() >= MOST_STEPS || self.bunch.stops.len() >= MOST_STOPS {
                return None;
            }
            let at = self.bunch.end(&path);
            let passed = self.bunch.stops[at].passed;
            let left = self.decide(at, !passed && path.len() + 1 >= length);
            let more = if left == Left::Sequence { self.rng.pick(&[1, 2, 4, 16]) } else { 2 };
            let free = self.bunch.free_steps(at, more);
            let step = *free.get(self.rng.below(free.len()))?;
            let next = self.bunch.stops.len();
            self.bunch.stops[at].onward.insert(step, next);
            self.bunch.stops.push(Stop { passed: passed || left.is_choice(), ..Stop::default() });
            path.push(step);
        }
        Some(path)
    }

    /// How paths leave a stop: as they do already, or drawn; `must` says that a
    /// path of a choice has to leave a choice here.
    fn decide(&mut self, at: usize, must: bool) -> Left {
        if let Some(left) = self.bunch.stops[at].left {
            return left;
        }
        let lists = self.plan.lists;
        let weights = match self.plan.kind {
            Kind::Sequence => [100 - lists, 0, 0, lists],
            Kind::Choice if must => [0, 50, 50, 0],
            Kind::OptionalChoice if must => [0, 0, 1, 0],
            Kind::OptionalChoice if !self.bunch.stops[at].passed => [30, 0, 60, lists],
            _ => [50, 30, 20, lists],
        };
        let left =
            [Left::Sequence, Left::Choice, Left::OptionalChoice, Left::List][self.rng.weighted(&weights)];
        self.bunch.stops[at].left = Some(left);
        left
    }
}
