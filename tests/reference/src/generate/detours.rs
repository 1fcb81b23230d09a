//! Paths changed together with the target table that they lead through. Every
//! step exists and every path ends at the right type, so that what is judged is
//! the kinds of steps and how paths part.

use super::embeddings::Embedded;
use super::Rng;
use crate::embedding::walk;
use crate::table::{ContentModel, Table};
use crate::{MOST_MEMBERS, MOST_STEPS, MOST_TYPES};
use std::mem::discriminant;

/// The same tables and embedding with one path led otherwise, if that can be.
pub fn change_path(rng: &mut Rng, embedded: &Embedded) -> Option<Embedded> {
    let mut changed = embedded.clone();
    let t = type_to_change(rng, embedded)?;
    let edges = embedded.source.types[t].edges();
    let edge = rng.below(edges);
    let other = (edge + 1 + rng.below(edges - 1)) % edges;
    let steps = match rng.weighted(&[30, 15, 20, 30]) {
        0 => part(rng, &mut changed, t, edge),
        1 => shortcut(rng, &mut changed, t, edge),
        2 if other != edge => prolong(&mut changed, t, edge, other),
        _ => detour(rng, &mut changed, t, edge),
    }?;
    changed.embedding.maps[t].paths[edge].steps = steps;
    Some(changed)
}

/// A source type of which a path has steps. First a kind is drawn, so that each
/// kind of type is as frequent as the others.
fn type_to_change(rng: &mut Rng, embedded: &Embedded) -> Option<usize> {
    let maps = embedded.embedding.maps.iter().enumerate();
    let with_steps = maps.filter(|(_, map)| map.paths.iter().any(|path| !path.steps.is_empty()));
    let mut types: Vec<usize> = with_steps.map(|(t, _)| t).collect();
    let kind = |t: usize| discriminant(&embedded.source.types[t]);
    let mut kinds = Vec::new();
    for &t in &types {
        if !kinds.contains(&kind(t)) {
            kinds.push(kind(t));
        }
    }
    let wanted = *kinds.get(rng.below(kinds.len()))?;
    types.retain(|&t| kind(t) == wanted);
    Some(rng.pick(&types))
}

/// The types along a path of an embedding, the start included.
fn along(embedded: &Embedded, t: usize, edge: usize) -> Vec<u8> {
    let map = &embedded.embedding.maps[t];
    walk(&embedded.target, map.target, &map.paths[edge].steps).expect("a valid path")
}

/// Gives a sequence or choice one more member, and that member's step.
fn add_member(target: &mut Table, at: u8, member: u8) -> Option<u8> {
    match &mut target.types[at as usize] {
        ContentModel::Choice(members) | ContentModel::OptionalChoice(members)
            if members.contains(&member) =>
        {
            None
        }
        ContentModel::Sequence(members)
        | ContentModel::Choice(members)
        | ContentModel::OptionalChoice(members)
            if members.len() < MOST_MEMBERS =>
        {
            members.push(member);
            Some(members.len() as u8)
        }
        _ => None,
    }
}

/// The path with one of its steps from a sequence led through a further member
/// of the same type.
pub(super) fn part(rng: &mut Rng, embedded: &mut Embedded, t: usize, edge: usize) -> Option<Vec<u8>> {
    let along = along(embedded, t, edge);
    let mut steps = embedded.embedding.maps[t].paths[edge].steps.clone();
    let target = &mut embedded.target;
    let is_sequence = |&at: &usize| matches!(target.types[along[at] as usize], ContentModel::Sequence(_));
    let places: Vec<usize> = (0..steps.len()).filter(is_sequence).collect();
    let at = *places.get(rng.below(places.len()))?;
    steps[at] = add_member(target, along[at], along[at + 1])?;
    Some(steps)
}

/// The path with one of its steps led through a further member, by up to three
/// new types of any kind, the last of which leads on to where the step led.
fn detour(rng: &mut Rng, embedded: &mut Embedded, t: usize, edge: usize) -> Option<Vec<u8>> {
    let along = along(embedded, t, edge);
    let mut steps = embedded.embedding.maps[t].paths[edge].steps.clone();
    let target = &mut embedded.target;
    let (first, count) = (target.types.len(), rng.between(1, 3));
    if steps.is_empty() || steps.len() + count > MOST_STEPS || first + count > MOST_TYPES {
        return None;
    }
    let at = rng.below(steps.len());
    steps[at] = add_member(target, along[at], first as u8)?;
    for new in first..first + count {
        let next = if new + 1 < first + count { new as u8 + 1 } else { along[at + 1] };
        steps.insert(at + 1, 1);
        target.types.push(match rng.weighted(&[10, 25, 40, 25]) {
            0 => ContentModel::Sequence(vec![next]),
            1 => ContentModel::Choice(vec![next, new as u8]),
            2 => ContentModel::OptionalChoice(vec![next]),
            _ => ContentModel::List(next),
        });
    }
    Some(steps)
}

/// The path that goes from the first type but lists that it leaves straight to
/// its end, or there by a new list.
fn shortcut(rng: &mut Rng, embedded: &mut Embedded, t: usize, edge: usize) -> Option<Vec<u8>> {
    let along = along(embedded, t, edge);
    let target = &mut embedded.target;
    let (end, new) = (*along.last()?, target.types.len());
    let mut steps = embedded.embedding.maps[t].paths[edge].steps.clone();
    let at = (0..steps.len()).find(|&at| !target.types[along[at] as usize].is_list())?;
    steps.truncate(at);
    if rng.chance(50) && new < MOST_TYPES && at + 2 <= MOST_STEPS {
        target.types.push(ContentModel::List(end));
        steps.extend([add_member(target, along[at], new as u8)?, 1]);
    } else {
        steps.push(add_member(target, along[at], end)?);
    }
    Some(steps)
}

/// The path that goes on where that of another edge ends.
fn prolong(embedded: &mut Embedded, t: usize, edge: usize, other: usize) -> Option<Vec<u8>> {
    let (from, end) = (*along(embedded, t, other).last()?, *along(embedded, t, edge).last()?);
    let mut steps = embedded.embedding.maps[t].paths[other].steps.clone();
    steps.push(add_member(&mut embedded.target, from, end)?);
    (steps.len() <= MOST_STEPS).then_some(steps)
}
