//! Random tables whose types all have a finite instance.

use super::Rng;
use crate::table::{ContentModel, Table};

/// The greatest number of types and of members a type, and how many of 100
/// choices are optional; and of the embedding of such a table, how many of 100
/// types that the path of a choice leaves are lists.
#[derive(Debug, Clone, Copy)]
pub struct TableSize {
    pub types: usize,
    pub members: usize,
    pub optional: usize,
    pub lists: usize,
}

impl TableSize {
    /// Mostly small, sometimes up to the limits.
    pub fn random(rng: &mut Rng) -> TableSize {
        let (types, members) =
            rng.pick(&[(3, 3), (5, 3), (6, 4), (6, 4), (8, 4), (12, 6), (20, 8), (64, 16)]);
        TableSize { types, members, optional: rng.pick(&[0, 0, 40]), lists: rng.pick(&[0, 0, 15, 30]) }
    }
}

/// A valid table of 1 to `size.types` types.
pub fn random_table(rng: &mut Rng, size: TableSize) -> Table {
    let count = rng.between(1, size.types);
    let mut table = Table { types: Vec::new() };
    for number in 0..count {
        let model = random_model(rng, number, count, size);
        table.types.push(model);
    }
    if count < size.types && rng.chance(25) {
        repeat_type(rng, &mut table);
    }
    give_instances(rng, &mut table);
    table
}

/// The content model of a type in a table of `count` types.
fn random_model(rng: &mut Rng, number: usize, count: usize, size: TableSize) -> ContentModel {
    // The root and the first types rather have children.
    let late = 2 * number > count;
    let weights = if late { [25, 20, 20, 15, 20] } else { [4, 3, 45, 28, 20] };
    match rng.weighted(&weights) {
        0 => ContentModel::Text,
        1 => ContentModel::Empty,
        2 => {
            let members = rng.between(1, size.members);
            ContentModel::Sequence((0..members).map(|_| random_type(rng, number, count)).collect())
        }
        // The chance is drawn only where there is one, so that tables without
        // optional choices stay the same for a seed.
        3 if size.optional > 0 && rng.chance(size.optional) => {
            random_optional_choice(rng, number, count, size.members)
        }
        3 => random_choice(rng, number, count, size.members),
        _ => ContentModel::List(random_type(rng, number, count)),
    }
}

/// A type to name in type `number`: rather a later one, sometimes any.
fn random_type(rng: &mut Rng, number: usize, count: usize) -> u8 {
    let later = count - number - 1;
    if later > 0 && rng.chance(75) {
        return (number + 1 + rng.below(later.min(4))) as u8;
    }
    rng.below(count) as u8
}

/// A choice of distinct types, or a list where there are too few types.
fn random_choice(rng: &mut Rng, number: usize, count: usize, most: usize) -> ContentModel {
    let tries = rng.between(2, most.max(2));
    let members = distinct_types(rng, number, count, tries);
    match members.len() {
        1 => ContentModel::List(members[0]),
        _ => ContentModel::Choice(members),
    }
}

/// Some distinct types to name in type `number`, from so many tries.
fn distinct_types(rng: &mut Rng, number: usize, count: usize, tries: usize) -> Vec<u8> {
    let mut members: Vec<u8> = Vec::new();
    for _ in 0..tries {
        let member = random_type(rng, number, count);
        if !members.contains(&member) {
            members.push(member);
        }
    }
    members
}

/// An optional choice of distinct types: sometimes of as many as there may be.
fn random_optional_choice(rng: &mut Rng, number: usize, count: usize, most: usize) -> ContentModel {
    if rng.chance(15) {
        let mut members: Vec<u8> = (0..count as u8).collect();
        rng.shuffle(&mut members);
        members.truncate(most);
        return ContentModel::OptionalChoice(members);
    }
    let tries = rng.between(1, most);
    ContentModel::OptionalChoice(distinct_types(rng, number, count, tries))
}

/// Adds a type of the same content model as another one, and names it in some
/// place where the other one was named.
fn repeat_type(rng: &mut Rng, table: &mut Table) {
    let old = rng.below(table.types.len()) as u8;
    let new = table.types.len() as u8;
    table.types.push(table.types[old as usize].clone());
    for model in &mut table.types {
        match model {
            ContentModel::Sequence(members)
            | ContentModel::Choice(members)
            | ContentModel::OptionalChoice(members) => {
                let place = members.iter().position(|&member| member == old);
                if let (Some(place), true) = (place, rng.chance(60)) {
                    members[place] = new;
                }
            }
            ContentModel::List(item) if *item == old && rng.chance(30) => *item = new,
            _ => {}
        }
    }
}

/// Changes types without a finite instance until there are none.
fn give_instances(rng: &mut Rng, table: &mut Table) {
    while let Some(t) = table.heights().iter().position(Option::is_none) {
        let count = table.types.len();
        table.types[t] = match rng.below(4) {
            0 => ContentModel::Text,
            1 => ContentModel::Empty,
            _ => ContentModel::List(rng.below(count) as u8),
        };
    }
}

/// A table whose filler has `width` to the power of `height` elements: each
/// type is a sequence of so many of the next one.
pub fn tower(height: usize, width: usize) -> Table {
    let mut types: Vec<ContentModel> =
        (1..height).map(|next| ContentModel::Sequence(vec![next as u8; width])).collect();
    types.push(ContentModel::Empty);
    Table { types }
}
