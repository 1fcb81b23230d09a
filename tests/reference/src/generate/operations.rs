//! Random rows of operations on random tables, and such rows as documents, whole
//! and damaged.

use super::cases::random_output_length;
use super::damage::{
    damage_bytes, damage_commands, damage_table, drop_members, lengthen, make_too_long, repeat_member,
    set_named,
};
use super::embeddings::rename;
use super::tables::{random_table, tower, TableSize};
use super::Rng;
use crate::extension::{document_of, report, LoadedTable, Operation};
use crate::table::{self, ContentModel, Table};
use crate::vectors::operations::{Extension, Row};
use crate::{MOST_MEMBERS, MOST_TYPES, SOURCE};

/// A row of up to 40 operations on a table of mixed size.
pub fn random_row(rng: &mut Rng) -> Row {
    let table = random_start(rng);
    let weights = rng.pick(&HABITS);
    let most = rng.pick(&[1, 3, 6, 10, 16, 25, 40]);
    let count = rng.between(0, most);
    row_of(rng, table, weights, count)
}

/// A row of up to 4 operations with at most 50 bytes in all.
pub fn random_small_row(rng: &mut Rng) -> Row {
    loop {
        let (count, width) = (rng.between(1, 7), rng.between(1, 4));
        let table = match rng.chance(60) {
            true => random_table(rng, TableSize { types: 4, members: 3, optional: 40, lists: 0 }),
            false => {
                let types = random_layers(rng, count, width);
                reordered(rng, types)
            }
        };
        let weights = rng.pick(&HABITS);
        let count = rng.between(0, 4);
        let row = row_of(rng, table, weights, count);
        if row.table.len() + document_of(&row.operations).len() <= 50 {
            return row;
        }
    }
}

/// A row of up to 12 operations as documents, some of which are damaged, with an
/// output of about the length that is needed.
pub fn random_extension(rng: &mut Rng) -> Extension {
    let table = random_start(rng);
    let (weights, count) = (rng.pick(&HABITS), rng.between(0, 12));
    let row = row_of(rng, table, weights, count);
    let mut extension = damaged(rng, &row);
    if rng.below(100) == 0 {
        let at = rng.below(2);
        make_too_long(rng, &mut extension.documents[at]);
    }
    lend(rng, &mut extension);
    extension
}

/// The same of a small row.
pub fn random_small_extension(rng: &mut Rng) -> Extension {
    let row = random_small_row(rng);
    let mut extension = damaged(rng, &row);
    lend(rng, &mut extension);
    extension
}

/// A row as documents without an output, one of which is damaged in half of the
/// cases.
fn damaged(rng: &mut Rng, row: &Row) -> Extension {
    let mut extension = row.lent(0);
    let [table, operations] = &mut extension.documents;
    match rng.weighted(&[45, 25, 15, 10, 5]) {
        0 => {}
        1 => damage_bytes(rng, operations),
        2 => *operations = damage_operations(rng, &row.operations),
        3 => {
            let accepted = table::accept(table, SOURCE).expect("the table of a row is accepted");
            *table = damage_table(rng, &accepted);
        }
        _ => damage_bytes(rng, table),
    }
    extension
}

/// Lends an output of about the length that is needed.
fn lend(rng: &mut Rng, extension: &mut Extension) {
    let [table, operations] = &extension.documents;
    let needed = report(table, operations).map(|report| report.to_bytes().len());
    extension.output_length = random_output_length(rng, needed.ok());
}

/// A document of operations of which some lack bytes, or have too many.
fn damage_operations(rng: &mut Rng, operations: &[Operation]) -> Vec<u8> {
    let mut parts: Vec<Vec<u8>> = operations.iter().map(Operation::to_bytes).collect();
    let at = rng.below(parts.len());
    match parts.get_mut(at) {
        Some(part) => damage_bytes(rng, part),
        None => parts.push(vec![rng.pick(&[0x50, 0x51, 0x52, 0x53])]),
    }
    parts.concat()
}

/// How operations are drawn: by these ways, with weights.
const WAYS: [fn(&mut Rng, &LoadedTable) -> Operation; 5] =
    [new_type, faulty_type, lower_member, other_member, faulty_member];

/// The weights of those ways in a row: all of them, rather types, rather members,
/// or rather members that move numbers.
const HABITS: [[usize; 5]; 4] =
    [[25, 20, 20, 15, 20], [75, 15, 5, 0, 5], [5, 0, 15, 65, 15], [10, 0, 75, 10, 5]];

/// A row of so many operations on a table, each drawn for the table that the one
/// before left.
fn row_of(rng: &mut Rng, table: Table, weights: [usize; 5], count: usize) -> Row {
    let bytes = table.to_bytes();
    let mut loaded = LoadedTable::new(table);
    let mut operations = Vec::new();
    for _ in 0..count {
        let operation = WAYS[rng.weighted(&weights)](rng, &loaded);
        // A refused one leaves the table as it was.
        let _ = loaded.operate(&operation);
        operations.push(operation);
    }
    Row { table: bytes, operations }
}

/// A table to begin with: any, one of many layers, one with long filler, one of
/// about as many types as there may be, or one with large choices.
fn random_start(rng: &mut Rng) -> Table {
    let mut size = TableSize::random(rng);
    size.optional = rng.pick(&[0, 40]);
    let types = match rng.weighted(&[25, 35, 20, 10, 10]) {
        0 => {
            size.types = size.types.min(20);
            return random_table(rng, size);
        }
        1 => {
            let most = rng.pick(&[5, 10, 20, MOST_TYPES]);
            let count = rng.between(2, most);
            random_layers(rng, count, 3)
        }
        2 => long_filler(rng),
        3 => {
            let mut table = random_table(rng, size);
            let count = rng.between(MOST_TYPES - 6, MOST_TYPES);
            table.types.resize(count.max(table.types.len()), ContentModel::Empty);
            return table;
        }
        _ => large_choices(rng),
    };
    reordered(rng, types)
}

/// So many types, of which each but the last names later ones, most often the
/// next: a sequence of at most so many, or a choice that has an earlier one or
/// itself too.
fn random_layers(rng: &mut Rng, count: usize, width: usize) -> Vec<ContentModel> {
    let (next, lists) = (rng.pick(&[60, 90, 100]), rng.pick(&[0, 0, 5]));
    let mut types = Vec::new();
    for number in 0..count - 1 {
        let later = |rng: &mut Rng| match rng.chance(next) {
            true => number as u8 + 1,
            false => rng.between(number + 1, count - 1) as u8,
        };
        types.push(match rng.weighted(&[50, 45, lists]) {
            0 => ContentModel::Sequence((0..rng.between(1, width)).map(|_| later(rng)).collect()),
            1 => {
                let mut members = vec![later(rng), rng.between(0, number) as u8];
                members.extend(Some(later(rng)).filter(|third| rng.chance(40) && members[0] != *third));
                rng.shuffle(&mut members);
                ContentModel::Choice(members)
            }
            _ => ContentModel::List(later(rng)),
        });
    }
    types.push(rng.pick(&[ContentModel::Empty, ContentModel::Text]));
    types
}

/// Layers of types whose filler is longer than a document may be, or beside which
/// there are such types.
fn long_filler(rng: &mut Rng) -> Vec<ContentModel> {
    let (count, width) = (rng.between(5, 16), rng.pick(&[1, 1, MOST_MEMBERS]));
    let mut types = random_layers(rng, count, width);
    if width < MOST_MEMBERS {
        let beside = tower(rng.between(4, 7), rng.between(10, MOST_MEMBERS));
        types.extend(beside.types.iter().map(|model| rename(model, |t| t + count as u8)));
    }
    types
}

/// The table of some types in another order.
fn reordered(rng: &mut Rng, types: Vec<ContentModel>) -> Table {
    let mut new: Vec<u8> = (0..types.len() as u8).collect();
    rng.shuffle(&mut new);
    let mut table = Table { types: vec![ContentModel::Empty; types.len()] };
    for (model, &number) in types.iter().zip(&new) {
        table.types[number as usize] = rename(model, |t| new[t as usize]);
    }
    table
}

/// Choices of either kind with about as many members as there may be, above some
/// other types.
fn large_choices(rng: &mut Rng) -> Vec<ContentModel> {
    let (choices, others) = (rng.between(1, 4), rng.between(MOST_MEMBERS - 3, 24));
    let mut types = Vec::new();
    for _ in 0..choices {
        let mut members: Vec<u8> = (choices..choices + others).map(|member| member as u8).collect();
        rng.shuffle(&mut members);
        members.truncate(rng.between(MOST_MEMBERS - 3, MOST_MEMBERS));
        types.push(match rng.chance(50) {
            true => ContentModel::Choice(members),
            false => ContentModel::OptionalChoice(members),
        });
    }
    types.push(ContentModel::Empty);
    let sequence = ContentModel::Sequence(vec![choices as u8]);
    types.extend((1..others).map(|_| rng.pick(&[ContentModel::Text, sequence.clone()])));
    types
}

/// A type of any kind that names types that there are, or itself.
fn random_model(rng: &mut Rng, count: usize) -> ContentModel {
    let most = rng.pick(&[3, 3, 5, MOST_MEMBERS]);
    let any = |rng: &mut Rng| (if rng.chance(10) { count } else { rng.below(count) }) as u8;
    let mut distinct: Vec<u8> = (0..=count as u8).collect();
    rng.shuffle(&mut distinct);
    match rng.below(6) {
        0 => ContentModel::Text,
        1 => ContentModel::Empty,
        2 => ContentModel::List(any(rng)),
        3 => {
            let members = rng.between(1, most);
            ContentModel::Sequence((0..members).map(|_| any(rng)).collect())
        }
        4 => {
            distinct.truncate(rng.between(2, most));
            ContentModel::Choice(distinct)
        }
        _ => {
            distinct.truncate(rng.between(1, most));
            ContentModel::OptionalChoice(distinct)
        }
    }
}

/// Appends a type that is most often valid.
fn new_type(rng: &mut Rng, loaded: &LoadedTable) -> Operation {
    Operation::AppendType(random_model(rng, loaded.kept.len()).to_bytes())
}

/// Appends a type with too many members or too few, one that there isn't, one
/// twice or the type itself, or bytes that aren't exactly one type's commands.
fn faulty_type(rng: &mut Rng, loaded: &LoadedTable) -> Operation {
    let count = loaded.kept.len();
    let beyond = rng.pick(&[count + 1, count + 2, 0xFF]) as u8;
    let mut model = random_model(rng, count);
    for _ in 0..rng.pick(&[0, 1, 1, 2]) {
        match rng.below(6) {
            0 | 1 => lengthen(rng, &mut model, count + 1),
            2 => set_named(rng, &mut model, beyond),
            3 => repeat_member(rng, &mut model),
            4 => set_named(rng, &mut model, count as u8),
            _ => model = ContentModel::Choice(vec![rng.pick(&[count as u8, beyond]); 2]),
        }
    }
    if rng.chance(20) {
        drop_members(rng, &mut model);
    }
    let mut commands = model.to_bytes();
    match rng.below(8) {
        0 => commands.clear(),
        1 => commands.extend(rng.pick(&[&[0x1F][..], &[0x10], &[0x15, 0], &[0x14, 0]])),
        2 => damage_bytes(rng, &mut commands),
        3 => damage_commands(rng, &mut commands),
        _ => {}
    }
    Operation::AppendType(commands)
}

/// The choices of either kind that have room for a member.
fn choices_with_room(table: &Table) -> Vec<u8> {
    let types = table.types.iter().zip(0..);
    let room = types.filter(|(model, _)| model.is_choice() && model.named().len() < MOST_MEMBERS);
    room.map(|(_, t)| t).collect()
}

/// Appends to a needed choice a member that is lower than all it has, sometimes
/// the one with the longest filler; any other one where there is none.
fn lower_member(rng: &mut Rng, loaded: &LoadedTable) -> Operation {
    let LoadedTable { table, kept } = loaded;
    let needed = choices_with_room(table).into_iter().filter(|&t| !table.types[t as usize].is_optional());
    // The lowest member of a choice is one lower than the choice.
    let lower = |t: u8, member: u8| kept[member as usize].height + 1 < kept[t as usize].height;
    let types = 0..kept.len() as u8;
    let pairs =
        needed.flat_map(|t| types.clone().filter(move |&member| lower(t, member)).map(move |m| (t, m)));
    let pairs: Vec<(u8, u8)> = pairs.collect();
    let longest = pairs.iter().max_by_key(|(_, member)| kept[*member as usize].length);
    let drawn = pairs.get(rng.below(pairs.len()));
    match if rng.chance(25) { longest } else { drawn } {
        Some(&(extended, member)) => Operation::AppendMember { extended, member },
        None => other_member(rng, loaded),
    }
}

/// Appends to a choice of either kind a member that it has not, rather often the
/// choice itself; a type where there is none.
fn other_member(rng: &mut Rng, loaded: &LoadedTable) -> Operation {
    let choices = choices_with_room(&loaded.table);
    let Some(&extended) = choices.get(rng.below(choices.len())) else {
        return new_type(rng, loaded);
    };
    let has = loaded.table.types[extended as usize].named();
    let others: Vec<u8> = (0..loaded.kept.len() as u8).filter(|member| !has.contains(member)).collect();
    if others.is_empty() {
        return new_type(rng, loaded);
    }
    let itself = others.contains(&extended) && rng.chance(15);
    Operation::AppendMember { extended, member: if itself { extended } else { rng.pick(&others) } }
}

/// Appends a member to any type, or to one that there isn't: most often one that
/// there isn't or that the type has.
fn faulty_member(rng: &mut Rng, loaded: &LoadedTable) -> Operation {
    let types = &loaded.table.types;
    let count = types.len();
    let choices: Vec<u8> = (0..count as u8).filter(|&t| types[t as usize].is_choice()).collect();
    let largest = choices.iter().max_by_key(|&&t| types[t as usize].named().len());
    let beyond = |rng: &mut Rng| rng.pick(&[count, count + 1, 0xFF]) as u8;
    let extended = match (rng.below(5), largest) {
        (0, _) => beyond(rng),
        (1 | 2, Some(&largest)) => largest,
        (3, Some(_)) => rng.pick(&choices),
        _ => rng.below(count) as u8,
    };
    let has = types.get(extended as usize).map_or(&[][..], ContentModel::named);
    let member = match rng.below(3) {
        0 => beyond(rng),
        1 if !has.is_empty() => rng.pick(has),
        _ => rng.below(count) as u8,
    };
    Operation::AppendMember { extended, member }
}
