//! Documents with errors: damage to bytes and commands of any document, and
//! to tables, embeddings and trees in memory; and altered images.

use super::embeddings::{reroute, Embedded, Steps};
use super::trees::{forbidden_character, random_character, random_element, Shape};
use super::Rng;
use crate::embedding;
use crate::table::{ContentModel, Table};
use crate::tree::Element;
use crate::{MOST_BYTES, MOST_LEVELS, MOST_MEMBERS, MOST_STEPS, MOST_TYPES};

/// All command bytes.
const COMMANDS: [u8; 16] =
    [0x10, 0x11, 0x12, 0x13, 0x14, 0x15, 0x17, 0x1F, 0x20, 0x21, 0x22, 0x2F, 0x30, 0x31, 0x32, 0x3F];

/// Changes a few bytes of a document: changed, inserted, deleted, cut off or
/// appended.
pub fn damage_bytes(rng: &mut Rng, bytes: &mut Vec<u8>) {
    for _ in 0..rng.pick(&[1, 1, 1, 2, 3]) {
        let at = rng.below(bytes.len() + 1);
        let byte = match rng.below(4) {
            0 => rng.byte(),
            1 => rng.pick(&COMMANDS),
            2 => bytes.get(at).map_or(0x3F, |byte| byte.wrapping_add(1)),
            _ => rng.below(8) as u8,
        };
        match rng.weighted(&[50, 15, 15, 10, 10]) {
            0 if at < bytes.len() => bytes[at] = byte,
            1 if at < bytes.len() => {
                bytes.remove(at);
            }
            2 => bytes.truncate(at),
            3 => bytes.push(byte),
            _ => bytes.insert(at, byte),
        }
    }
}

/// Makes a document longer than 60,000 bytes.
pub fn make_too_long(rng: &mut Rng, bytes: &mut Vec<u8>) {
    let length = MOST_BYTES + rng.between(1, 3);
    let last = bytes.last().copied().unwrap_or(0);
    bytes.resize(length.max(bytes.len()), last);
}

/// The commands of a document, of whatever kind, each with its operand.
pub fn split_commands(bytes: &[u8]) -> Vec<Vec<u8>> {
    let mut commands = Vec::new();
    let mut rest = bytes;
    while let Some(code) = rest.first() {
        let length = if matches!(code, 0x14 | 0x15 | 0x20 | 0x22 | 0x30 | 0x31) { 2 } else { 1 };
        let (command, others) = rest.split_at(length.min(rest.len()));
        commands.push(command.to_vec());
        rest = others;
    }
    commands
}

/// Swaps, repeats, drops or moves commands, or changes an operand.
pub fn damage_commands(rng: &mut Rng, bytes: &mut Vec<u8>) {
    let mut commands = split_commands(bytes);
    if commands.is_empty() {
        return;
    }
    let (a, b) = (rng.below(commands.len()), rng.below(commands.len()));
    match rng.below(5) {
        0 => commands.swap(a, b),
        1 => commands.insert(a, commands[a].clone()),
        2 => {
            commands.remove(a);
        }
        3 => {
            let moved = commands.remove(a);
            commands.insert(b, moved);
        }
        _ => change_operand(rng, &mut commands),
    }
    *bytes = commands.concat();
}

/// Changes the operand of some command.
fn change_operand(rng: &mut Rng, commands: &mut [Vec<u8>]) {
    let mut with_operand: Vec<&mut Vec<u8>> = commands.iter_mut().filter(|c| c.len() == 2).collect();
    if with_operand.is_empty() {
        return;
    }
    let at = rng.below(with_operand.len());
    let old = with_operand[at][1];
    with_operand[at][1] = match rng.below(4) {
        0 => old.wrapping_add(1),
        1 => old.wrapping_sub(1),
        2 => rng.below(6) as u8,
        _ => rng.byte(),
    };
}

/// A table with an error of refusal 2, 3, 4, 5 or 6, or another valid one.
pub fn damage_table(rng: &mut Rng, table: &Table) -> Vec<u8> {
    let mut table = table.clone();
    let count = table.types.len();
    let t = type_to_damage(rng, &table);
    match rng.below(9) {
        0 => {
            let types = MOST_TYPES + rng.below(3);
            table.types.resize(types.max(count), ContentModel::Empty);
        }
        1 => lengthen(rng, &mut table.types[t], count),
        2 => set_named(rng, &mut table.types[t], count as u8),
        3 if table.types[t].is_choice() => repeat_member(rng, &mut table.types[t]),
        3 => {
            if let Some(model) = table.types.iter_mut().find(|model| model.is_choice()) {
                repeat_member(rng, model);
            } else {
                table.types[t] = ContentModel::Choice(vec![0, 0]);
            }
        }
        4 => {
            let other = rng.below(count);
            table.types[t] = ContentModel::Sequence(vec![other as u8]);
            table.types[other] = ContentModel::Sequence(vec![t as u8]);
        }
        5 => drop_members(rng, &mut table.types[t]),
        6 | 7 => change_kind(rng, &mut table.types[t]),
        _ => {
            let other = rng.below(count) as u8;
            set_named(rng, &mut table.types[t], other);
        }
    }
    table.to_bytes()
}

/// A type of a table; an optional choice in half of the cases where there is
/// one.
fn type_to_damage(rng: &mut Rng, table: &Table) -> usize {
    let types = 0..table.types.len();
    let optional: Vec<usize> = types.filter(|&t| table.types[t].is_optional()).collect();
    match !optional.is_empty() && rng.chance(50) {
        true => rng.pick(&optional),
        false => rng.below(table.types.len()),
    }
}

/// Takes members from a type, up to all of them.
pub(super) fn drop_members(rng: &mut Rng, model: &mut ContentModel) {
    if let ContentModel::Sequence(members)
    | ContentModel::Choice(members)
    | ContentModel::OptionalChoice(members) = model
    {
        let left = rng.pick(&[0, 0, 1, 2]);
        members.truncate(left);
    }
}

/// Makes a type of another kind of the types that it names. Repeated members
/// of a sequence are then repeated in a choice.
fn change_kind(rng: &mut Rng, model: &mut ContentModel) {
    let named = model.named().to_vec();
    if named.is_empty() {
        *model = ContentModel::Empty;
        return;
    }
    *model = match rng.below(5) {
        0 => ContentModel::Sequence(named),
        1 | 2 if named.len() > 1 => ContentModel::Choice(named),
        3 => ContentModel::List(named[0]),
        _ => ContentModel::OptionalChoice(named),
    };
}

/// Gives a type 16 or more members.
pub(super) fn lengthen(rng: &mut Rng, model: &mut ContentModel, count: usize) {
    let length = MOST_MEMBERS + rng.below(3);
    let in_order = || (0..length).map(|t| (t % count) as u8).collect();
    *model = match model {
        ContentModel::Choice(_) => ContentModel::Choice(in_order()),
        ContentModel::OptionalChoice(_) => ContentModel::OptionalChoice(in_order()),
        _ => ContentModel::Sequence((0..length).map(|_| rng.below(count) as u8).collect()),
    };
}

/// Replaces one of the types named in a model.
pub(super) fn set_named(rng: &mut Rng, model: &mut ContentModel, t: u8) {
    match model {
        ContentModel::Sequence(members)
        | ContentModel::Choice(members)
        | ContentModel::OptionalChoice(members) => {
            let place = rng.below(members.len());
            members[place] = t;
        }
        ContentModel::List(item) => *item = t,
        _ => *model = ContentModel::List(t),
    }
}

/// Names a member of a choice of either kind a second time.
pub(super) fn repeat_member(rng: &mut Rng, model: &mut ContentModel) {
    if let ContentModel::Choice(members) | ContentModel::OptionalChoice(members) = model {
        let member = rng.pick(members);
        let place = rng.between(1, members.len());
        members.insert(place, member);
    }
}

/// An embedding with an error of refusals 2 to 10, or another valid one. Each
/// refusal is tried for equally often, as some kinds of damage rarely give one.
pub fn damage_embedding(rng: &mut Rng, embedded: &Embedded) -> Vec<u8> {
    let wanted = rng.pick(&[2, 3, 4, 7, 8, 9, 9, 10, 10, 10]);
    let mut bytes = Vec::new();
    for _ in 0..12 {
        bytes = damage_embedding_once(rng, embedded);
        let judged = embedding::accept(&embedded.source, &embedded.target, &bytes);
        if judged.is_err_and(|refusal| refusal.number == wanted) {
            break;
        }
    }
    bytes
}

/// An embedding with one damaged place.
fn damage_embedding_once(rng: &mut Rng, embedded: &Embedded) -> Vec<u8> {
    let mut damaged = embedded.clone();
    let t = type_with_edges(rng, embedded);
    let edge = rng.below(embedded.source.types[t].edges());
    let target_types = embedded.target.types.len();
    match rng.weighted(&[8, 8, 8, 14, 10, 18, 18, 8, 6]) {
        0 => damaged.embedding.maps[0].target = rng.between(1, target_types) as u8,
        1 => {
            let t = rng.below(embedded.source.types.len());
            damaged.embedding.maps[t].target = rng.between(0, target_types) as u8;
        }
        2 => lengthen_path(rng, &mut damaged, t, edge),
        3 => change_steps(rng, &mut damaged, t, edge),
        4 => swap_paths(rng, &mut damaged, t),
        5 => copy_path(rng, &mut damaged),
        6 => reroute(rng, &mut damaged, t, edge, Steps::Any),
        7 => damaged.embedding.maps[t].paths.truncate(edge),
        _ => {
            damaged.embedding.maps.swap_remove(t);
        }
    }
    damaged.embedding.to_bytes()
}

/// Gives a path 12 or more steps.
fn lengthen_path(rng: &mut Rng, embedded: &mut Embedded, t: usize, edge: usize) {
    if let Some(path) = embedded.embedding.maps[t].paths.get_mut(edge) {
        let length = MOST_STEPS + rng.below(3);
        path.steps.resize(length.max(path.steps.len()), 1);
    }
}

/// A source type that has edges, if one is found; rather one with many.
fn type_with_edges(rng: &mut Rng, embedded: &Embedded) -> usize {
    let types = &embedded.source.types;
    let tries: Vec<usize> = (0..6).map(|_| rng.below(types.len())).collect();
    tries.into_iter().max_by_key(|&t| types[t].edges()).unwrap_or(0)
}

/// Adds, drops or changes a step of a path.
fn change_steps(rng: &mut Rng, embedded: &mut Embedded, t: usize, edge: usize) {
    let Some(path) = embedded.embedding.maps[t].paths.get_mut(edge) else {
        return;
    };
    let steps = &mut path.steps;
    let at = rng.below(steps.len());
    match rng.below(5) {
        0 => steps.push(rng.between(0, 3) as u8),
        1 => steps.clear(),
        2 => {
            steps.pop();
        }
        3 if !steps.is_empty() => steps.insert(at, steps[at]),
        _ if !steps.is_empty() => steps[at] = rng.between(0, 4) as u8,
        _ => {}
    }
}

/// Exchanges two paths of a type, or of two types.
fn swap_paths(rng: &mut Rng, embedded: &mut Embedded, t: usize) {
    let maps = &mut embedded.embedding.maps;
    let other = if rng.chance(70) { t } else { rng.below(maps.len()) };
    let (a, b) = (rng.below(maps[t].paths.len()), rng.below(maps[other].paths.len()));
    if maps[t].paths.is_empty() || maps[other].paths.is_empty() {
        return;
    }
    let first = maps[t].paths[a].steps.clone();
    let second = std::mem::replace(&mut maps[other].paths[b].steps, first);
    maps[t].paths[a].steps = second;
}

/// Takes two members of a type that are mapped alike, or maps them alike, and
/// gives the later one the path of the earlier one or any path to its end.
fn copy_path(rng: &mut Rng, embedded: &mut Embedded) {
    let pairs = member_pairs(embedded);
    let maps = &mut embedded.embedding.maps;
    let alike = |&(t, a, b): &(usize, usize, usize)| {
        let members = embedded.source.types[t].named();
        maps[members[a] as usize].target == maps[members[b] as usize].target
    };
    let mut chosen: Vec<_> = pairs.iter().copied().filter(alike).collect();
    if chosen.is_empty() {
        chosen = pairs;
    }
    if chosen.is_empty() {
        return;
    }
    let (t, earlier, later) = rng.pick(&chosen);
    let members = embedded.source.types[t].named();
    maps[members[later] as usize].target = maps[members[earlier] as usize].target;
    if rng.chance(50) {
        maps[t].paths[later].steps = maps[t].paths[earlier].steps.clone();
    } else {
        reroute(rng, embedded, t, later, Steps::Valid);
    }
}

/// All types with two of their members, the earlier one first.
fn member_pairs(embedded: &Embedded) -> Vec<(usize, usize, usize)> {
    let mut pairs = Vec::new();
    for (t, model) in embedded.source.types.iter().enumerate() {
        for later in 1..model.named().len() {
            pairs.extend((0..later).map(|earlier| (t, earlier, later)));
        }
    }
    pairs
}

/// A tree with one or more errors of refusals 2, 3, 4 or 11, or another
/// conforming one.
pub fn damage_tree(rng: &mut Rng, table: &Table, root: &Element) -> Vec<u8> {
    let mut root = root.clone();
    let is_deep = rng.chance(10);
    let errors = if is_deep { rng.pick(&[0, 1]) } else { rng.pick(&[1, 1, 1, 1, 1, 2]) };
    for _ in 0..errors {
        let element = random_descendant(rng, &mut root);
        damage_element(rng, table, element);
    }
    let mut bytes = root.to_bytes();
    if is_deep {
        make_too_deep(rng, table, &mut bytes);
    }
    if rng.chance(8) {
        damage_bytes(rng, &mut bytes);
    }
    bytes
}

/// Gives an element other children, a character or another type.
fn damage_element(rng: &mut Rng, table: &Table, element: &mut Element) {
    let count = element.children.len();
    let at = rng.below(count);
    match rng.weighted(&[1, 1, 1, 2, 2, 1, 1]) {
        0 if count > 0 => {
            element.children.remove(at);
        }
        1 if count > 0 => element.children.insert(at, element.children[at].clone()),
        2 if count > 1 => element.children.swap(at, count - 1),
        3 => element.characters.push(random_character(rng)),
        4 => element.characters.push(forbidden_character(rng)),
        5 => {
            let added = rng.below(table.types.len()) as u8;
            element.children.insert(at, Element::new(added));
        }
        _ => element.element_type = rng.below(table.types.len() + 1) as u8,
    }
}

/// Gives a tree document 128 or more levels, some of which needn't conform: as
/// the first or the last of what the root holds.
fn make_too_deep(rng: &mut Rng, table: &Table, bytes: &mut Vec<u8>) {
    let levels = MOST_LEVELS - 1 + rng.below(3);
    let t = rng.below(table.types.len() + 1) as u8;
    let chain = [[0x30, t].repeat(levels), vec![0x32; levels]].concat();
    let at = rng.pick(&[2, bytes.len() - 2]);
    bytes.splice(at..at, chain);
}

/// Any element of a tree.
fn random_descendant<'a>(rng: &mut Rng, element: &'a mut Element) -> &'a mut Element {
    if element.children.is_empty() || rng.chance(20) {
        return element;
    }
    let at = rng.below(element.children.len());
    random_descendant(rng, &mut element.children[at])
}

/// A tree that conforms to the table as the given one does, but differs in
/// some place: other characters, items added or dropped, another member of a
/// choice, an optional choice emptied, or another element of the same type.
pub fn alter(rng: &mut Rng, table: &Table, root: &Element) -> Element {
    let mut root = root.clone();
    let element = random_descendant(rng, &mut root);
    match &table.types[element.element_type as usize] {
        ContentModel::Text => alter_characters(rng, &mut element.characters),
        ContentModel::List(item) if rng.chance(70) => alter_items(rng, table, *item, &mut element.children),
        ContentModel::OptionalChoice(_) if !element.children.is_empty() && rng.chance(40) => {
            element.children.clear();
        }
        ContentModel::Choice(members) | ContentModel::OptionalChoice(members) if rng.chance(70) => {
            let member = rng.pick(members);
            if let Some(child) = other_element(rng, table, member) {
                element.children = vec![child];
            }
        }
        _ => {
            if let Some(other) = other_element(rng, table, element.element_type) {
                *element = other;
            }
        }
    }
    root
}

/// A small element of a type, if there is one.
pub(super) fn other_element(rng: &mut Rng, table: &Table, t: u8) -> Option<Element> {
    let shape = Shape { levels: 20, bytes: 300, deep: rng.chance(20), wide: false };
    random_element(rng, table, t, shape)
}

/// Adds, drops or changes a character.
pub(super) fn alter_characters(rng: &mut Rng, characters: &mut Vec<u8>) {
    let at = rng.below(characters.len());
    match rng.below(3) {
        0 if !characters.is_empty() => {
            characters.remove(at);
        }
        1 if !characters.is_empty() => characters[at] = random_character(rng),
        _ => characters.insert(at, random_character(rng)),
    }
}

/// Adds, repeats, exchanges or drops items.
fn alter_items(rng: &mut Rng, table: &Table, item: u8, items: &mut Vec<Element>) {
    let at = rng.below(items.len());
    match rng.below(4) {
        0 if !items.is_empty() => {
            items.remove(at);
        }
        1 if !items.is_empty() => items.insert(at, items[at].clone()),
        2 if items.len() > 1 => items.swap(0, at),
        _ => items.extend(other_element(rng, table, item)),
    }
}
