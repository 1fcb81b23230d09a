//! Random embeddings of which paths clash, for every reason, and others like
//! them; and questions with such embeddings, whole and damaged.

use super::bunches::{random_bunch, Bunch, Clashing, Kind, Left, Plan};
use super::cases::draw_case;
use super::damage::{damage_bytes, damage_commands, damage_embedding, damage_table, make_too_long};
use super::detours::part;
use super::embeddings::{random_embedded, rename, renumber, type_map, Embedded};
use super::tables::{random_table, TableSize};
use super::{Rng, Shape, World};
use crate::embedding::{walk, Embedding};
use crate::table::{self, ContentModel, Table};
use crate::vectors::explanations::Question;
use crate::vectors::Entry;
use crate::{MOST_STEPS, MOST_TYPES, SOURCE, TARGET};

/// A question over all answers: most of its embeddings clash.
pub fn random_question(rng: &mut Rng) -> Question {
    let embedded = match rng.weighted(&[50, 25, 25]) {
        0 => random_bunches(rng),
        1 => random_entangled(rng),
        _ => return natural_question(rng),
    };
    let mut documents = documents_of(&embedded);
    if rng.chance(12) {
        damage(rng, &embedded, &mut documents);
    }
    if rng.below(200) == 0 {
        let at = rng.below(3);
        make_too_long(rng, &mut documents[at]);
    }
    Question { documents }
}

/// A question whose documents have at most 100 bytes together.
pub fn random_small_question(rng: &mut Rng) -> Question {
    loop {
        let (members, steps) = (rng.between(2, 4), rng.between(1, 4));
        let embedded = match rng.chance(70) {
            true => bunch_alone(rng, members, steps),
            false => entangled(rng, TableSize { types: 4, members: 3, optional: 40, lists: 20 }),
        };
        let Some(embedded) = embedded else {
            continue;
        };
        let mut documents = documents_of(&embedded);
        if rng.chance(40) {
            damage(rng, &embedded, &mut documents);
        }
        if documents.iter().map(Vec::len).sum::<usize>() <= 100 {
            return Question { documents };
        }
    }
}

/// A question with the documents that judging an embedding is given in random
/// cases.
fn natural_question(rng: &mut Rng) -> Question {
    let (size, shape) = (TableSize::random(rng), Shape::small(rng));
    let world = World::random(rng, size, shape);
    let documents = draw_case(rng, &world, Entry::JudgeEmbedding).case.documents;
    Question { documents: documents.try_into().expect("three documents") }
}

/// The documents of two tables and an embedding.
fn documents_of(embedded: &Embedded) -> [Vec<u8>; 3] {
    [embedded.source.to_bytes(), embedded.target.to_bytes(), embedded.embedding.to_bytes()]
}

/// Damages one of the documents, the embedding rather than a table.
fn damage(rng: &mut Rng, embedded: &Embedded, documents: &mut [Vec<u8>; 3]) {
    let at = rng.weighted(&[25, 25, 50]);
    match (rng.below(4), at) {
        (0, _) => damage_bytes(rng, &mut documents[at]),
        (1, _) => damage_commands(rng, &mut documents[at]),
        (_, 0) => documents[0] = damage_table(rng, &embedded.source),
        (_, 1) => documents[1] = damage_table(rng, &embedded.target),
        _ => documents[2] = damage_embedding(rng, embedded),
    }
}

/// Whether both tables are valid.
fn has_valid_tables(embedded: &Embedded) -> bool {
    let [source, target, _] = documents_of(embedded);
    table::accept(&source, SOURCE).is_ok() && table::accept(&target, TARGET).is_ok()
}

/// Valid tables and an embedding that check 10 alone may refuse: one to three
/// types with a bunch of paths each, beside others or not.
pub fn random_bunches(rng: &mut Rng) -> Embedded {
    loop {
        let found = match rng.weighted(&[35, 35, 30]) {
            0 => {
                let (members, steps) = random_size(rng);
                bunch_alone(rng, members, steps)
            }
            1 => bunches_below_root(rng),
            _ => bunches_beside_world(rng),
        };
        if let Some(embedded) = found {
            return embedded;
        }
    }
}

/// The most members and the most steps of a bunch.
fn random_size(rng: &mut Rng) -> (usize, usize) {
    let (few, many) = (rng.between(2, 5), rng.between(6, 16));
    (rng.pick(&[few, few, many, many, 16]), rng.pick(&[1, 2, 3, 4, 6, 9, 12, 12]))
}

/// A bunch of at most so many members and steps.
fn bunch_of(rng: &mut Rng, members: usize, steps: usize) -> Option<Bunch> {
    let clashing = match rng.weighted(&[10, 50, 40]) {
        0 => Clashing::None,
        1 => Clashing::Last,
        _ => Clashing::Some(rng.pick(&[15, 40, 80])),
    };
    let (kind, lists) = (rng.pick(&Kind::ALL), rng.pick(&[0, 0, 15, 40]));
    random_bunch(rng, Plan { kind, members, steps, lists, clashing })
}

/// A source table whose root has a bunch of paths.
fn bunch_alone(rng: &mut Rng, members: usize, steps: usize) -> Option<Embedded> {
    let bunch = bunch_of(rng, members, steps)?;
    let mut growth = Growth::new(rng, empty_tables());
    growth.plant(&bunch)?;
    growth.finish()
}

/// A source table whose root is a sequence of one to three types with a bunch of
/// paths each.
fn bunches_below_root(rng: &mut Rng) -> Option<Embedded> {
    let count = rng.between(1, 3);
    let mut growth = Growth::new(rng, empty_tables());
    growth.new_target(ContentModel::Empty)?;
    growth.new_source(ContentModel::Empty, 0, Vec::new())?;
    let mut members = Vec::new();
    for _ in 0..count {
        members.push(growth.plant_random(count)?);
    }
    let Embedded { source, target, embedding } = &mut growth.embedded;
    let starts = members.iter().map(|&member| embedding.maps[member as usize].target).collect();
    target.types[0] = ContentModel::Sequence(starts);
    embedding.maps[0] = type_map(0, (1..=count as u8).map(|step| vec![step]).collect());
    source.types[0] = ContentModel::Sequence(members);
    growth.finish()
}

/// A random valid embedding, and beside its types one or two with a bunch of
/// paths each, which no tree reaches.
fn bunches_beside_world(rng: &mut Rng) -> Option<Embedded> {
    let size = TableSize { types: rng.pick(&[3, 5, 8]), members: 4, optional: 30, lists: 15 };
    let source = random_table(rng, size);
    let world = random_embedded(rng, &source, size);
    let count = rng.between(1, 2);
    let mut growth = Growth::new(rng, world);
    for _ in 0..count {
        growth.plant_random(count)?;
    }
    growth.finish()
}

/// Tables and an embedding without types.
fn empty_tables() -> Embedded {
    let empty = Table { types: Vec::new() };
    Embedded { source: empty.clone(), target: empty, embedding: Embedding { maps: Vec::new() } }
}

/// Tables and an embedding to which types are added.
struct Growth<'a> {
    rng: &'a mut Rng,
    embedded: Embedded,
    /// The target types at which paths may end, and which other members may have.
    ends: Vec<u8>,
}

impl<'a> Growth<'a> {
    /// Starts from some types, whose target types may all be ends.
    fn new(rng: &'a mut Rng, embedded: Embedded) -> Growth<'a> {
        let ends = (0..embedded.target.types.len() as u8).collect();
        Growth { rng, embedded, ends }
    }

    /// The tables and the embedding, with types in another order, if the tables
    /// are valid.
    fn finish(mut self) -> Option<Embedded> {
        if self.rng.chance(60) {
            renumber(self.rng, &mut self.embedded);
            renumber_source(self.rng, &mut self.embedded);
        }
        has_valid_tables(&self.embedded).then_some(self.embedded)
    }

    /// Adds a target type.
    fn new_target(&mut self, model: ContentModel) -> Option<u8> {
        let types = &mut self.embedded.target.types;
        types.push(model);
        (types.len() <= MOST_TYPES).then_some(types.len() as u8 - 1)
    }

    /// Adds a source type with its map.
    fn new_source(&mut self, model: ContentModel, target: u8, paths: Vec<Vec<u8>>) -> Option<u8> {
        let types = &mut self.embedded.source.types;
        types.push(model);
        self.embedded.embedding.maps.push(type_map(target, paths));
        (types.len() <= MOST_TYPES).then_some(types.len() as u8 - 1)
    }

    /// Adds a source type with a random bunch of paths, one of so many.
    fn plant_random(&mut self, of: usize) -> Option<u8> {
        let (members, steps) = random_size(self.rng);
        let bunch = bunch_of(self.rng, members.min(20 / of), steps)?;
        self.plant(&bunch)
    }

    /// Adds a source type with a bunch of paths, and what they go through.
    fn plant(&mut self, bunch: &Bunch) -> Option<u8> {
        let types = self.plant_stops(bunch)?;
        let source_type = self.new_source(ContentModel::Empty, types[0], Vec::new())?;
        let mut members = Vec::new();
        for path in &bunch.paths {
            let member = self.member(bunch.kind, types[bunch.end(path)], &members)?;
            members.push(member);
        }
        self.embedded.source.types[source_type as usize] = bunch.kind.model(members);
        self.embedded.embedding.maps[source_type as usize] = type_map(types[0], bunch.paths.clone());
        Some(source_type)
    }

    /// Adds a target type for each stop that paths leave, and gives the types of
    /// all stops.
    fn plant_stops(&mut self, bunch: &Bunch) -> Option<Vec<u8>> {
        let mut types = Vec::new();
        for stop in &bunch.stops {
            types.push(if stop.onward.is_empty() { 0 } else { self.new_target(ContentModel::Empty)? });
        }
        for (at, stop) in bunch.stops.iter().enumerate() {
            let Some(left) = stop.left.filter(|_| !stop.onward.is_empty()) else {
                continue;
            };
            let mut members: Vec<u8> = Vec::new();
            let inner = stop.onward.values().filter(|&&next| !bunch.stops[next].onward.is_empty());
            let besides: Vec<u8> = inner.map(|&next| types[next]).collect();
            for step in 1..=self.width(bunch, at, left) {
                let next = stop.onward.get(&step).copied();
                let through = next.filter(|&next| !bunch.stops[next].onward.is_empty());
                members.push(match through {
                    Some(next) => types[next],
                    None => self.end(&[&members[..], &besides].concat(), left)?,
                });
                next.into_iter().for_each(|next| types[next] = members[step as usize - 1]);
            }
            self.embedded.target.types[types[at] as usize] = model_of(left, members);
        }
        Some(types)
    }

    /// How many members the type of a stop has: those that paths need, and
    /// sometimes more.
    fn width(&mut self, bunch: &Bunch, at: usize, left: Left) -> u8 {
        let needed = bunch.stops[at].onward.keys().max().copied().unwrap_or(1);
        let more = self.rng.pick(&[0, 0, 0, 1]);
        match left {
            Left::List => 1,
            Left::Choice => (needed + more).clamp(2, 16),
            _ => (needed + more).min(16),
        }
    }

    /// A target type for a member at which a path may end. In a choice it is none
    /// of the other members.
    fn end(&mut self, others: &[u8], left: Left) -> Option<u8> {
        let mut ends = self.ends.clone();
        ends.retain(|end| !left.is_choice() || !others.contains(end));
        if !ends.is_empty() && self.rng.chance(75) {
            return Some(self.rng.pick(&ends));
        }
        let model = self.rng.pick(&[ContentModel::Text, ContentModel::Empty]);
        let end = self.new_target(model)?;
        self.ends.push(end);
        Some(end)
    }

    /// A source type that is mapped to a target type: one that there is, or a new
    /// one. In a choice it is none of the other members.
    fn member(&mut self, kind: Kind, end: u8, others: &[u8]) -> Option<u8> {
        let maps = self.embedded.embedding.maps.iter().zip(0u8..);
        let there = maps.filter(|(map, _)| map.target == end).map(|(_, member)| member);
        let may_be = |member: &u8| kind == Kind::Sequence || !others.contains(member);
        let there: Vec<u8> = there.filter(may_be).collect();
        if !there.is_empty() && self.rng.chance(75) {
            return Some(self.rng.pick(&there));
        }
        let is_text = self.embedded.target.types[end as usize] == ContentModel::Text;
        match is_text && self.rng.chance(50) {
            true => self.new_source(ContentModel::Text, end, vec![Vec::new()]),
            false => self.new_source(ContentModel::Empty, end, Vec::new()),
        }
    }
}

/// The content model of a target type that paths leave.
fn model_of(left: Left, members: Vec<u8>) -> ContentModel {
    match left {
        Left::Sequence => ContentModel::Sequence(members),
        Left::Choice => ContentModel::Choice(members),
        Left::OptionalChoice => ContentModel::OptionalChoice(members),
        Left::List => ContentModel::List(members[0]),
    }
}

/// Puts the source types, but for the root, in another order.
fn renumber_source(rng: &mut Rng, embedded: &mut Embedded) {
    let mut new: Vec<u8> = (0..embedded.source.types.len() as u8).collect();
    rng.shuffle(&mut new[1..]);
    let (types, maps) = (embedded.source.types.clone(), embedded.embedding.maps.clone());
    for (old, &number) in new.iter().enumerate() {
        embedded.source.types[number as usize] = rename(&types[old], |t| new[t as usize]);
        embedded.embedding.maps[number as usize] = maps[old].clone();
    }
}

/// Valid tables and an embedding of mixed size, with paths led after others of
/// the same type.
fn random_entangled(rng: &mut Rng) -> Embedded {
    loop {
        let mut size = TableSize::random(rng);
        size.types = size.types.min(20);
        if let Some(embedded) = entangled(rng, size) {
            return embedded;
        }
    }
}

/// A random valid embedding with one to three paths led after others of the same
/// type, if the tables stay valid.
fn entangled(rng: &mut Rng, size: TableSize) -> Option<Embedded> {
    let source = random_table(rng, size);
    let mut embedded = random_embedded(rng, &source, size);
    for _ in 0..rng.pick(&[1, 1, 2, 3]) {
        entangle(rng, &mut embedded)?;
    }
    has_valid_tables(&embedded).then_some(embedded)
}

/// Leads the path of a member after that of another member: by the same steps, by
/// fewer or more, or parting at a sequence.
fn entangle(rng: &mut Rng, embedded: &mut Embedded) -> Option<()> {
    let types = 0..embedded.source.types.len();
    let of_two: Vec<usize> = types.filter(|&t| embedded.source.types[t].named().len() > 1).collect();
    let t = *of_two.get(rng.below(of_two.len()))?;
    let edges = embedded.source.types[t].edges();
    let base = rng.below(edges);
    let edge = (base + 1 + rng.below(edges - 1)) % edges;
    let mut steps = embedded.embedding.maps[t].paths[base].steps.clone();
    match rng.below(4) {
        0 => {}
        1 => steps.truncate(rng.between(1, steps.len().max(2) - 1)),
        2 => prolong(rng, embedded, t, &mut steps)?,
        _ => steps = part(rng, embedded, t, base)?,
    }
    lead(embedded, t, edge, steps)
}

/// Adds one to three steps to a path, of those that lead on from its end.
fn prolong(rng: &mut Rng, embedded: &Embedded, t: usize, steps: &mut Vec<u8>) -> Option<()> {
    for _ in 0..rng.between(1, 3) {
        let along = walk(&embedded.target, embedded.embedding.maps[t].target, steps).ok()?;
        let onward = embedded.target.types[*along.last()? as usize].named().len();
        if onward == 0 || steps.len() >= MOST_STEPS {
            break;
        }
        steps.push(rng.between(1, onward) as u8);
    }
    Some(())
}

/// Gives a member a path, and makes the member of a type that is mapped to its
/// end: one that there is, or a new empty one.
fn lead(embedded: &mut Embedded, t: usize, edge: usize, steps: Vec<u8>) -> Option<()> {
    let Embedded { source, target, embedding } = embedded;
    let end = *walk(target, embedding.maps[t].target, &steps).ok()?.last()?;
    embedding.maps[t].paths[edge].steps = steps;
    let is_choice = source.types[t].is_choice();
    let named = source.types[t].named().to_vec();
    let other = |member: &u8| !is_choice || named[edge] == *member || !named.contains(member);
    let mut there = (0..source.types.len() as u8).filter(other);
    let member = there.find(|&member| embedding.maps[member as usize].target == end);
    let member = member.unwrap_or_else(|| {
        source.types.push(ContentModel::Empty);
        embedding.maps.push(type_map(end, Vec::new()));
        source.types.len() as u8 - 1
    });
    if let ContentModel::Sequence(members)
    | ContentModel::Choice(members)
    | ContentModel::OptionalChoice(members) = &mut source.types[t]
    {
        members[edge] = member;
    }
    (source.types.len() <= MOST_TYPES).then_some(())
}
