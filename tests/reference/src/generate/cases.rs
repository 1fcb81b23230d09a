//! Random cases: an entry with its documents and the length of its output.

use super::damage::{
    alter, damage_bytes, damage_commands, damage_embedding, damage_table, damage_tree, make_too_long,
};
use super::detours::change_path;
use super::edits::Edits;
use super::embeddings::{random_embedded, Embedded};
use super::tables::{random_table, TableSize};
use super::trees::{pad, random_accent, random_tree, recursive_types, Shape};
use super::Rng;
use crate::clauses::characters::{has_accent, is_tree_judged};
use crate::clauses::has_optional;
use crate::clauses::lists::has_list_on_choice;
use crate::image::Mapping;
use crate::places::{element_at, places_of};
use crate::table::ContentModel;
use crate::tree::{self, Element};
use crate::vectors::{Answer, Case, Entry};
use crate::{MOST_BYTES, MOST_LEVELS};

/// Two tables, a valid embedding and a conforming source tree.
#[derive(Debug, Clone)]
pub struct World {
    pub embedded: Embedded,
    pub tree: Element,
}

/// How a document of a case was made from those of its world.
#[derive(Debug, Clone, Copy, PartialEq, Eq, PartialOrd, Ord)]
pub enum Made {
    /// It is the world's table, embedding, tree or image.
    Whole,
    /// It is altered, most often to another valid document.
    Altered,
    /// It is damaged: bytes, commands or parts of it are changed, left out or
    /// put in.
    Damaged,
    /// It was not made from the world's document: another tree, a document of
    /// another kind, random commands or bytes.
    Other,
}

impl Made {
    /// How it is made once it is damaged.
    pub fn damaged(self) -> Made {
        match self {
            Made::Other => Made::Other,
            _ => Made::Damaged,
        }
    }
}

/// A case, and how each of its documents was made.
#[derive(Debug, Clone)]
pub struct Drawn {
    pub case: Case,
    pub made: Vec<Made>,
}

impl World {
    /// A world with tables of a size and a tree of a shape.
    pub fn random(rng: &mut Rng, size: TableSize, shape: Shape) -> World {
        loop {
            let source = random_table(rng, size);
            if let Some(tree) = random_tree(rng, &source, shape) {
                return World { embedded: random_embedded(rng, &source, size), tree };
            }
        }
    }

    /// A world of mixed size, sometimes near the limits.
    pub fn mixed(rng: &mut Rng) -> World {
        let size = TableSize::random(rng);
        let shape = match rng.weighted(&[81, 10, 1, 7, 1]) {
            0 => Shape::small(rng),
            1 => Shape::deep(rng),
            2 => Shape::wide(rng),
            3 => return World::at_most_levels(rng, size),
            _ => return World::at_most_bytes(rng, size),
        };
        World::random(rng, size, shape)
    }

    /// A world of mixed size, one with an optional choice, one with lists on the
    /// paths of choices, or one with accents, as often as these weights say.
    pub fn varied(rng: &mut Rng, weights: [usize; 4]) -> World {
        match rng.weighted(&weights) {
            0 => World::mixed(rng),
            1 => World::optional(rng),
            2 => World::listed(rng),
            _ => World::accented(rng),
        }
    }

    /// A world of mixed size with an optional choice in one of its tables.
    pub fn optional(rng: &mut Rng) -> World {
        let mut size = TableSize::random(rng);
        size.optional = rng.pick(&[40, 70, 100]);
        World::first(rng, size, Embedded::has_optional)
    }

    /// A world of mixed size with a list on the path of a choice of either
    /// kind. Half of these worlds have an optional choice in one of their
    /// tables.
    pub fn listed(rng: &mut Rng) -> World {
        let mut size = TableSize::random(rng);
        size.optional = rng.pick(&[0, 0, 0, 40, 70, 100]);
        size.lists = rng.pick(&[30, 50, 70]);
        World::first(rng, size, |embedded| {
            embedded.has_list_on_choice() && (size.optional == 0 || embedded.has_optional())
        })
    }

    /// A world with an accent in its source tree: of mixed size, with an
    /// optional choice in one of its tables, or small.
    pub fn accented(rng: &mut Rng) -> World {
        loop {
            let mut world = match rng.weighted(&[30, 45, 25]) {
                0 => World::mixed(rng),
                1 => World::optional(rng),
                _ => {
                    let (size, shape) = (TableSize::random(rng), Shape::small(rng));
                    World::random(rng, size, shape)
                }
            };
            if world.add_accent(rng) {
                return world;
            }
        }
    }

    /// Puts an accent into some text of the source tree; false if there is none.
    fn add_accent(&mut self, rng: &mut Rng) -> bool {
        let texts = self.texts();
        let Some(place) = texts.get(rng.below(texts.len())) else {
            return false;
        };
        let characters = &mut element_at(&mut self.tree, place).characters;
        characters.insert(rng.between(0, characters.len()), random_accent(rng));
        true
    }

    /// The first of some random worlds whose embedding passes a test.
    fn first(rng: &mut Rng, size: TableSize, test: impl Fn(&Embedded) -> bool) -> World {
        let shape = if rng.chance(90) { Shape::small(rng) } else { Shape::deep(rng) };
        loop {
            let world = World::random(rng, size, shape);
            if test(&world.embedded) {
                return world;
            }
        }
    }

    /// The first of some random worlds for which a test holds, else the last.
    fn found(rng: &mut Rng, size: TableSize, shape: Shape, test: impl Fn(&World) -> bool) -> World {
        let mut world = World::random(rng, size, shape);
        for _ in 0..20 {
            if test(&world) {
                break;
            }
            world = World::random(rng, size, shape);
        }
        world
    }

    /// A world whose image has about the greatest number of levels, where the
    /// source table lets trees be that deep.
    pub fn at_most_levels(rng: &mut Rng, size: TableSize) -> World {
        let mut shape = Shape { levels: 30, bytes: 800, deep: true, wide: false };
        let mut world = World::found(rng, size, shape, |world| recursive_types(&world.embedded.source)[0]);
        let (mut low, mut high) = (1, MOST_LEVELS);
        while low < high {
            shape.levels = (low + high).div_ceil(2);
            let Some(tree) = random_tree(rng, &world.embedded.source, shape) else {
                low = shape.levels;
                continue;
            };
            world.tree = tree;
            match world.measure().0 <= MOST_LEVELS as u64 {
                true => low = shape.levels,
                false => high = shape.levels - 1,
            }
        }
        world
    }

    /// A world whose source or image has about the greatest length, where the
    /// source tree has a text element.
    pub fn at_most_bytes(rng: &mut Rng, size: TableSize) -> World {
        let shape = Shape::small(rng);
        let mut world = World::found(rng, size, shape, |world| !world.texts().is_empty());
        let source = world.tree.to_bytes().len();
        let image = world.measure().1.min(u64::MAX / 2) as usize;
        let length = if rng.chance(60) { image } else { source };
        let more = rng.below(2);
        let count = MOST_BYTES.saturating_sub(length) / 2 + more;
        pad(rng, &world.embedded.source, &mut world.tree, count);
        world
    }

    /// The places of the text elements of the source tree.
    fn texts(&self) -> Vec<Vec<usize>> {
        places_of(&self.embedded.source, &self.tree, |model| *model == ContentModel::Text)
    }

    /// The embedding prepared for carrying.
    pub fn mapping(&self) -> Mapping {
        let Embedded { source, target, embedding } = &self.embedded;
        Mapping::new(source, target, embedding)
    }

    /// Levels and length of the image.
    pub fn measure(&self) -> (u64, u64) {
        let mapping = self.mapping();
        let measure = mapping.measure(&self.tree);
        (measure.levels, measure.length)
    }

    /// The image, if it keeps within the limits.
    pub fn image(&self) -> Option<Element> {
        let mut output = vec![0; MOST_BYTES];
        let carried = self.mapping().carry(&self.tree, &mut output).ok()?;
        Some(tree::build(&output[..carried.length as usize]))
    }

    /// The tables, the embedding and the source tree.
    pub(super) fn all_documents(&self) -> [Vec<u8>; 4] {
        let Embedded { source, target, embedding } = &self.embedded;
        [source.to_bytes(), target.to_bytes(), embedding.to_bytes(), self.tree.to_bytes()]
    }

    /// A case of an entry whose output has no bytes. Its documents are valid;
    /// for bringing back and reading along there is an image or another tree that
    /// conforms to the target table.
    pub fn draw_documents(&self, rng: &mut Rng, entry: Entry) -> Drawn {
        let all = self.all_documents();
        let documents = match entry {
            Entry::JudgeTable => vec![all[rng.below(2)].clone()],
            Entry::JudgeTree => vec![all[0].clone(), all[3].clone()],
            Entry::JudgeEmbedding => all[..3].to_vec(),
            Entry::Carry | Entry::BringBack | Entry::ReadAlong => all.to_vec(),
        };
        let mut made = vec![Made::Whole; documents.len()];
        let mut case = Case { entry, documents, output_length: 0 };
        if entry.is_given_target() {
            (case.documents[3], made[3]) = match entry {
                Entry::BringBack => self.draw_image(rng),
                _ => self.draw_edited(rng),
            };
        }
        Drawn { case, made }
    }

    /// A tree to bring back: the image, an altered image or a random tree.
    fn draw_image(&self, rng: &mut Rng) -> (Vec<u8>, Made) {
        let target = &self.embedded.target;
        let shape = Shape::small(rng);
        let image = self.image();
        let (tree, made) = match (image, rng.weighted(&[50, 40, 10])) {
            (Some(image), 0) => (image, Made::Whole),
            (Some(image), 1) => (alter(rng, target, &image), Made::Altered),
            _ => (random_tree(rng, target, shape).unwrap_or(self.tree.clone()), Made::Other),
        };
        (tree.to_bytes(), made)
    }

    /// A tree to read along: the image, an edited image or a random tree.
    fn draw_edited(&self, rng: &mut Rng) -> (Vec<u8>, Made) {
        match Edits::of(self) {
            Some(edits) if rng.chance(30) => (edits.image.to_bytes(), Made::Whole),
            Some(edits) => (edits.draw(rng).to_bytes(), Made::Altered),
            None => self.draw_image(rng),
        }
    }

    /// Whether a document in a place of an entry is the world's: for judging a
    /// table either one, for bringing back and reading along the image.
    fn is_own(&self, entry: Entry, at: usize, document: &[u8]) -> bool {
        let own = self.all_documents();
        match (entry, at) {
            (Entry::JudgeTable, _) => own[0] == document || own[1] == document,
            (Entry::JudgeTree, 1) => own[3] == document,
            (Entry::BringBack | Entry::ReadAlong, 3) => {
                self.image().is_some_and(|image| image.to_bytes() == document)
            }
            _ => own[at] == document,
        }
    }
}

impl Drawn {
    /// Says of documents that were changed, and are the world's again, that
    /// they are whole.
    pub fn settled(mut self, world: &World) -> Drawn {
        for (at, document) in self.case.documents.iter().enumerate() {
            if self.made[at] != Made::Whole && world.is_own(self.case.entry, at, document) {
                self.made[at] = Made::Whole;
            }
        }
        self
    }
}

/// A case over all entries, refusals and sizes. Most documents have some
/// hundred bytes, a few up to 60,000.
pub fn random_case(rng: &mut Rng) -> Case {
    let world = World::mixed(rng);
    let entry = Entry::ALL[rng.weighted(&[10, 20, 14, 32, 24])];
    case_of(rng, &world, entry)
}

/// A case whose documents have at most 60 bytes together.
pub fn random_small_case(rng: &mut Rng) -> Case {
    loop {
        let bytes = rng.pick(&[4, 8, 12, 20]);
        let (optional, lists) = (rng.pick(&[0, 0, 40]), rng.pick(&[0, 0, 30]));
        let size = TableSize { types: rng.between(1, 4), members: 2, optional, lists };
        let shape = Shape { levels: 6, bytes, deep: rng.chance(30), wide: false };
        let world = World::random(rng, size, shape);
        // Tables of one type would else be most of those that fit.
        if world.embedded.source.types.len() == 1 && rng.chance(75) {
            continue;
        }
        let entry = Entry::ALL[rng.weighted(&[6, 24, 12, 30, 28])];
        let case = case_of(rng, &world, entry);
        if case.documents.iter().map(Vec::len).sum::<usize>() <= 60 {
            return case;
        }
    }
}

/// A case with an optional choice in one of its tables, whose documents have at
/// most 60 bytes each and 110 together.
pub fn random_small_optional_case(rng: &mut Rng) -> Case {
    let entries = [6, 24, 12, 30, 28];
    random_small_case_of(rng, entries, |rng| (80, rng.pick(&[0, 0, 15, 30])), has_optional)
}

/// A case with a list on the path of a choice of either kind, of the same size.
pub fn random_small_listed_case(rng: &mut Rng) -> Case {
    random_small_case_of(rng, [0, 24, 0, 32, 44], |rng| (rng.pick(&[0, 0, 80]), 40), has_list_on_choice)
}

/// A case with an accent in its tree and with all that is judged before it
/// accepted, of the same size.
pub fn random_small_accented_case(rng: &mut Rng) -> Case {
    let kinds = |rng: &mut Rng| (rng.pick(&[0, 0, 80]), rng.pick(&[0, 0, 30]));
    random_small_case_of(rng, [0, 0, 30, 30, 40], kinds, |case| has_accent(case) && is_tree_judged(case))
}

/// The first of some small cases that passes a test, with entries drawn by
/// weights. What is drawn for each is how many of 100 choices are optional and
/// how many of 100 types on the paths of choices are lists.
fn random_small_case_of(
    rng: &mut Rng,
    entries: [usize; 5],
    kinds: impl Fn(&mut Rng) -> (usize, usize),
    test: impl Fn(&Case) -> bool,
) -> Case {
    loop {
        let bytes = rng.pick(&[4, 8, 12, 20]);
        let (optional, lists) = kinds(rng);
        let size = TableSize { types: rng.between(1, 5), members: rng.pick(&[2, 3]), optional, lists };
        let shape = Shape { levels: 6, bytes, deep: rng.chance(30), wide: false };
        let world = World::random(rng, size, shape);
        let entry = Entry::ALL[rng.weighted(&entries)];
        let case = case_of(rng, &world, entry);
        let lengths = || case.documents.iter().map(Vec::len);
        if test(&case) && lengths().all(|length| length <= 60) && lengths().sum::<usize>() <= 110 {
            return case;
        }
    }
}

/// A case of an entry in a world; about half of them have damage. In some a
/// path is changed together with the target table.
pub fn case_of(rng: &mut Rng, world: &World, entry: Entry) -> Case {
    draw_case(rng, world, entry).case
}

/// The same, with how each document was made.
pub fn draw_case(rng: &mut Rng, world: &World, entry: Entry) -> Drawn {
    let mut drawn = world.draw_documents(rng, entry);
    let Drawn { case, made } = &mut drawn;
    if made.len() > 2 && rng.chance(15) {
        if let Some(changed) = change_path(rng, &world.embedded) {
            case.documents[1] = changed.target.to_bytes();
            case.documents[2] = changed.embedding.to_bytes();
            made[1..=2].fill(Made::Altered);
        }
    }
    for _ in 0..rng.pick(&[0, 0, 0, 0, 0, 1, 1, 1, 1, 2]) {
        // Later documents are damaged more often than tables.
        let at = rng.weighted(&[20, 20, 35, 30][..made.len()]);
        made[at] = damage(rng, world, case, made[at], at);
    }
    if rng.below(400) == 0 {
        let at = rng.below(made.len());
        make_too_long(rng, &mut case.documents[at]);
        made[at] = made[at].damaged();
    }
    if entry.writes() {
        case.output_length = MOST_BYTES;
        let needed = match case.run_into(&mut vec![0; MOST_BYTES]) {
            Answer::Ok { value, .. } => Some(value as usize),
            Answer::Refused(_) => None,
        };
        case.output_length = random_output_length(rng, needed);
    }
    drawn.settled(world)
}

/// Damages one document of a case, and says how it is made then.
fn damage(rng: &mut Rng, world: &World, case: &mut Case, made: Made, at: usize) -> Made {
    let Embedded { source, target, .. } = &world.embedded;
    let is_tree = at == 3 || (case.entry == Entry::JudgeTree && at == 1);
    let bytes = &mut case.documents[at];
    match rng.weighted(&[22, 22, 6, 50]) {
        0 => damage_bytes(rng, bytes),
        1 => damage_commands(rng, bytes),
        2 => {
            *bytes = soup(rng, if is_tree { 2 } else { at / 2 });
            return Made::Other;
        }
        _ => {
            *bytes = match at {
                _ if is_tree && case.entry.is_given_target() => match world.image() {
                    Some(image) => damage_tree(rng, target, &image),
                    None => return made,
                },
                _ if is_tree => damage_tree(rng, source, &world.tree),
                2 => damage_embedding(rng, &world.embedded),
                1 => damage_table(rng, target),
                _ => damage_table(rng, source),
            };
            return Made::Damaged;
        }
    }
    made.damaged()
}

/// Random commands of one kind of document (0 table, 1 embedding, 2 tree),
/// with small operands and mostly the command that ends it.
fn soup(rng: &mut Rng, kind: usize) -> Vec<u8> {
    let codes: [&[u8]; 3] = [
        &[0x10, 0x11, 0x12, 0x13, 0x14, 0x17, 0x15, 0x15, 0x15],
        &[0x20, 0x21, 0x21, 0x22, 0x22],
        &[0x30, 0x30, 0x31, 0x32, 0x32],
    ];
    let mut bytes = Vec::new();
    for _ in 0..rng.below(10) {
        let code = rng.pick(codes[kind]);
        bytes.push(code);
        if matches!(code, 0x14 | 0x15 | 0x20 | 0x22 | 0x30 | 0x31) {
            bytes.push(rng.below(4) as u8);
        }
    }
    if rng.chance(85) {
        bytes.push([0x1F, 0x2F, 0x3F][kind]);
    }
    bytes
}

/// A length of output: the greatest length, the length needed, if there is one,
/// one less, one more, or any.
pub(super) fn random_output_length(rng: &mut Rng, needed: Option<usize>) -> usize {
    let needed = needed.unwrap_or_else(|| rng.below(100));
    match rng.weighted(&[40, 20, 14, 8, 4, 4, 10]) {
        0 => MOST_BYTES,
        1 => needed,
        2 => needed.saturating_sub(1),
        3 => needed + 1,
        4 => 0,
        5 => MOST_BYTES + 1 + rng.below(5000),
        _ => rng.below(2 * needed),
    }
}
