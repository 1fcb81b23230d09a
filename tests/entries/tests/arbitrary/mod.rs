//! Cases with arbitrary bytes, and with documents of about 60,000 bytes.

use lafindry_reference::generate::cases::{Drawn, Made};
use lafindry_reference::generate::damage::{damage_bytes, split_commands};
use lafindry_reference::generate::{Rng, World};
use lafindry_reference::vectors::Entry;
use lafindry_reference::MOST_BYTES;

/// The commands of tables, embeddings and trees.
const COMMANDS: [&[u8]; 3] =
    [&[0x10, 0x11, 0x12, 0x13, 0x14, 0x15, 0x17, 0x1F], &[0x20, 0x21, 0x22, 0x2F], &[0x30, 0x31, 0x32, 0x3F]];

/// Arbitrary bytes: any, commands of one kind or of all, or small numbers.
fn arbitrary_bytes(rng: &mut Rng, length: usize) -> Vec<u8> {
    let alphabet: Vec<u8> = match rng.below(4) {
        0 => (0..=0xFF).collect(),
        1 => rng.pick(&COMMANDS).to_vec(),
        2 => [COMMANDS.concat(), vec![0, 1, 2, 3, 0x41, 0xE9]].concat(),
        _ => (0..0x40).collect(),
    };
    (0..length).map(|_| rng.pick(&alphabet)).collect()
}

/// A case whose later document, and sometimes any other, holds arbitrary
/// bytes or is a document of another kind.
pub fn arbitrary_case(rng: &mut Rng, world: &World, entry: Entry) -> Drawn {
    let mut drawn = world.draw_documents(rng, entry);
    let Drawn { case, made } = &mut drawn;
    let last = made.len() - 1;
    let at = if rng.chance(70) { last } else { rng.below(made.len()) };
    let others = world.draw_documents(rng, Entry::Carry).case.documents;
    (case.documents[at], made[at]) = match rng.weighted(&[60, 20, 20]) {
        0 => {
            let most = rng.pick(&[4, 16, 64, 400]);
            let length = rng.between(0, most);
            (arbitrary_bytes(rng, length), Made::Other)
        }
        1 => (rng.pick(&others), Made::Other),
        _ => (beginning(rng, &case.documents[at]), made[at].damaged()),
    };
    case.output_length = output_length(rng, entry);
    drawn.settled(world)
}

/// The beginning of a document and some arbitrary bytes after it.
fn beginning(rng: &mut Rng, document: &[u8]) -> Vec<u8> {
    let kept = rng.below(document.len() + 1);
    let more = rng.below(6);
    [document[..kept].to_vec(), arbitrary_bytes(rng, more)].concat()
}

/// A case with a document of about 60,000 bytes: up to ten more or fewer.
pub fn long_case(rng: &mut Rng, world: &World, entry: Entry) -> Drawn {
    let mut drawn = world.draw_documents(rng, entry);
    let Drawn { case, made } = &mut drawn;
    let at = rng.below(made.len());
    let is_tree = at == 3 || (entry == Entry::JudgeTree && at == 1);
    let kind = if is_tree { 2 } else { at / 2 };
    let length = rng.between(MOST_BYTES - 10, MOST_BYTES + 10);
    (case.documents[at], made[at]) = match rng.below(4) {
        0 => (arbitrary_bytes(rng, length), Made::Other),
        _ => (long_document(rng, &case.documents[at], kind, length), made[at].damaged()),
    };
    if rng.chance(30) {
        damage_bytes(rng, &mut case.documents[at]);
    }
    case.output_length = output_length(rng, entry);
    drawn.settled(world)
}

/// A document of a kind (0 table, 1 embedding, 2 tree) and of a length, made
/// by repeating commands at some place of a short one.
fn long_document(rng: &mut Rng, short: &[u8], kind: usize, length: usize) -> Vec<u8> {
    let repeated: &[&[u8]] = match kind {
        0 => &[&[0x10], &[0x11], &[0x14, 0], &[0x15, 0], &[0x15, 1], &[0x12, 0x15, 1], &[0x17, 0x15, 1]],
        1 => &[&[0x22, 1], &[0x22, 2], &[0x21], &[0x20, 0, 0x21, 0x22, 1]],
        _ => &[&[0x31, 0x41], &[0x30, 0, 0x32], &[0x30, 1, 0x32], &[0x30, 2, 0x31, 0x41, 0x32]],
    };
    let added = rng.pick(repeated);
    // Mostly after a whole command, so that the form can still be right.
    let places: Vec<usize> = match rng.chance(80) {
        true => command_ends(short),
        false => (0..=short.len()).collect(),
    };
    let place = if places.is_empty() { 0 } else { rng.pick(&places) };
    let count = length.saturating_sub(short.len()) / added.len();
    [&short[..place], &added.repeat(count), &short[place..]].concat()
}

/// The offsets after each command but the last.
fn command_ends(document: &[u8]) -> Vec<usize> {
    let mut end = 0;
    let mut ends = Vec::new();
    for command in split_commands(document) {
        end += command.len();
        ends.push(end);
    }
    ends.pop();
    ends
}

/// A length of output, 0 where the entry writes none.
fn output_length(rng: &mut Rng, entry: Entry) -> usize {
    match entry.writes() {
        true => rng.pick(&[0, 10, 100, MOST_BYTES]),
        false => 0,
    }
}
