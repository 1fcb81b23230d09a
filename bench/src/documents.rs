//! Documents that are timed, or that inputs are made of.

use lafindry_reference::extension::Operation;
use lafindry_reference::table::ContentModel;
use lafindry_reference::vectors::operations::Row;
use lafindry_reference::{MOST_BYTES, MOST_LEVELS, MOST_MEMBERS, MOST_STEPS, MOST_TYPES};

// The patch of paper 01.
pub const PATCH_SOURCE: &[u8] = &[0x12, 0x15, 1, 0x15, 2, 0x10, 0x13, 0x15, 3, 0x15, 4, 0x11, 0x11, 0x1F];
pub const PATCH_TARGET: &[u8] =
    &[0x12, 0x15, 1, 0x15, 2, 0x12, 0x15, 3, 0x15, 3, 0x13, 0x15, 4, 0x15, 5, 0x10, 0x11, 0x11, 0x1F];
pub const PATCH_EMBEDDING: &[u8] = &[
    0x20, 0, 0x21, 0x22, 1, 0x22, 1, 0x21, 0x22, 2, 0x20, 3, 0x21, 0x20, 2, 0x21, 0x22, 2, 0x21, 0x22, 1,
    0x20, 5, 0x20, 4, 0x2F,
];
/// The same with both switches at one place.
pub const PATCH_CLASHING: &[u8] = &[
    0x20, 0, 0x21, 0x22, 1, 0x22, 1, 0x21, 0x22, 2, 0x20, 3, 0x21, 0x20, 2, 0x21, 0x22, 2, 0x21, 0x22, 2,
    0x20, 5, 0x20, 5, 0x2F,
];
pub const PATCH_TREE: &[u8] = &[0x30, 0, 0x30, 1, 0x31, 0x41, 0x32, 0x30, 2, 0x30, 3, 0x32, 0x32, 0x32, 0x3F];
pub const PATCH_IMAGE: &[u8] = &[
    0x30, 0, 0x30, 1, 0x30, 3, 0x31, 0x41, 0x32, 0x30, 3, 0x32, 0x32, 0x30, 2, 0x30, 5, 0x32, 0x32, 0x32,
    0x3F,
];

// A title and a list of records, each a name and either nothing or a text.
#[rustfmt::skip]
pub const RECORDS_SOURCE: &[u8] = &[
    0x12, 0x15, 1, 0x15, 2, // 0: title, list
    0x10,                   // 1: text
    0x14, 3,                // 2: list of records
    0x12, 0x15, 1, 0x15, 4, // 3: record
    0x13, 0x15, 5, 0x15, 6, // 4: nothing or text
    0x11,                   // 5: nothing
    0x10,                   // 6: text
    0x1F,
];
// The same with a note beside the title and in each record, which is filler.
#[rustfmt::skip]
pub const RECORDS_TARGET: &[u8] = &[
    0x12, 0x15, 1, 0x15, 2,          // 0: head, list
    0x12, 0x15, 3, 0x15, 4,          // 1: title, note
    0x14, 5,                         // 2: list of records
    0x10,                            // 3: text
    0x10,                            // 4: note
    0x12, 0x15, 3, 0x15, 6, 0x15, 4, // 5: record
    0x13, 0x15, 7, 0x15, 3,          // 6: nothing or text
    0x11,                            // 7: nothing
    0x1F,
];
/// The type of those notes.
pub const NOTE: u8 = 4;
#[rustfmt::skip]
pub const RECORDS_EMBEDDING: &[u8] = &[
    0x20, 0, 0x21, 0x22, 1, 0x22, 1, 0x21, 0x22, 2,
    0x20, 3, 0x21,
    0x20, 2, 0x21, 0x22, 1,
    0x20, 5, 0x21, 0x22, 1, 0x21, 0x22, 2,
    0x20, 6, 0x21, 0x22, 1, 0x21, 0x22, 2,
    0x20, 7,
    0x20, 3, 0x21,
    0x2F,
];

/// A tree of records of a length, or one byte less. The title takes what is
/// left by whole records.
pub fn records(length: usize) -> Vec<u8> {
    let mut list = Vec::new();
    for number in 0.. {
        let name: &[u8] = &[0x31, 0x41, 0x31, 0x42, 0x31, 0x43];
        let last: &[u8] = if number % 2 == 0 { &[0x30, 5, 0x32] } else { &[0x30, 6, 0x31, 0x44, 0x32] };
        let record = [&[0x30, 3, 0x30, 1], name, &[0x32, 0x30, 4], last, &[0x32, 0x32]].concat();
        if 10 + list.len() + record.len() > length {
            break;
        }
        list.extend(record);
    }
    let title = [0x31, 0x54].repeat((length - 10 - list.len()) / 2);
    [&[0x30, 0, 0x30, 1], &title[..], &[0x32, 0x30, 2], &list, &[0x32, 0x32, 0x3F]].concat()
}

// A list of records, each a name and four settings that may be absent.
#[rustfmt::skip]
pub const SETTINGS_SOURCE: &[u8] = &[
    0x14, 1,                                            // 0: list of records
    0x12, 0x15, 2, 0x15, 3, 0x15, 4, 0x15, 3, 0x15, 4,  // 1: record
    0x10,                                               // 2: text
    0x17, 0x15, 2,                                      // 3: a text or nothing
    0x17, 0x15, 5, 0x15, 6,                             // 4: one of two switches or nothing
    0x11, 0x11,                                         // 5, 6: switches
    0x1F,
];
// The same with a third switch, a switch beside each text and one more text,
// which are absent.
#[rustfmt::skip]
pub const SETTINGS_TARGET: &[u8] = &[
    0x14, 1,                                                    // 0: list of records
    0x12, 0x15, 2, 0x15, 3, 0x15, 5, 0x15, 3, 0x15, 5, 0x15, 4, // 1: record
    0x10,                                                       // 2: text
    0x12, 0x15, 4, 0x15, 5,                                     // 3: text beside a switch
    0x17, 0x15, 2,                                              // 4: a text or nothing
    0x17, 0x15, 6, 0x15, 7, 0x15, 8,                            // 5: one of three switches or nothing
    0x11, 0x11, 0x11,                                           // 6, 7, 8: switches
    0x1F,
];
#[rustfmt::skip]
pub const SETTINGS_EMBEDDING: &[u8] = &[
    0x20, 0, 0x21, 0x22, 1,
    0x20, 1, 0x21, 0x22, 1, 0x21, 0x22, 2, 0x21, 0x22, 3, 0x21, 0x22, 4, 0x21, 0x22, 5,
    0x20, 2, 0x21,
    0x20, 3, 0x21, 0x22, 1, 0x22, 1,
    0x20, 5, 0x21, 0x22, 1, 0x21, 0x22, 3,
    0x20, 6,
    0x20, 8,
    0x2F,
];
/// Two records, of which each has the settings that the other has not.
#[rustfmt::skip]
pub const TWO_RECORDS: &[u8] = &[
    0x30, 1, 0x30, 2, 0x31, 0x41, 0x31, 0x42, 0x32,
    0x30, 3, 0x30, 2, 0x31, 0x43, 0x32, 0x32, 0x30, 4, 0x32, 0x30, 3, 0x32, 0x30, 4, 0x30, 5, 0x32, 0x32,
    0x32,
    0x30, 1, 0x30, 2, 0x31, 0x44, 0x32,
    0x30, 3, 0x32, 0x30, 4, 0x30, 6, 0x32, 0x32, 0x30, 3, 0x30, 2, 0x31, 0x45, 0x32, 0x32, 0x30, 4, 0x32,
    0x32,
];

/// A tree document whose root holds a part, so many times.
pub fn repeated(part: &[u8], times: usize) -> Vec<u8> {
    [&[0x30, 0], &part.repeat(times)[..], &[0x32, 0x3F]].concat()
}

/// The longest such document of at most 60,000 bytes.
pub fn filled(part: &[u8]) -> Vec<u8> {
    repeated(part, (MOST_BYTES - 4) / part.len())
}

/// A list of choices of 16 members, of which the last is empty.
pub fn list_of_choices() -> Vec<u8> {
    let members = (2..18).flat_map(|member| [0x15, member]);
    [&[0x14, 1, 0x13], &members.collect::<Vec<u8>>()[..], &[0x11; 16], &[0x1F]].concat()
}

/// A choice of the last member.
pub const LAST_CHOICE: &[u8] = &[0x30, 1, 0x30, 17, 0x32, 0x32];

/// Elements on all levels below the first.
pub fn all_levels() -> Vec<u8> {
    [[0x30, 0].repeat(MOST_LEVELS - 1), vec![0x32; MOST_LEVELS - 1]].concat()
}

/// A table of 64 types, each a sequence of 16 of the next one, and the last
/// one empty.
pub fn chain() -> Vec<u8> {
    let sequence = |next| [vec![0x12], [0x15, next as u8].repeat(MOST_MEMBERS)].concat();
    let sequences = (1..MOST_TYPES).flat_map(sequence);
    [&sequences.collect::<Vec<u8>>()[..], &[0x11, 0x1F]].concat()
}

/// A sequence of 16 lists of itself.
pub fn wide_target() -> Vec<u8> {
    [&[0x12], &[0x15, 1].repeat(MOST_MEMBERS)[..], &[0x14, 0, 0x1F]].concat()
}

/// An embedding of [`chain`] in [`wide_target`]: all types are mapped to type
/// 0. The paths have so many steps, an even number, and those of one type
/// differ in the last step but one.
pub fn long_paths(steps: usize) -> Vec<u8> {
    let path = |member| [&[0x21], &[0x22, 1].repeat(steps - 2)[..], &[0x22, member as u8, 0x22, 1]].concat();
    let paths: Vec<u8> = (1..=MOST_MEMBERS).flat_map(path).collect();
    let maps = [&[0x20, 0], &paths[..]].concat().repeat(MOST_TYPES - 1);
    [&maps[..], &[0x20, 0, 0x2F]].concat()
}

/// [`long_paths`] with the last path as the one before it.
pub fn last_clashing(mut embedding: Vec<u8>) -> Vec<u8> {
    let differs = embedding.len() - 6;
    embedding[differs] -= 1;
    embedding
}

/// A source table, a target table and an embedding.
pub struct Setting {
    pub source: Vec<u8>,
    pub target: Vec<u8>,
    pub embedding: Vec<u8>,
}

impl Setting {
    /// The setting of three documents.
    pub fn new(source: &[u8], target: &[u8], embedding: &[u8]) -> Setting {
        Setting { source: source.to_vec(), target: target.to_vec(), embedding: embedding.to_vec() }
    }
}

/// A text beside an empty element, which is filler.
pub fn one_text() -> Setting {
    let target = [0x12, 0x15, 1, 0x15, 2, 0x10, 0x11, 0x1F];
    Setting::new(&[0x10, 0x1F], &target, &[0x20, 0, 0x21, 0x22, 1, 0x2F])
}

/// A list of empty elements, each mapped to a sequence of 16 fillers.
pub fn mostly_filler() -> Setting {
    let target = [&[0x14, 1, 0x12], &[0x15, 2].repeat(MOST_MEMBERS)[..], &[0x11, 0x1F]].concat();
    Setting::new(&[0x14, 1, 0x11, 0x1F], &target, &[0x20, 0, 0x21, 0x22, 1, 0x20, 1, 0x2F])
}

/// A list of empty elements, each mapped to a sequence of 16 texts, which are
/// filler.
pub fn filler_texts() -> Setting {
    let target = [&[0x14, 1, 0x12], &[0x15, 2].repeat(MOST_MEMBERS)[..], &[0x10, 0x1F]].concat();
    Setting::new(&[0x14, 1, 0x11, 0x1F], &target, &[0x20, 0, 0x21, 0x22, 1, 0x20, 1, 0x2F])
}

/// A list of texts, each in a list of its own in the target.
pub fn listed_texts() -> Setting {
    let embedding = [0x20, 0, 0x21, 0x22, 1, 0x20, 1, 0x21, 0x22, 1, 0x2F];
    Setting::new(&[0x14, 1, 0x10, 0x1F], &[0x14, 1, 0x14, 2, 0x10, 0x1F], &embedding)
}

/// A list of texts whose characters go along a path of 12 sequences.
pub fn long_path() -> Setting {
    let sequences: Vec<u8> = (0..MOST_STEPS as u8).flat_map(|t| [0x12, 0x15, t + 2]).collect();
    let target = [&[0x14, 1], &sequences[..], &[0x10, 0x1F]].concat();
    let steps = [0x22, 1].repeat(MOST_STEPS);
    let embedding = [&[0x20, 0, 0x21, 0x22, 1, 0x20, 1, 0x21], &steps[..], &[0x2F]].concat();
    Setting::new(&[0x14, 1, 0x10, 0x1F], &target, &embedding)
}

/// A list of sequences of 16 texts, which stand in the reverse order in the
/// target.
pub fn reversed() -> Setting {
    let members = [0x15, 2].repeat(MOST_MEMBERS);
    let table = [&[0x14, 1, 0x12], &members[..], &[0x10, 0x1F]].concat();
    let paths: Vec<u8> = (1..=MOST_MEMBERS as u8).rev().flat_map(|step| [0x21, 0x22, step]).collect();
    let embedding = [&[0x20, 0, 0x21, 0x22, 1, 0x20, 1], &paths[..], &[0x20, 2, 0x21, 0x2F]].concat();
    Setting::new(&table, &table, &embedding)
}

/// An item of a list of [`reversed`].
pub fn sixteen_texts() -> Vec<u8> {
    [&[0x30, 1], &[0x30, 2, 0x31, 0x41, 0x32].repeat(MOST_MEMBERS)[..], &[0x32]].concat()
}

/// A list of itself, on two levels of the target.
pub fn nested_lists() -> Setting {
    let embedding = [0x20, 0, 0x21, 0x22, 1, 0x22, 1, 0x2F];
    Setting::new(&[0x14, 0, 0x1F], &[0x12, 0x15, 1, 0x14, 0, 0x1F], &embedding)
}

/// Lists on half of all levels below the first.
pub fn half_the_levels() -> Vec<u8> {
    let levels = MOST_LEVELS / 2 - 1;
    [[0x30, 0].repeat(levels), vec![0x32; levels]].concat()
}

/// A sequence of 16 lists of itself, mapped to itself.
pub fn sixteen_lists() -> Setting {
    let paths: Vec<u8> = (1..=MOST_MEMBERS as u8).flat_map(|step| [0x21, 0x22, step]).collect();
    let embedding = [&[0x20, 0], &paths[..], &[0x20, 1, 0x21, 0x22, 1, 0x2F]].concat();
    Setting::new(&wide_target(), &wide_target(), &embedding)
}

/// A tree of [`sixteen_lists`] on 128 levels, with so many items in the lowest
/// list. Each list with items stands before 15 empty ones, so that whoever
/// looks for these passes over all that is below it.
pub fn bottom_heavy(items: usize) -> Vec<u8> {
    let lists = [0x30, 1, 0x32].repeat(MOST_MEMBERS);
    let item = [&[0x30, 0], &lists[..], &[0x32]].concat();
    let above = MOST_LEVELS / 2 - 1;
    let after = [&[0x32], &lists[3..], &[0x32]].concat();
    [[0x30, 0, 0x30, 1].repeat(above), item.repeat(items), after.repeat(above), vec![0x3F]].concat()
}

/// The operation that appends a type.
fn append_type(model: ContentModel) -> Operation {
    Operation::AppendType(model.to_bytes())
}

/// An optional choice of itself; 63 more, each of the first one; then to each all
/// the members that it has room for.
pub fn many_members() -> Row {
    let types = (1..MOST_TYPES).map(|_| append_type(ContentModel::OptionalChoice(vec![0])));
    let types_extended = 0..MOST_TYPES as u8;
    let members = types_extended.flat_map(|extended| {
        (1..MOST_MEMBERS as u8).map(move |member| Operation::AppendMember { extended, member })
    });
    Row { table: vec![0x17, 0x15, 0, 0x1F], operations: types.chain(members).collect() }
}

/// An empty type; 15 sequences, each of the type before; 48 choices, each between
/// the type before and itself; then to each choice in turn the highest sequence
/// that is lower than all its members, until they have no room. Each of these
/// members moves numbers.
pub fn lower_members() -> Row {
    let (height, types) = (MOST_MEMBERS as u8, MOST_TYPES as u8);
    let sequences = (1..height).map(|t| append_type(ContentModel::Sequence(vec![t - 1])));
    let choices = (height..types).map(|t| append_type(ContentModel::Choice(vec![t - 1, t])));
    let lower = (1..height - 1).rev();
    let members = lower
        .flat_map(|member| (height..types).map(move |extended| Operation::AppendMember { extended, member }));
    Row { table: vec![0x11, 0x1F], operations: sequences.chain(choices).chain(members).collect() }
}
