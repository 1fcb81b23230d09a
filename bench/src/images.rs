//! What is carried, brought back and read along: images from 21 to 60,000 bytes, a
//! thousand different patches, and edited images.

use crate::documents::*;
use crate::inputs::Input;
use lafindry_reference::generate::{random_tree, Rng, Shape, TableSize, World};
use lafindry_reference::table::accept;
use lafindry_reference::tree::{build, Element};
use lafindry_reference::vectors::{Answer, Case, Entry};
use lafindry_reference::{MOST_BYTES, SOURCE};

/// Everything that is carried.
pub fn carried() -> Vec<Input> {
    let patch = Setting::new(PATCH_SOURCE, PATCH_TARGET, PATCH_EMBEDDING);
    let of_records = Setting::new(RECORDS_SOURCE, RECORDS_TARGET, RECORDS_EMBEDDING);
    let of_settings = Setting::new(SETTINGS_SOURCE, SETTINGS_TARGET, SETTINGS_EMBEDDING);
    let mut inputs = vec![Input { name: "patch", cases: vec![carry(&patch, PATCH_TREE)] }];
    for most in [100, 1000, 10_000, 30_000, MOST_BYTES] {
        inputs.push(largest("records", &of_records, most, |length| records(length.max(10))));
    }
    let mut longest = |name, setting: &Setting, part: &[u8]| {
        inputs.push(largest(name, setting, MOST_BYTES, |times| repeated(part, times)));
    };
    longest("one text", &one_text(), &[0x31, 0x41]);
    longest("16 fillers an item", &mostly_filler(), &[0x30, 1, 0x32]);
    longest("path of 12 steps an item", &long_path(), &[0x30, 1, 0x31, 0x41, 0x32]);
    longest("16 members in reverse an item", &reversed(), &sixteen_texts());
    longest("settings, half of them absent", &of_settings, TWO_RECORDS);
    longest("up to 128 levels", &nested_lists(), &half_the_levels());
    inputs.push(largest("128 levels, bottom-heavy", &sixteen_lists(), MOST_BYTES, bottom_heavy));
    inputs.push(thousand_of_one(&of_records));
    inputs.push(thousand_of_many());
    inputs
}

/// The images of what is carried, given to an entry.
pub fn images(carried: &Input, entry: Entry) -> Input {
    let cases = carried.cases.iter().map(|carried| {
        let mut documents = carried.documents.clone();
        documents[3] = image(carried).expect("the input is carried");
        Case { entry, documents, output_length: MOST_BYTES }
    });
    Input { name: carried.name, cases: cases.collect() }
}

/// Edited images to be read along, of about 60,000 bytes: characters written into
/// filler, further items in lists that stand for one; and one whose last such list
/// lacks its item, so that it is refused with 17.
pub fn edited() -> Vec<Input> {
    let of_records = Setting::new(RECORDS_SOURCE, RECORDS_TARGET, RECORDS_EMBEDDING);
    let texts = |times| repeated(&[0x30, 1, 0x31, 0x41, 0x32], times);
    let items = |times| repeated(&[0x30, 1, 0x32], times);
    vec![
        largest_edited("records, notes written", &of_records, |length| records(length.max(10)), write_notes),
        largest_edited("16 texts written an item", &filler_texts(), items, write_fillers),
        largest_edited("a second item in each list", &listed_texts(), texts, add_second_items),
        largest_edited("16 items in each list", &listed_texts(), texts, fill_lists),
        largest_edited("the last list without item", &listed_texts(), texts, empty_last_list),
    ]
}

/// The largest of some trees whose image, edited, has at most 60,000 bytes, to be
/// read along.
fn largest_edited(
    name: &'static str,
    setting: &Setting,
    tree: impl Fn(usize) -> Vec<u8>,
    edit: fn(&mut Element),
) -> Input {
    let edited = |size: usize| {
        let mut root = build(&image(&carry(setting, &tree(size)))?);
        edit(&mut root);
        Some(root.to_bytes()).filter(|bytes| bytes.len() <= MOST_BYTES)
    };
    let (mut low, mut high) = (1, MOST_BYTES);
    while low < high {
        let middle = (low + high).div_ceil(2);
        match edited(middle) {
            Some(_) => low = middle,
            None => high = middle - 1,
        }
    }
    let bytes = edited(low).expect("a small image can be edited");
    Input { name, cases: vec![Case { entry: Entry::ReadAlong, ..carry(setting, &bytes) }] }
}

/// Writes four characters into each note of records.
fn write_notes(element: &mut Element) {
    if element.element_type == NOTE {
        element.characters = b"note".to_vec();
    }
    element.children.iter_mut().for_each(write_notes);
}

/// Writes a character into each filler text of [`filler_texts`].
fn write_fillers(root: &mut Element) {
    let texts = root.children.iter_mut().flat_map(|item| &mut item.children);
    texts.for_each(|text| text.characters = vec![b'F']);
}

/// Puts so many items behind the first of each inner list of [`listed_texts`].
fn add_items(root: &mut Element, count: usize) {
    for list in &mut root.children {
        let item = list.children[0].clone();
        list.children.extend(vec![item; count]);
    }
}

fn add_second_items(root: &mut Element) {
    add_items(root, 1);
}

fn fill_lists(root: &mut Element) {
    add_items(root, 15);
}

/// Takes the item from the last inner list of [`listed_texts`].
fn empty_last_list(root: &mut Element) {
    root.children.iter_mut().last().into_iter().for_each(|list| list.children.clear());
}

/// A tree to be carried into 60,000 bytes.
fn carry(setting: &Setting, tree: &[u8]) -> Case {
    let Setting { source, target, embedding } = setting;
    let documents = vec![source.clone(), target.clone(), embedding.clone(), tree.to_vec()];
    Case { entry: Entry::Carry, documents, output_length: MOST_BYTES }
}

/// The image that carrying gives, if it isn't refused.
fn image(case: &Case) -> Option<Vec<u8>> {
    match case.run_into(&mut vec![0; MOST_BYTES]) {
        Answer::Ok { output, .. } => Some(output),
        Answer::Refused(_) => None,
    }
}

/// The largest of some trees, each larger than the one before, whose image has
/// at most so many bytes.
fn largest(name: &'static str, setting: &Setting, most: usize, tree: impl Fn(usize) -> Vec<u8>) -> Input {
    let carried = |size| carry(setting, &tree(size));
    let (mut low, mut high) = (0, most);
    while low < high {
        let middle = (low + high).div_ceil(2);
        match image(&carried(middle)).is_some_and(|image| image.len() <= most) {
            true => low = middle,
            false => high = middle - 1,
        }
    }
    Input { name, cases: vec![carried(low)] }
}

/// A thousand different trees under the same tables and embedding.
fn thousand_of_one(setting: &Setting) -> Input {
    let source = accept(&setting.source, SOURCE).expect("the source table is valid");
    let mut rng = Rng::new(1);
    let cases = thousand(|| {
        let shape = Shape { levels: 8, bytes: rng.between(50, 1000), deep: false, wide: true };
        Some(carry(setting, &random_tree(&mut rng, &source, shape)?.to_bytes()))
    });
    Input { name: "1,000 patches, one setting", cases }
}

/// A thousand trees, each with its own tables and embedding.
fn thousand_of_many() -> Input {
    let mut rng = Rng::new(2);
    let cases = thousand(|| {
        let shape = Shape::small(&mut rng);
        let world =
            World::random(&mut rng, TableSize { types: 12, members: 6, optional: 0, lists: 0 }, shape);
        let (source, target) = (world.embedded.source.to_bytes(), world.embedded.target.to_bytes());
        let setting = Setting { source, target, embedding: world.embedded.embedding.to_bytes() };
        Some(carry(&setting, &world.tree.to_bytes()))
    });
    Input { name: "1,000 patches, own settings", cases }
}

/// The first thousand different cases that are carried.
fn thousand(mut next: impl FnMut() -> Option<Case>) -> Vec<Case> {
    let mut found: Vec<Case> = Vec::new();
    while found.len() < 1000 {
        let new = next().filter(|case| image(case).is_some() && !found.contains(case));
        found.extend(new);
    }
    found
}
