//! What holds of every random world and case.

use lafindry_reference::clauses::characters::{has_accent, holds_accent, is_tree_judged};
use lafindry_reference::clauses::has_optional;
use lafindry_reference::clauses::lists::has_list_on_choice;
use lafindry_reference::embedding::walk;
use lafindry_reference::generate::damage::{alter, damage_bytes, damage_commands, damage_tree};
use lafindry_reference::generate::trees::{forbidden_character, random_character};
use lafindry_reference::generate::{
    random_case, random_small_accented_case, random_small_case, random_small_listed_case,
    random_small_optional_case, Rng, Shape, TableSize, World,
};
use lafindry_reference::image::fillers;
use lafindry_reference::places::{element_at, Places};
use lafindry_reference::table::{ContentModel, Table};
use lafindry_reference::tree::{self, levels, open_elements, Element};
use lafindry_reference::vectors::{Answer, Case, Entry};
use lafindry_reference::{bring_back, carry, judge_embedding, judge_table, judge_tree};
use lafindry_reference::{Carried, Refusal, MOST_BYTES, MOST_LEVELS, OUTPUT, TREE};
use std::collections::{BTreeMap, BTreeSet};

/// Random worlds of mixed size.
fn worlds(seed: u64, count: usize) -> impl Iterator<Item = (Rng, World)> {
    let mut rng = Rng::new(seed);
    std::iter::repeat_with(move || {
        let world = World::mixed(&mut rng);
        (Rng::new(rng.bits()), world)
    })
    .take(count)
}

/// The four documents of a world.
fn documents(world: &World) -> [Vec<u8>; 4] {
    let embedded = &world.embedded;
    [
        embedded.source.to_bytes(),
        embedded.target.to_bytes(),
        embedded.embedding.to_bytes(),
        world.tree.to_bytes(),
    ]
}

/// The image of a world with its answer, if it is within the limits.
fn carried(world: &World) -> Result<(Vec<u8>, Carried), Refusal> {
    let [s, t, e, tree] = documents(world);
    let mut output = vec![0; MOST_BYTES];
    let answer = carry(&s, &t, &e, &tree, &mut output)?;
    output.truncate(answer.length as usize);
    Ok((output, answer))
}

#[test]
fn worlds_are_accepted() {
    for (_, world) in worlds(1, 1500) {
        let [s, t, e, tree] = documents(&world);
        assert_eq!(judge_table(&s), Ok(world.embedded.source.types.len() as u64));
        assert_eq!(judge_table(&t), Ok(world.embedded.target.types.len() as u64));
        assert_eq!(judge_embedding(&s, &t, &e), Ok(world.embedded.source.edges() as u64));
        if tree.len() <= MOST_BYTES {
            assert_eq!(judge_tree(&s, &tree), Ok(tree::count(&tree) as u64));
            assert_eq!(tree::build(&tree), world.tree);
        }
    }
}

#[test]
fn images_conform_and_come_back() {
    let mut images = 0;
    for (_, world) in worlds(2, 3000) {
        let Ok((image, _)) = carried(&world) else {
            continue;
        };
        let [s, t, e, tree] = documents(&world);
        assert!(judge_tree(&t, &image).is_ok());
        assert!(tree.len() <= image.len() && levels(&tree) <= levels(&image));
        let mut output = vec![0; tree.len()];
        assert_eq!(bring_back(&s, &t, &e, &image, &mut output), Ok(tree.len() as u64));
        assert_eq!(output, tree);
        images += 1;
    }
    assert!(images > 2000);
}

#[test]
fn outputs_long_enough_and_one_short() {
    for (_, world) in worlds(3, 600) {
        let Ok((image, answer)) = carried(&world) else {
            continue;
        };
        let [s, t, e, tree] = documents(&world);
        let case = |entry, given: &[u8], output_length| Case {
            entry,
            documents: vec![s.clone(), t.clone(), e.clone(), given.to_vec()],
            output_length,
        };
        let short = Answer::Refused(Refusal { number: 14, document: OUTPUT, mark: 0 });
        let (there, back) = (Entry::Carry, Entry::BringBack);
        let full = Answer::Ok { value: answer.length, filler: answer.filler, output: image.clone() };
        // `run` fails where a byte changed that should have been kept.
        assert_eq!(case(there, &tree, image.len()).run(), Ok(full.clone()));
        assert_eq!(case(there, &tree, image.len() + 9).run(), Ok(full));
        assert_eq!(case(there, &tree, image.len() - 1).run(), Ok(short.clone()));
        let full = Answer::Ok { value: tree.len() as u64, filler: 0, output: tree.clone() };
        assert_eq!(case(back, &image, tree.len()).run(), Ok(full.clone()));
        assert_eq!(case(back, &image, tree.len() + 9).run(), Ok(full));
        assert_eq!(case(back, &image, tree.len() - 1).run(), Ok(short));
    }
}

#[test]
fn refusals_leave_the_output() {
    let mut rng = Rng::new(4);
    for number in 0..6000 {
        let small = number % 2 == 0;
        let case = if small { random_small_case(&mut rng) } else { random_case(&mut rng) };
        let before: Vec<u8> = (0..case.output_length).map(|_| rng.byte()).collect();
        let mut after = before.clone();
        let answer = case.run_into(&mut after);
        assert!(answer.final_output(&before) == after, "{case}");
    }
}

/// Brings a tree back and asserts that the answer is another refusal, 15, or
/// a source whose image is just that tree. Gives what it was.
fn assert_brought_back(world: &World, given: &[u8]) -> &'static str {
    let [s, t, e, _] = documents(world);
    let mut output = vec![0; MOST_BYTES];
    match bring_back(&s, &t, &e, given, &mut output) {
        Err(Refusal { number: 15, document: TREE, mark: 0 }) => "no image",
        Err(refusal) => {
            assert_eq!(judge_tree(&t, given), Err(refusal));
            "refused"
        }
        Ok(length) => {
            let mut again = vec![0; MOST_BYTES];
            let answer = carry(&s, &t, &e, &output[..length as usize], &mut again).unwrap();
            assert_eq!(&again[..answer.length as usize], given);
            "image"
        }
    }
}

#[test]
fn altered_images_are_told_apart() {
    let mut seen: BTreeMap<&str, usize> = BTreeMap::new();
    for (mut rng, world) in worlds(5, 1500) {
        let Some(image) = world.image() else {
            continue;
        };
        let target = &world.embedded.target;
        let mut bytes = image.to_bytes();
        damage_bytes(&mut rng, &mut bytes);
        let mut moved = image.to_bytes();
        damage_commands(&mut rng, &mut moved);
        let altered = alter(&mut rng, target, &image).to_bytes();
        let twice = alter(&mut rng, target, &tree::build(&altered)).to_bytes();
        for given in [bytes, moved, altered, twice, damage_tree(&mut rng, target, &image)] {
            *seen.entry(assert_brought_back(&world, &given)).or_default() += 1;
        }
    }
    assert!(seen["image"] > 200 && seen["no image"] > 500 && seen["refused"] > 500, "{seen:?}");
}

/// All elements of a type of at most so many bytes. Text has only letters A.
fn all_elements(table: &Table, t: u8, bytes: usize) -> Vec<Element> {
    let Some(inside) = bytes.checked_sub(3) else {
        return Vec::new();
    };
    let contents = match &table.types[t as usize] {
        ContentModel::Text => {
            let texts = (0..=inside / 2).map(|count| vec![b'A'; count]);
            return texts.map(|characters| Element { characters, ..Element::new(t) }).collect();
        }
        ContentModel::Empty => vec![Vec::new()],
        ContentModel::Sequence(members) => all_rows(table, members, inside),
        ContentModel::Choice(members) => {
            members.iter().flat_map(|&member| all_rows(table, &[member], inside)).collect()
        }
        ContentModel::OptionalChoice(members) => {
            let rows = members.iter().flat_map(|&member| all_rows(table, &[member], inside));
            rows.chain([Vec::new()]).collect()
        }
        ContentModel::List(item) => {
            (0..=inside / 3).flat_map(|count| all_rows(table, &vec![*item; count], inside)).collect()
        }
    };
    contents.into_iter().map(|children| Element { children, ..Element::new(t) }).collect()
}

/// All rows of elements of these types that have at most so many bytes.
fn all_rows(table: &Table, types: &[u8], bytes: usize) -> Vec<Vec<Element>> {
    let Some((&first, others)) = types.split_first() else {
        return vec![Vec::new()];
    };
    let mut rows = Vec::new();
    for element in all_elements(table, first, bytes) {
        // A document has one byte more than its root element.
        let left = bytes + 1 - element.to_bytes().len();
        for row in all_rows(table, others, left) {
            rows.push([vec![element.clone()], row].concat());
        }
    }
    rows
}

/// A target tree comes back just where it is the image of some source tree.
/// All trees of up to 22 bytes are tried; a source is no longer than its image.
#[test]
fn just_the_images_come_back() {
    let mut rng = Rng::new(15);
    let (mut brought, mut refused, mut listed) = (0, 0, 0);
    for number in 0..1000 {
        let (optional, lists) = if number % 2 == 0 { (70, 0) } else { (40, 50) };
        let size = TableSize { types: 4, members: 3, optional, lists };
        let world = World::random(&mut rng, size, Shape { levels: 5, bytes: 22, deep: false, wide: false });
        let has_list = world.embedded.has_list_on_choice();
        if !has_list && !world.embedded.has_optional() {
            continue;
        }
        let [s, t, e, _] = documents(&world);
        let carried = |source: &Element| {
            let mut output = vec![0; MOST_BYTES];
            let answer = carry(&s, &t, &e, &source.to_bytes(), &mut output).ok()?;
            Some((output[..answer.length as usize].to_vec(), source.to_bytes()))
        };
        let images: BTreeMap<Vec<u8>, Vec<u8>> =
            all_elements(&world.embedded.source, 0, 21).iter().filter_map(carried).collect();
        for given in all_elements(&world.embedded.target, 0, 21) {
            let given = given.to_bytes();
            let mut output = vec![0; MOST_BYTES];
            let answer = bring_back(&s, &t, &e, &given, &mut output);
            match images.get(&given) {
                Some(source) => assert_eq!(answer.map(|length| &output[..length as usize]), Ok(&source[..])),
                None => assert_eq!(answer, Err(Refusal { number: 15, document: TREE, mark: 0 })),
            }
            brought += images.contains_key(&given) as usize;
            refused += !images.contains_key(&given) as usize;
            listed += (has_list && images.contains_key(&given)) as usize;
        }
    }
    assert!(brought > 1000 && refused > 1000 && listed > 200, "{brought} {refused} {listed}");
}

/// Any byte changed in a small image.
#[test]
fn every_changed_byte_is_told_apart() {
    let mut rng = Rng::new(6);
    for _ in 0..25 {
        let size = TableSize { types: 4, members: 3, optional: 30, lists: 30 };
        let world = World::random(&mut rng, size, Shape { levels: 5, bytes: 25, deep: false, wide: false });
        let Some(image) = world.image().map(|image| image.to_bytes()).filter(|image| image.len() < 60) else {
            continue;
        };
        for at in 0..image.len() {
            for byte in (0..8).chain(0x2E..0x43).chain([0x7E, 0x7F, 0x9F, 0xA0, 0xFF]) {
                let mut given = image.clone();
                given[at] = byte;
                assert_brought_back(&world, &given);
            }
        }
    }
}

/// An element of an image being built child by child: its type, its children
/// by place (member number or item number), and its characters.
#[derive(Clone)]
struct Draft {
    element_type: u8,
    children: BTreeMap<usize, Draft>,
    characters: Vec<u8>,
}

impl Draft {
    fn new(element_type: u8) -> Draft {
        Draft { element_type, children: BTreeMap::new(), characters: Vec::new() }
    }

    /// The element at the end of a path, built where it isn't there. The first
    /// list of the path takes item `item`; with no item it is the end.
    fn at(&mut self, target: &Table, steps: &[u8], item: Option<Option<usize>>) -> &mut Draft {
        let Some((&step, rest)) = steps.split_first() else {
            return self;
        };
        let model = &target.types[self.element_type as usize];
        let named = model.named()[step as usize - 1];
        let (place, later) = match (model, item) {
            (ContentModel::List(_), Some(None)) => return self,
            (ContentModel::List(_), Some(Some(number))) => (number, None),
            (ContentModel::List(_), None) => (0, None),
            _ => (step as usize - 1, item),
        };
        let child = self.children.entry(place).or_insert_with(|| Draft::new(named));
        child.at(target, rest, later)
    }

    /// Places the children and characters of a source element below its image.
    fn place(&mut self, world: &World, source: &Element) {
        let target = &world.embedded.target;
        let map = &world.embedded.embedding.maps[source.element_type as usize];
        let model = &world.embedded.source.types[source.element_type as usize];
        if *model == ContentModel::Text {
            self.at(target, &map.paths[0].steps, None).characters = source.characters.clone();
        }
        if matches!(model, ContentModel::List(_)) {
            self.at(target, &map.paths[0].steps, Some(None));
        }
        if matches!(model, ContentModel::OptionalChoice(_)) && source.children.is_empty() {
            let first = &map.paths[0].steps;
            let along = walk(target, map.target, first).unwrap();
            let is_choice = |&t: &u8| target.types[t as usize].is_choice();
            let before = along.iter().position(is_choice).unwrap();
            self.at(target, &first[..before], None);
        }
        for (number, child) in source.children.iter().enumerate() {
            let (edge, item) = match model {
                ContentModel::Choice(members) | ContentModel::OptionalChoice(members) => {
                    (members.iter().position(|&member| member == child.element_type).unwrap(), None)
                }
                ContentModel::List(_) => (0, Some(Some(number))),
                _ => (number, None),
            };
            self.at(target, &map.paths[edge].steps, item).place(world, child);
        }
    }

    /// The finished element; adds the filler elements to a count.
    fn finish(&self, target: &Table, heights: &[u64], filler: &mut u64) -> Element {
        let mut element = Element::new(self.element_type);
        element.characters = self.characters.clone();
        let mut child = |place: usize, named: u8, filler: &mut u64| match self.children.get(&place) {
            Some(draft) => element.children.push(draft.finish(target, heights, filler)),
            None => {
                *filler += 1;
                element.children.push(Draft::new(named).finish(target, heights, filler));
            }
        };
        match &target.types[self.element_type as usize] {
            ContentModel::Sequence(members) => {
                members.iter().enumerate().for_each(|(place, &named)| child(place, named, filler));
            }
            ContentModel::Choice(members) => {
                let least = members.iter().map(|&member| heights[member as usize]).min().unwrap();
                let first = members.iter().position(|&member| heights[member as usize] == least).unwrap();
                let place = self.children.keys().next().copied().unwrap_or(first);
                child(place, members[place], filler);
            }
            ContentModel::OptionalChoice(members) => {
                self.children.keys().for_each(|&place| child(place, members[place], filler));
            }
            ContentModel::List(item) => self.children.keys().for_each(|&place| child(place, *item, filler)),
            _ => {}
        }
        element
    }
}

/// A second way to the image: children are placed one by one, then filler is
/// added.
#[test]
fn images_are_as_placed_child_by_child() {
    for (_, world) in worlds(7, 2500) {
        let Ok((image, answer)) = carried(&world) else {
            continue;
        };
        let target = &world.embedded.target;
        let heights: Vec<u64> = target.heights().into_iter().map(Option::unwrap).collect();
        let mut root = Draft::new(0);
        root.place(&world, &world.tree);
        let mut filler = 0;
        let element = root.finish(target, &heights, &mut filler);
        assert_eq!(element.to_bytes(), image);
        assert_eq!(filler, answer.filler);
    }
}

/// Heights are a solution of their equations, and no lesser one exists since
/// each is the number of levels of a tree, the filler.
#[test]
fn heights_are_levels_of_filler() {
    for (_, world) in worlds(8, 1000) {
        let target = &world.embedded.target;
        let fillers = fillers(target);
        for (model, filler) in target.types.iter().zip(&fillers) {
            let heights = model.named().iter().map(|&named| fillers[named as usize].height);
            let below = match model {
                ContentModel::Sequence(_) => heights.max().unwrap(),
                ContentModel::Choice(_) => heights.min().unwrap(),
                _ => 0,
            };
            assert_eq!(filler.height, below + 1);
            let children = filler.children.iter().map(|&child| fillers[child as usize].height);
            assert_eq!(filler.height, children.max().unwrap_or(0) + 1);
        }
    }
}

/// The commands before a mark of refusal 11 are the beginning of a conforming
/// tree: all open elements are completed with filler.
#[test]
fn beginnings_before_the_mark_can_be_completed() {
    let mut marks = 0;
    for (mut rng, world) in worlds(9, 3000) {
        let table = &world.embedded.source;
        let bytes = damage_tree(&mut rng, table, &world.tree);
        let Err(Refusal { number: 11, mark, .. }) = judge_tree(&table.to_bytes(), &bytes) else {
            continue;
        };
        if let Some(completed) = complete(table, &bytes[..mark as usize]) {
            assert!(judge_tree(&table.to_bytes(), &completed).is_ok());
            marks += 1;
        }
    }
    assert!(marks > 500, "{marks}");
}

/// A beginning with all open elements completed, if that isn't too large.
fn complete(table: &Table, beginning: &[u8]) -> Option<Vec<u8>> {
    let fillers = fillers(table);
    let mut open = open_elements(beginning);
    let mut bytes = beginning.to_vec();
    if open.is_empty() {
        open.push((0, 0));
        bytes.extend([0x30, 0]);
    }
    while let Some((t, children)) = open.pop() {
        for &child in fillers[t as usize].children.iter().skip(children) {
            let filler = &fillers[child as usize];
            if filler.length > 10_000 || filler.height > 20 || open.len() > 100 {
                return None;
            }
            write_filler(&fillers, child, &mut bytes);
        }
        bytes.push(0x32);
    }
    bytes.push(0x3F);
    (bytes.len() <= MOST_BYTES).then_some(bytes)
}

/// Writes the filler of a type.
fn write_filler(fillers: &[lafindry_reference::image::Filler], t: u8, bytes: &mut Vec<u8>) {
    bytes.extend([0x30, t]);
    fillers[t as usize].children.iter().for_each(|&child| write_filler(fillers, child, bytes));
    bytes.push(0x32);
}

#[test]
fn any_bytes_get_an_answer() {
    let mut rng = Rng::new(10);
    for _ in 0..4000 {
        let entry = rng.pick(&Entry::ALL);
        let (length, mask) = (rng.pick(&[2, 5, 12, 40, 3000]), rng.pick(&[0xFF, 0x3F, 0x37]));
        let mut document = || -> Vec<u8> { (0..rng.below(length)).map(|_| rng.byte() & mask).collect() };
        let documents = (0..entry.documents()).map(|_| document()).collect();
        let case = Case { entry, documents, output_length: 100 };
        assert!(case.run().is_ok(), "{case}");
    }
}

/// Documents that are very deep or have very many types or steps.
#[test]
fn extreme_documents_get_an_answer() {
    let deep = [[0x30, 0].repeat(29_999), vec![0x32, 0x3F]].concat();
    assert_eq!(judge_tree(&[0x14, 0, 0x1F], &deep).unwrap_err().number, 2);
    let deep = [[0x30, 0].repeat(19_999), vec![0x32; 19_999], vec![0x3F]].concat();
    assert_eq!(judge_tree(&[0x14, 0, 0x1F], &deep).unwrap_err().number, 3);
    let types = [vec![0x11; 59_999], vec![0x1F]].concat();
    assert_eq!(judge_table(&types).unwrap_err().number, 3);
    let steps = [vec![0x20, 0, 0x21], [0x22, 1].repeat(29_998), vec![0x2F]].concat();
    let list = [0x14, 0, 0x1F];
    assert_eq!(judge_embedding(&list, &list, &steps).unwrap_err().number, 3);
}

/// Every refusal of every document, and every entry's answer, occurs.
#[test]
fn cases_reach_every_answer() {
    let mut rng = Rng::new(12);
    let mut seen = BTreeSet::new();
    for _ in 0..6000 {
        match random_case(&mut rng).run().unwrap() {
            Answer::Ok { .. } => {}
            Answer::Refused(refusal) => {
                seen.insert((refusal.number, refusal.document));
            }
        }
    }
    let tables = (1..=6).flat_map(|number| [(number, 1), (number, 2)]);
    let embeddings = [1, 2, 3, 4, 7, 8, 9, 10].map(|number| (number, 3));
    let trees = [1, 2, 3, 4, 11, 15].map(|number| (number, 4));
    let outputs = [12, 13, 14].map(|number| (number, 5));
    let all: BTreeSet<(u64, u64)> = tables.chain(embeddings).chain(trees).chain(outputs).collect();
    assert_eq!(seen, all);
}

/// The generators reach paths of 0 to 12 steps, shared target types, the
/// greatest levels, about the greatest length, and lists on the paths of
/// choices.
#[test]
fn worlds_reach_the_limits() {
    let mut lengths = BTreeSet::new();
    let (mut shared, mut most_levels, mut most_bytes, mut most_types, mut listed) = (0, 0, 0, 0, 0);
    for (_, world) in worlds(13, 4000) {
        let maps = &world.embedded.embedding.maps;
        lengths.extend(maps.iter().flat_map(|map| &map.paths).map(|path| path.steps.len()));
        let targets: BTreeSet<u8> = maps.iter().map(|map| map.target).collect();
        shared += (targets.len() < maps.len()) as usize;
        most_types += (world.embedded.target.types.len() >= 60) as usize;
        listed += world.embedded.has_list_on_choice() as usize;
        if let Ok((image, _)) = carried(&world) {
            most_levels += (levels(&image) == MOST_LEVELS) as usize;
            most_bytes += (image.len() + 1 >= MOST_BYTES) as usize;
        }
    }
    assert_eq!(lengths, (0..=12).collect());
    assert!(shared > 400 && most_levels > 20 && most_bytes > 5 && most_types > 5 && listed > 200);
}

/// Every list on the path of a choice holds just one item in the image. Worlds
/// drawn for such lists have them, and half of these have optional choices.
#[test]
fn lists_on_paths_hold_one_item() {
    let mut rng = Rng::new(16);
    let (mut lists, mut optional) = (0, 0);
    for _ in 0..800 {
        let world = World::listed(&mut rng);
        assert!(world.embedded.has_list_on_choice());
        optional += world.embedded.has_optional() as usize;
        let Some(mut image) = world.image() else {
            continue;
        };
        for place in Places::of(&world.mapping(), &world.tree).lists {
            let list = element_at(&mut image, &place);
            assert!(world.embedded.target.types[list.element_type as usize].is_list());
            assert_eq!(list.children.len(), 1);
            lists += 1;
        }
    }
    assert!(lists > 1000 && (300..500).contains(&optional), "{lists} {optional}");
}

/// Characters drawn as allowed are all those that a text may hold, and about a
/// third of them are accents; those drawn as forbidden are all the others.
#[test]
fn characters_are_drawn_from_all() {
    let mut rng = Rng::new(17);
    let (mut allowed, mut forbidden, mut accents) = (BTreeSet::new(), BTreeSet::new(), 0);
    for _ in 0..6000 {
        let character = random_character(&mut rng);
        accents += (character >= 0xA0) as usize;
        allowed.insert(character);
        forbidden.insert(forbidden_character(&mut rng));
    }
    let text = |character: &u8| judge_tree(&[0x10, 0x1F], &[0x30, 0, 0x31, *character, 0x32, 0x3F]).is_ok();
    let (texts, others): (BTreeSet<u8>, BTreeSet<u8>) = (0..=0xFF).partition(text);
    assert_eq!((allowed, forbidden), (texts, others));
    assert!((1800..2200).contains(&accents), "{accents}");
}

/// Worlds drawn for accents have them, and of all sizes.
#[test]
fn accented_worlds_hold_accents() {
    let mut rng = Rng::new(18);
    let (mut small, mut large) = (0, 0);
    for _ in 0..1000 {
        let world = World::accented(&mut rng);
        let tree = world.tree.to_bytes();
        assert!(holds_accent(&tree));
        small += (tree.len() < 100) as usize;
        large += (tree.len() > 10_000) as usize;
    }
    assert!(small > 100 && large > 10, "{small} {large}");
}

/// Small cases keep their promise.
#[test]
fn small_cases_are_small() {
    let mut rng = Rng::new(14);
    for _ in 0..1000 {
        let case = random_small_case(&mut rng);
        assert!(case.documents.iter().map(Vec::len).sum::<usize>() <= 60);
        let case = random_small_optional_case(&mut rng);
        assert!(case.documents.iter().map(Vec::len).sum::<usize>() <= 110 && has_optional(&case));
        let case = random_small_listed_case(&mut rng);
        assert!(case.documents.iter().map(Vec::len).sum::<usize>() <= 110 && has_list_on_choice(&case));
        let case = random_small_accented_case(&mut rng);
        assert!(case.documents.iter().map(Vec::len).sum::<usize>() <= 110 && has_accent(&case));
        assert!(is_tree_judged(&case));
    }
}
