//! What went across, counted (paper 02, N14): cases worked by hand, and what holds
//! of the image of every random source document.

use lafindry_reference::clauses::crossings::{shown, CrossingClause};
use lafindry_reference::clauses::reading::Survey;
use lafindry_reference::counted::{occurrences, Correspondence, Counted, Counting};
use lafindry_reference::generate::{crossing_of, damaged_crossing, random_small_crossing, Rng, World};
use lafindry_reference::image::{alternative, Mapping, Place};
use lafindry_reference::places::{element_at, Places};
use lafindry_reference::tree::{self, nodes, Element, Node};
use lafindry_reference::vectors::crossings::{check_line, Crossing};
use lafindry_reference::vectors::{from_hex, to_hex, Answer, Case, Entry};
use lafindry_reference::{Refusal, MOST_BYTES, MOST_LEVELS, MOST_MEMBERS, MOST_STEPS};
use std::collections::{BTreeMap, BTreeSet};
use CrossingClause::*;

/// Asserts what is counted of a tree, and what it shows.
fn assert_counted(setting: &str, tree: &str, answer: &str, clauses: &[CrossingClause]) {
    let line = format!("counted {setting} {tree} -> {answer}");
    let (crossing, counted) = check_line(&line).unwrap_or_else(|message| panic!("{line}: {message}"));
    assert_eq!(shown(&crossing, &counted), clauses, "{line}");
}

/// The patch of paper 01: a text, by two steps, and a choice of two empty types,
/// by one; the choice takes one step. The second text beside the first is filler.
const PATCH: &str = "121501150210131503150411111f 1215011502121503150313150415051011111f \
                     200021220122012122022003212002212202212201200520042f";

#[test]
fn the_patch() {
    let tree = "30003001314132300230033232323f";
    assert_counted(PATCH, tree, "ok 6 1 4 0@0,1@4,2@13,3@15", &[Filler, Empty, StaysText]);
    let documents: Vec<Vec<u8>> = PATCH.split_whitespace().chain([tree]).map(hex).collect();
    let counted = Crossing { documents: documents.try_into().expect("four documents") }.run();
    let standing = [(0, 0, 0), (1, 2, 4), (2, 7, 13), (3, 9, 15)];
    let standing =
        standing.map(|(element_type, source, image)| Correspondence { element_type, source, image });
    assert_eq!(counted, Ok(Counted { elements: 6, filler: 1, path: 4, standing: standing.to_vec() }));
}

/// The bytes that hexadecimal digits write.
fn hex(text: &str) -> Vec<u8> {
    from_hex(text).expect("hexadecimal")
}

/// A list of texts; in the target a list of lists of lists of texts. An item takes
/// two steps, a text one more.
const LISTS: &str = "1401101f 140114021403101f 2000212201220120022122012f";

#[test]
fn lists_of_lists() {
    assert_counted(LISTS, "3000323f", "ok 1 0 0 0@0", &[NoFiller, OnlyRoot, NoItems]);
    assert_counted(LISTS, "3000300132323f", "ok 4 0 3 0@0,1@4", &[NoFiller, OneItem]);
    let clauses = [NoFiller, RestOfSeveral, LaterList];
    assert_counted(LISTS, "30003001323001314132323f", "ok 7 0 6 0@0,1@4,1@13", &clauses);
    let three = "3000300131413230013230013142314232323f";
    let clauses = [NoFiller, Repeated, RestOfSeveral, LaterList];
    assert_counted(LISTS, three, "ok 10 0 9 0@0,1@4,1@15,1@24", &clauses);
}

/// A list of texts that is the first of two members, beside filler: the step to it
/// is taken once, with or without items.
#[test]
fn steps_before_the_list() {
    let setting = "1401101f 1215011502140311101f 200021220122012003212f";
    assert_counted(setting, "3000323f", "ok 3 1 1 0@0", &[Filler, OnlyRoot, NoItemsBelow]);
    assert_counted(setting, "3000300132323f", "ok 4 1 2 0@0,1@4", &[Filler, StaysText, OneItem]);
    let clauses = [Filler, StaysText, SeveralItems];
    assert_counted(setting, "3000300132300132323f", "ok 5 1 3 0@0,1@4,1@7", &clauses);
}

/// A list of texts behind a step, each the second of two members of an item: the
/// first step is taken once, two more for each item.
#[test]
fn steps_before_and_behind_the_list() {
    let setting = "1401101f 12150114021215031503101f 2000212201220122022003212f";
    assert_counted(setting, "3000323f", "ok 2 0 1 0@0", &[NoFiller, OnlyRoot, NoItemsBelow]);
    let clauses = [Filler, StaysText, RestOfSeveral, BeforeAndRest];
    assert_counted(setting, "3000300132300132323f", "ok 8 2 5 0@0,1@9,1@18", &clauses);
}

/// An optional choice of a text and an empty type.
const OPTIONAL: &str = "171501150210111f";

#[test]
fn choices() {
    // Beside filler, the second of two members: nothing takes the step to it.
    let beside = "1215031503101117150115021f 20002122022201212202220220012120022f";
    let optional = format!("{OPTIONAL} {beside}");
    assert_counted(&optional, "3000323f", "ok 3 1 1 0@0", &[Filler, OnlyRoot, NothingBelow]);
    let clauses = [Filler, Empty, LongOptional];
    assert_counted(&optional, "3000300232323f", "ok 4 1 2 0@0,2@7", &clauses);
    let needed = optional.replacen("17", "13", 1);
    let clauses = [Filler, StaysText, LongNeeded];
    assert_counted(&needed, "30003001314132323f", "ok 4 1 2 0@0,1@7", &clauses);
    assert_counted(&needed, "3000323f", "refused 11 4 2", &[]);
    // One member takes one step, the other two.
    let unlike = "131501150211111f 1315011502111315031501111f 20002122012122022201200120032f";
    assert_counted(unlike, "3000300132323f", "ok 2 0 1 0@0,1@2", &[NoFiller, Empty]);
    assert_counted(unlike, "3000300232323f", "ok 3 0 2 0@0,2@4", &[NoFiller, Empty, LongNeeded]);
    // In itself: nothing takes no step.
    let alike = format!("{OPTIONAL} {OPTIONAL} 200021220121220220012120022f");
    assert_counted(&alike, "3000323f", "ok 1 0 0 0@0", &[NoFiller, OnlyRoot, Nothing]);
    assert_counted(&alike, "3000300232323f", "ok 2 0 1 0@0,2@2", &[NoFiller, Empty]);
}

/// Two texts share a member of a sequence, or a list that stands for one item: what
/// they share is counted once.
#[test]
fn members_that_share_a_beginning() {
    let setting = "1215011501101f 1215011215021502101f 2000212201220121220122022002212f";
    let clauses = [NoFiller, StaysText, SharedBeginning];
    assert_counted(setting, "3000300132300132323f", "ok 4 0 3 0@0,1@4,1@7", &clauses);
    let setting = "1215011501101f 14011215021502101f 2000212201220121220122022002212f";
    let tree = "3000300131e932300132323f";
    let clauses = [NoFiller, StaysText, Accent, SharedBeginning, SharedList];
    assert_counted(setting, tree, "ok 4 0 3 0@0,1@4,1@9", &clauses);
    // In the reverse order the first stands behind the second.
    let reverse = setting.replace("2122012201212201220220", "2122012202212201220120");
    let clauses = [NoFiller, StaysText, OtherOrder, Accent, SharedBeginning, SharedList];
    assert_counted(&reverse, tree, "ok 4 0 3 0@0,1@7,1@4", &clauses);
}

/// A tower of lists, each of the next, and the types at its end.
fn tower(lists: usize, end: &str) -> String {
    let lists: String = (1..=lists).map(|next| format!("14{next:02x}")).collect();
    format!("{lists}{end}1f")
}

/// The steps of a path, all first ones but the last.
fn path(steps: usize, last: usize) -> String {
    format!("21{}22{last:02x}", "2201".repeat(steps - 1))
}

#[test]
fn paths_of_as_many_steps_as_may_be() {
    // A text.
    let target = tower(MOST_STEPS, "10");
    let text = format!("101f {target} 2000{}2f", path(MOST_STEPS, 1));
    assert_counted(&text, "3000314131e9323f", "ok 13 0 12 0@0", &[NoFiller, OnlyRoot, Accent, LongText]);
    // A sequence of 16 texts, whose paths share all steps but the last.
    let members = "1501".repeat(MOST_MEMBERS);
    let target = tower(MOST_STEPS - 1, &format!("12{}10", "150c".repeat(MOST_MEMBERS)));
    let paths: String = (1..=MOST_MEMBERS).map(|member| path(MOST_STEPS, member)).collect();
    let sequence = format!("12{members}101f {target} 2000{paths}200c212f");
    let tree = format!("3000{}323f", "300132".repeat(MOST_MEMBERS));
    let standing: String = (0..MOST_MEMBERS).map(|member| format!(",1@{}", 24 + 3 * member)).collect();
    let clauses = [NoFiller, StaysText, SharedBeginning, SharedList];
    assert_counted(&sequence, &tree, &format!("ok 28 0 27 0@0{standing}"), &clauses);
    // A list of two empty elements: the steps before the last are taken once if the
    // last leaves the first list.
    let before = format!("1401111f {} 2000{}200c2f", tower_of_sequences(), path(MOST_STEPS, 1));
    let tree = "3000300132300132323f";
    let clauses = [NoFiller, Empty, SeveralItems];
    assert_counted(&before, tree, "ok 14 0 13 0@0,1@24,1@27", &clauses);
    let rest = format!("1401111f {} 2000{}200c2f", tower(MOST_STEPS, "11"), path(MOST_STEPS, 1));
    let clauses = [NoFiller, Empty, RestOfSeveral, LaterList];
    assert_counted(&rest, tree, "ok 25 0 24 0@0,1@24,1@60", &clauses);
}

/// Sequences of one member each, a list at the end of them, and its items.
fn tower_of_sequences() -> String {
    let sequences: String = (1..MOST_STEPS).map(|next| format!("1215{next:02x}")).collect();
    format!("{sequences}14{MOST_STEPS:02x}111f")
}

/// Images of as many levels and as many bytes as there may be, and beyond.
#[test]
fn images_at_the_limits() {
    // An optional choice of itself, each in a list.
    let nested = "1715001f 14011715001f 200021220122012f";
    let tree =
        |choices: usize| to_hex(&[[0x30, 0].repeat(choices), vec![0x32; choices], vec![0x3F]].concat());
    let most = MOST_LEVELS / 2;
    let standing: String = (1..most).map(|choice| format!(",0@{}", 4 * choice)).collect();
    let answer = format!("ok {MOST_LEVELS} 0 {} 0@0{standing}", MOST_LEVELS - 1);
    assert_counted(nested, &tree(most), &answer, &[NoFiller, LongOptional, NothingBelow]);
    assert_counted(nested, &tree(most + 1), "refused 12 5 0", &[]);
    // Texts, each in a list; the last has as many characters as fit.
    let items = "1401101f 14011402101f 200021220122012002212f";
    let most = (MOST_BYTES - ROOT_LENGTH) / 6;
    let left = (MOST_BYTES - ROOT_LENGTH) % 6 / 2;
    let tree = |characters: usize| {
        let last = [&[0x30, 1][..], &[0x31, 0x41].repeat(characters), &[0x32]].concat();
        to_hex(&[&[0x30, 0][..], &[0x30, 1, 0x32].repeat(most - 1), &last, &[0x32, 0x3F]].concat())
    };
    let standing: String = (0..most).map(|item| format!(",1@{}", 4 + 6 * item)).collect();
    let answer = format!("ok {} 0 {} 0@0{standing}", 2 * most + 1, 2 * most);
    assert_eq!((most, left), (9999, 1));
    assert_counted(items, &tree(left), &answer, &[NoFiller, StaysText, RestOfSeveral, LaterList]);
    assert_counted(items, &tree(left + 1), "refused 13 5 0", &[]);
}

/// The bytes of a document's root that holds nothing, and of its end.
const ROOT_LENGTH: usize = 4;

/// A world to count.
fn random_world(rng: &mut Rng) -> World {
    World::varied(rng, [1, 1, 1, 1])
}

/// The image of a crossing and its number of filler elements, if it has one.
fn image_of(crossing: &Crossing) -> Result<(Vec<u8>, u64), Refusal> {
    match crossing.carrying().run().unwrap() {
        Answer::Ok { filler, output, .. } => Ok((output, filler)),
        Answer::Refused(refusal) => Err(refusal),
    }
}

/// Distinct source elements stand at distinct elements of the mapped types, each
/// character occurs as often, and the sum of the elements is right.
#[test]
fn everything_goes_across() {
    let mut rng = Rng::new(30);
    let mut seen: BTreeMap<CrossingClause, usize> = BTreeMap::new();
    for _ in 0..6000 {
        let crossing = crossing_of(&random_world(&mut rng));
        let counted = crossing.run();
        shown(&crossing, &counted).into_iter().for_each(|clause| *seen.entry(clause).or_default() += 1);
        match (image_of(&crossing), counted) {
            (Ok((image, filler)), Ok(counted)) => {
                assert_eq!(counted.filler, filler, "{crossing}");
                assert_law(&crossing, &image, &counted);
            }
            (image, counted) => assert_eq!(image.err(), counted.err(), "{crossing}"),
        }
    }
    let rare =
        CrossingClause::ALL.iter().find(|(clause, _)| seen.get(clause).is_none_or(|&count| count < 50));
    assert!(rare.is_none(), "{rare:?}: {seen:?}");
}

/// Asserts what holds of an image that is counted.
fn assert_law(crossing: &Crossing, image: &[u8], counted: &Counted) {
    let [source, target, embedding, tree] = &crossing.documents;
    let counting = Counting::new(source, target, embedding).unwrap();
    let (from, to) = (nodes(tree), nodes(image));
    let Counted { elements, filler, path, standing } = counted;
    assert_eq!((*elements, filler + path + 1), (to.len() as u64, to.len() as u64), "{crossing}");
    assert_eq!(occurrences(tree), occurrences(image), "{crossing}");
    let sources: Vec<(u8, usize)> = standing.iter().map(|one| (one.element_type, one.source)).collect();
    let expected: Vec<(u8, usize)> = from.iter().map(|node| (node.element_type, node.offset)).collect();
    assert_eq!(sources, expected, "{crossing}");
    let offsets: BTreeSet<usize> = standing.iter().map(|one| one.image).collect();
    assert_eq!(offsets.len(), from.len(), "{crossing}");
    let types: BTreeMap<usize, u8> = to.iter().map(|node| (node.offset, node.element_type)).collect();
    for one in standing {
        assert_eq!(types.get(&one.image), Some(&counting.mapped(one.element_type)), "{crossing}");
    }
}

/// What is refused is refused as by carrying.
#[test]
fn damaged_documents_are_refused_alike() {
    let mut rng = Rng::new(31);
    let mut refused = 0;
    for _ in 0..3000 {
        let world = random_world(&mut rng);
        let crossing = damaged_crossing(&mut rng, &world);
        let (image, counted) = (image_of(&crossing), crossing.run());
        refused += counted.is_err() as usize;
        assert_eq!(image.as_ref().err(), counted.as_ref().err(), "{crossing}");
        if let (Ok((image, _)), Ok(counted)) = (image, counted) {
            assert_law(&crossing, &image, &counted);
        }
    }
    assert!(refused > 1000, "{refused}");
}

/// A second way to the sums and to where source elements stand: by the places that
/// carrying builds, which tell filler apart.
#[test]
fn counts_are_as_placed() {
    let mut rng = Rng::new(32);
    let mut images = 0;
    for _ in 0..3000 {
        let world = random_world(&mut rng);
        let crossing = crossing_of(&world);
        let (Ok((image, _)), Ok(counted)) = (image_of(&crossing), crossing.run()) else { continue };
        images += 1;
        let mapping = world.mapping();
        let mut root = tree::build(&image);
        let places = Places::of(&mapping, &world.tree).filler;
        let filler: u64 = places.iter().map(|place| size_of(element_at(&mut root, place))).sum();
        assert_eq!((counted.filler, counted.path + 1), (filler, size_of(&root) - filler), "{crossing}");
        let reading = Case { entry: Entry::ReadAlong, ..crossing.carrying() };
        let documents = [&reading.documents[..3], std::slice::from_ref(&image)].concat();
        assert_eq!(Survey::of(&Case { documents, ..reading }).followed, counted.path, "{crossing}");
        let offsets: Vec<usize> = counted.standing.iter().map(|one| one.image).collect();
        assert_eq!(Placing::offsets(&mapping, &world.tree, &image), offsets, "{crossing}");
    }
    assert!(images > 2500, "{images}");
}

/// How many elements there are in an element, itself included.
fn size_of(element: &Element) -> u64 {
    1 + element.children.iter().map(size_of).sum::<u64>()
}

/// Goes through an image by the places of its source elements, and notes where
/// each stands.
struct Placing<'a> {
    mapping: &'a Mapping,
    image: &'a [Node],
    /// The source elements met, each by its address and with the offset of the
    /// element it stands at.
    met: BTreeMap<Vec<usize>, usize>,
}

impl Placing<'_> {
    /// The offsets at which the elements of a source tree stand, in document order.
    fn offsets(mapping: &Mapping, root: &Element, image: &[u8]) -> Vec<usize> {
        let mut placing = Placing { mapping, image: &nodes(image), met: BTreeMap::new() };
        placing.element(root, Vec::new(), 0);
        // Addresses are in document order where an earlier child comes first.
        placing.met.into_values().collect()
    }

    /// Notes a source element with an address, which stands at an element.
    fn element(&mut self, element: &Element, address: Vec<usize>, at: usize) {
        let t = element.element_type as usize;
        let mapping = self.mapping;
        self.met.insert(address.clone(), self.image[at].offset);
        let place = &mapping.types[t].alternatives[alternative(&mapping.models[t], element)];
        let children: Vec<usize> = (0..element.children.len()).collect();
        self.place(place, element, &address, &children, at);
    }

    /// Goes on from a place below a source element; `children` are those of its
    /// children that can be met there.
    fn place(&mut self, place: &Place, element: &Element, address: &[usize], children: &[usize], at: usize) {
        let image = self.image;
        let below = &image[at].children;
        match place {
            Place::Child(edge) => {
                let number = children[*edge];
                self.element(&element.children[number], [address, &[number]].concat(), at);
            }
            Place::Sequence(members) => {
                for ((_, member), &child) in members.iter().zip(below) {
                    member.iter().for_each(|member| self.place(member, element, address, children, child));
                }
            }
            Place::Choice(_, rest) | Place::Item(_, rest) => {
                self.place(rest, element, address, children, below[0]);
            }
            Place::Items(_, rest) => {
                for (number, &item) in below.iter().enumerate() {
                    self.place(rest, element, address, &[number], item);
                }
            }
            Place::Filler(_) | Place::Characters | Place::Nothing => {}
        }
    }
}

/// In an image that lacks something on a path, or has another item in a list that
/// stands for one, no source element is said to stand anywhere.
#[test]
fn other_images_are_told_apart() {
    let documents: Vec<Vec<u8>> = LISTS.split_whitespace().map(hex).collect();
    let counting = Counting::new(&documents[0], &documents[1], &documents[2]).unwrap();
    let tree = hex("30003001314132323f");
    let walked = |image: &str| counting.standing(&tree, &hex(image)).map(|standing| standing.len());
    assert_eq!(walked("30003001300230033141323232323f"), Some(2));
    // The item's list is empty or has two items, or the item is missing.
    for image in ["3000300132323f", "3000300130023003323230023232323f", "3000323f"] {
        assert_eq!(walked(image), None, "{image}");
    }
    assert_ne!(occurrences(&tree), occurrences(&hex("30003001300230033142323232323f")));
}

#[test]
fn small_crossings_are_small() {
    let mut rng = Rng::new(33);
    let mut seen: BTreeSet<Option<CrossingClause>> = BTreeSet::new();
    for _ in 0..20_000 {
        let crossing = random_small_crossing(&mut rng);
        let lengths = crossing.documents.each_ref().map(Vec::len);
        assert!(lengths.iter().all(|&length| length <= 60) && lengths.iter().sum::<usize>() <= 110);
        let clauses = shown(&crossing, &crossing.run());
        seen.extend(clauses.iter().copied().map(Some).chain(clauses.is_empty().then_some(None)));
    }
    assert_eq!(seen.len(), CrossingClause::ALL.len() + 1, "{seen:?}");
}
