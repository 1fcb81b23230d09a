//! Reading along the paths (paper 02, N4): cases worked by hand, and what holds
//! of every random target document that is read.

use lafindry_reference::clauses::reading::{shown, ReadingClause, Survey};
use lafindry_reference::generate::{edited_case, random_small_edited_case, Edits, Rng, World};
use lafindry_reference::tree::{self, levels};
use lafindry_reference::vectors::{check_line, from_hex, Answer, Case, Entry};
use lafindry_reference::{bring_back, carry, judge_tree, read_along};
use lafindry_reference::{ReadAlong, Refusal, MOST_BYTES, OUTPUT, TREE};
use std::collections::BTreeMap;
use ReadingClause::*;

/// The bytes that hexadecimal digits write.
fn hex(text: &str) -> Vec<u8> {
    from_hex(text).expect("hexadecimal")
}

/// Asserts the answer to reading a tree and what it shows.
fn assert_shows(setting: &str, tree: &str, room: usize, answer: &str, clauses: &[ReadingClause]) {
    let line = format!("read_along {setting} {tree} {room} -> {answer}");
    let (case, answer) = check_line(&line).unwrap_or_else(|message| panic!("{line}: {message}"));
    assert_eq!(shown(&case, &answer), clauses, "{line}");
}

/// A list of texts; in the target a list of lists of lists of texts.
const LISTS: &str = "1401101f 140114021403101f 2000212201220120022122012f";

#[test]
fn lists_for_one_item() {
    assert_shows(LISTS, "3000323f", 4, "ok 4 0 3000323f", &[Image, NoneAside, NoItems]);
    let one = "30003001300230033141323232323f";
    assert_shows(LISTS, one, 9, "ok 9 0 30003001314132323f", &[Image, NoneAside]);
    // The second text and the second list are on no followed path.
    let two = "30003001300230033230033141323230023232323f";
    let clauses = [Edited, SomeAside, CharactersAside, FirstOfSeveral];
    assert_shows(LISTS, two, 7, "ok 7 2 3000300132323f", &clauses);
    // Two items, of which the second has a second list.
    let items = "3000300130023003323232300130023003323230023232323f";
    let clauses = [Edited, SomeAside, FirstOfSeveral, SeveralItems];
    assert_shows(LISTS, items, 10, "ok 10 1 3000300132300132323f", &clauses);
}

#[test]
fn items_that_are_missing() {
    // The text's list is there, its item is not: the text is blamed.
    assert_shows(LISTS, "3000300130023232323f", 9, "refused 17 4 4", &[Below, TextItem]);
    assert_shows(LISTS, "3000300132323f", 9, "refused 17 4 0", &[AtRoot, FirstItem]);
    // The list is blamed for its second item before its first, which can't be
    // read either.
    let own = "3000300130023232300132323f";
    assert_shows(LISTS, own, 9, "refused 17 4 0", &[AtRoot, OwnFirst, LaterItem]);
    let later = "3000300130023003323232300130023232323f";
    assert_shows(LISTS, later, 9, "refused 17 4 13", &[Below, TextItem]);
    assert_shows(LISTS, later, 0, "refused 17 4 13", &[Below, BeforeShort, TextItem]);
    // A member of a sequence in a list.
    let sequence = "121501101f 1401101f 20002122012001212f";
    assert_shows(sequence, "3000323f", 9, "refused 17 4 0", &[AtRoot, SequenceItem]);
}

#[test]
fn outputs_that_are_too_short() {
    let one = "30003001300230033141323232323f";
    assert_shows(LISTS, one, 8, "refused 14 5 0", &[OneShort]);
    assert_shows(LISTS, one, 7, "refused 14 5 0", &[]);
    assert_shows(LISTS, one, 0, "refused 14 5 0", &[NoOutput]);
}

/// An optional choice of a text and an empty type, and a needed one.
const OPTIONAL: &str = "171501150210111f";
const NEEDED: &str = "131501150210111f";

#[test]
fn choices_behind_a_list() {
    // A list of such an optional choice.
    let listed = "1401171502150310111f 20002122012201212201220220022120032f";
    let [optional, needed] = [OPTIONAL, NEEDED].map(|source| format!("{source} {listed}"));
    let [none, nothing, member] = ["3000323f", "3000300132323f", "3000300130033232323f"];
    assert_shows(&optional, none, 9, "refused 17 4 0", &[AtRoot, OptionalItem]);
    assert_shows(&optional, nothing, 9, "ok 4 0 3000323f", &[Image, NoneAside, Nothing]);
    assert_shows(&optional, member, 9, "ok 7 0 3000300232323f", &[Image, NoneAside, Member]);
    assert_shows(&needed, none, 9, "refused 17 4 0", &[AtRoot, NeededItem]);
    assert_shows(&needed, nothing, 9, "refused 17 4 0", &[AtRoot, NeededNothing]);
    assert_shows(&needed, member, 9, "ok 7 0 3000300232323f", &[Image, NoneAside]);
    // Nothing in the first item, a text in the second.
    let first = "30003001323001300231413232323f";
    let clauses = [Edited, SomeAside, CharactersAside, FirstOfSeveral, Nothing, NothingFirst];
    assert_shows(&optional, first, 9, "ok 4 2 3000323f", &clauses);
    assert_shows(&needed, first, 9, "refused 17 4 0", &[AtRoot, NeededNothing]);
}

/// The target's choice has a third member, on no path.
#[test]
fn choices_with_another_member() {
    let embedding = "200021220121220220012120022f";
    let needed = format!("{NEEDED} 131501150215031011111f {embedding}");
    assert_shows(&needed, "3000300332323f", 9, "refused 17 4 0", &[AtRoot, NeededMember]);
    let optional = format!("{OPTIONAL} 171501150215031011111f {embedding}");
    assert_shows(&optional, "3000300332323f", 9, "refused 17 4 0", &[AtRoot, OptionalMember]);
}

/// Two texts that stand in the reverse order in the target, each in a list that
/// is empty: the first of the source is blamed, which stands behind the other.
#[test]
fn the_first_in_the_source_is_blamed() {
    let setting = "1215011501101f 12150115011402101f 200021220221220120012122012f";
    let clauses = [Below, Several, SourceOrder, BeforeShort, TextItem];
    assert_shows(setting, "3000300132300132323f", 0, "refused 17 4 5", &clauses);
}

/// Two members share a list, whose first item is followed for both.
#[test]
fn members_share_the_first_item() {
    let setting = "1215011501101f 14011215021502101f 2000212201220121220122022002212f";
    let tree = "30003001300231413230023142323230013002314332300231443232323f";
    let clauses = [Edited, SomeAside, CharactersAside, FirstOfSeveral];
    assert_shows(setting, tree, 14, "ok 14 3 300030013141323001314232323f", &clauses);
}

/// Reads a document into so many bytes.
fn read(documents: [&[u8]; 4], room: usize) -> Result<(Vec<u8>, u64), Refusal> {
    let [source, target, embedding, tree] = documents;
    let mut output = vec![0; room];
    let ReadAlong { length, aside } = read_along(source, target, embedding, tree, &mut output)?;
    output.truncate(length as usize);
    Ok((output, aside))
}

/// What is read need not be carried again. An item's filler is a choice whose two
/// members are equally high: a sequence of 16, which filler takes, and one of a
/// single element, which stands in the document that is read.
#[test]
fn what_is_read_may_have_no_image() {
    let (source, embedding) = (hex("1401111f"), hex("200021220120012f"));
    let target = [hex("1401131502150312"), hex("1504").repeat(16), hex("121504111f")].concat();
    let document = |item: &str| [hex("3000"), hex(item).repeat(2000), hex("323f")].concat();
    let tree = document("300130033004323232");
    let expected = document("300132");
    assert_eq!(read([&source, &target, &embedding, &tree], 6004), Ok((expected.clone(), 4000)));
    let carried = carry(&source, &target, &embedding, &expected, &mut [0; MOST_BYTES]);
    assert_eq!(carried, Err(Refusal { number: 13, document: OUTPUT, mark: 0 }));
}

/// A world to edit.
fn random_world(rng: &mut Rng) -> World {
    World::varied(rng, [1, 1, 1, 1])
}

/// The documents of a case.
fn documents_of(case: &Case) -> [&[u8]; 4] {
    [0, 1, 2, 3].map(|at| &case.documents[at][..])
}

/// A second way to what is read: by the places that carrying builds.
#[test]
fn readings_are_as_surveyed() {
    let mut rng = Rng::new(20);
    let mut seen: BTreeMap<&str, usize> = BTreeMap::new();
    for number in 0..6000 {
        let world = random_world(&mut rng);
        let Some(edits) = Edits::of(&world) else { continue };
        let trees: Vec<_> = (0..4).map(|_| edits.draw(&mut rng)).collect();
        let mut cases: Vec<Case> = trees.iter().map(|tree| edited_case(&mut rng, &world, tree)).collect();
        if number % 2 == 0 {
            cases.push(random_small_edited_case(&mut rng));
        }
        for case in cases {
            *seen.entry(assert_surveyed(&case)).or_default() += 1;
        }
    }
    assert!(seen["read"] > 8000 && seen["refused 17"] > 3000 && seen["too short"] > 1000, "{seen:?}");
}

/// Asserts that a case has the answer that surveying its document gives. Gives
/// what it is.
fn assert_surveyed(case: &Case) -> &'static str {
    let [source, target, _, tree] = documents_of(case);
    let answer = case.run().unwrap();
    if let Err(refusal) = judge_tree(target, tree) {
        assert_eq!(answer, Answer::Refused(refusal));
        return "refused";
    }
    let survey = Survey::of(case);
    let expected = survey.source.to_bytes();
    match (answer, survey.stops.first()) {
        (Answer::Ok { value, filler, output }, None) => {
            assert_eq!((value as usize, &output), (expected.len(), &expected), "{case}");
            assert_eq!(filler + survey.followed + 1, tree::count(tree) as u64, "{case}");
            assert!(judge_tree(source, &output).is_ok(), "{case}");
            assert!(output.len() <= tree.len() && levels(&output) <= levels(tree), "{case}");
            "read"
        }
        (Answer::Refused(Refusal { number: 14, document: OUTPUT, mark: 0 }), None) => {
            assert!(case.output_length < expected.len(), "{case}");
            "too short"
        }
        (Answer::Refused(refusal), Some(stop)) => {
            assert_eq!(refusal, Refusal::new(17, TREE, stop.offset), "{case}");
            "refused 17"
        }
        (answer, stop) => panic!("{case} -> {answer}, but {stop:?}"),
    }
}

/// On an image reading gives what bringing back gives, and counts what carrying
/// counts. With other filler, and further items in lists that stand for one, it
/// gives the same.
#[test]
fn images_are_read_and_edits_aside_change_nothing() {
    let mut rng = Rng::new(21);
    let (mut images, mut edited, mut refused) = (0, 0, 0);
    for _ in 0..3000 {
        let world = random_world(&mut rng);
        let Some(edits) = Edits::of(&world) else { continue };
        let embedded = &world.embedded;
        let (s, t, e) =
            (embedded.source.to_bytes(), embedded.target.to_bytes(), embedded.embedding.to_bytes());
        let source = world.tree.to_bytes();
        let mut output = vec![0; MOST_BYTES];
        let carried = carry(&s, &t, &e, &source, &mut output).unwrap();
        let image = output[..carried.length as usize].to_vec();
        assert_eq!(read([&s, &t, &e, &image], source.len()), Ok((source.clone(), carried.filler)));
        assert_eq!(bring_back(&s, &t, &e, &image, &mut output), Ok(source.len() as u64));
        images += 1;
        for _ in 0..4 {
            let other = edits.edited_aside(&mut rng, 3).to_bytes();
            if other.len() > MOST_BYTES || judge_tree(&t, &other).is_err() {
                continue;
            }
            let (read, aside) = read([&s, &t, &e, &other], source.len()).expect("it can be read");
            assert_eq!(read, source);
            let more = tree::count(&other) as i64 - tree::count(&image) as i64;
            assert_eq!(aside as i64, carried.filler as i64 + more);
            edited += (other != image) as usize;
            refused += bring_back(&s, &t, &e, &other, &mut output).is_err() as usize;
        }
    }
    assert!(images > 2000 && edited > 2000 && refused == edited, "{images} {edited} {refused}");
}

/// Everything that a reading can show is shown by some edited document.
#[test]
fn edits_show_every_clause() {
    let mut rng = Rng::new(22);
    let mut seen: BTreeMap<ReadingClause, usize> = BTreeMap::new();
    for _ in 0..4000 {
        let world = random_world(&mut rng);
        let Some(edits) = Edits::of(&world) else { continue };
        for _ in 0..3 {
            let tree = edits.draw(&mut rng);
            let case = edited_case(&mut rng, &world, &tree);
            assert_eq!(case.entry, Entry::ReadAlong);
            let answer = case.run().unwrap();
            shown(&case, &answer).into_iter().for_each(|clause| *seen.entry(clause).or_default() += 1);
        }
    }
    let rare = ReadingClause::ALL.iter().find(|(clause, _)| seen.get(clause).is_none_or(|&count| count < 5));
    assert!(rare.is_none(), "{rare:?}: {seen:?}");
}
