//! The clauses about optional choices, those about lists on the paths of
//! choices, those about characters, what explanations of clashes show and what
//! operations on tables show are told apart as they should be: cases worked by
//! hand, each with its answer and what it shows.

use lafindry_reference::clauses::characters::{self, has_accent, is_tree_judged, CharacterClause};
use lafindry_reference::clauses::clashes::{self, ClashClause};
use lafindry_reference::clauses::lists::{self, has_list_on_choice, ListClause};
use lafindry_reference::clauses::operations::{self as operation_clauses, OperationClause};
use lafindry_reference::clauses::{has_optional, shown, Clause};
use lafindry_reference::vectors::check_line;
use lafindry_reference::vectors::{explanations, operations};

/// An optional choice of a text and an empty type, and a needed one.
const OPTIONAL: &str = "171501150210111f";
const NEEDED: &str = "131501150210111f";
/// A sequence that has that optional choice as both of its members.
const TWICE: &str = "1215031503101117150115021f";
/// Both paths go through the second member.
const SECOND: &str = "20002122022201212202220220012120022f";

/// Asserts the answer of a line and the clauses that it shows.
fn assert_shows(line: &str, clauses: &[Clause]) {
    let (case, answer) = check_line(line).unwrap_or_else(|message| panic!("{line}: {message}"));
    assert_eq!(shown(&case, &answer), clauses, "{line}");
}

/// Asserts the refusal of an embedding and its clause.
fn assert_embedding(source: &str, target: &str, embedding: &str, refusal: &str, clauses: &[Clause]) {
    assert_shows(&format!("judge_embedding {source} {target} {embedding} -> refused {refusal}"), clauses);
}

#[test]
fn table_clauses() {
    assert_shows("judge_table 171f -> refused 2 1 1", &[Clause::NoMember]);
    assert_shows("judge_table 121f -> refused 2 1 1", &[]);
    assert_shows("judge_table 17150010 -> refused 2 1 4", &[]);
    assert_shows("judge_table 1715011f -> refused 4 1 1", &[Clause::MemberWithoutType]);
    assert_shows("judge_table 17150014021f -> refused 4 1 3", &[]);
    assert_shows("judge_table 17150015001f -> refused 5 1 3", &[Clause::RepeatedMember]);
    assert_shows("judge_table 171500131500150015011f -> refused 5 1 6", &[]);
    let members = "1500".repeat(17);
    assert_shows(&format!("judge_table 17{members}1f -> refused 3 1 33"), &[Clause::SeventeenthMember]);
    assert_shows(&format!("judge_table 17150012{members}1f -> refused 3 1 36"), &[]);
    assert_shows("judge_table 17150117150015011f -> ok 2 0 -", &[Clause::OnlyInstance]);
    assert_shows("judge_table 171501101f -> ok 2 0 -", &[]);
}

#[test]
fn steps_and_ends() {
    let no_step = "200021220321220220012120022f";
    assert_embedding(OPTIONAL, OPTIONAL, no_step, "4 3 3", &[Clause::NoSuchStep]);
    assert_embedding(OPTIONAL, NEEDED, no_step, "4 3 3", &[]);
    let wrong_end = "200021220221220220012120022f";
    assert_embedding(OPTIONAL, OPTIONAL, wrong_end, "8 3 2", &[Clause::WrongEnd]);
    assert_embedding(NEEDED, OPTIONAL, wrong_end, "8 3 2", &[]);
}

#[test]
fn clauses_of_check_9() {
    let apart = "20002122012201212202220220012120022f";
    assert_embedding(OPTIONAL, TWICE, apart, "9 3 7", &[Clause::OtherBeginning]);
    let needed = TWICE.replace("17", "13");
    assert_embedding(OPTIONAL, &needed, SECOND, "9 3 2", &[Clause::NeededChoiceFirst]);
    let sequence = "121501150210111f";
    let no_choice = "200021220121220220012120022f";
    assert_embedding(OPTIONAL, sequence, no_choice, "9 3 2", &[Clause::NoChoiceOnPath]);
    assert_embedding(NEEDED, sequence, no_choice, "9 3 2", &[]);
    // The second path begins otherwise, and its first choice is needed.
    let both_kinds = "12150115021715031504131503150410111f";
    let at_once = "20002122012201212202220220032120042f";
    assert_embedding(OPTIONAL, both_kinds, at_once, "9 3 7", &[]);
}

#[test]
fn other_types_through_an_optional_choice() {
    let target = "171501121502101f";
    let member = "200021220122012002212f";
    assert_embedding("121501101f", target, member, "9 3 2", &[Clause::SequenceThrough]);
    assert_embedding("1401101f", "1715011402101f", member, "9 3 2", &[Clause::ListThrough]);
    // Without a list on the path the optional choice is not the only fault.
    assert_embedding("1401101f", target, member, "9 3 2", &[]);
    assert_embedding("101f", target, "200021220122012f", "9 3 2", &[Clause::TextThrough]);
}

#[test]
fn clauses_of_check_10() {
    let source = "171501150211111f";
    let target = "1715011215021502131503150411111f";
    let clash = |embedding: &str, mark: usize, clause| {
        assert_embedding(source, target, embedding, &format!("10 3 {mark}"), &[clause]);
    };
    clash("20002122012201220121220122012201200320032f", 9, Clause::EqualPaths);
    clash("20002122012122012201200120022f", 5, Clause::EarlierBeginsLater);
    clash("20002122012201212201200220012f", 7, Clause::LaterBeginsEarlier);
    clash("20002122012201220121220122022202200320042f", 9, Clause::PartingAtSequence);
    let apart = "20002122012201212202220220012120022f";
    assert_embedding(NEEDED, TWICE, apart, "10 3 7", &[Clause::ChoicePartingBefore]);
    assert_embedding(NEEDED, &TWICE.replace("17", "13"), apart, "10 3 7", &[]);
}

#[test]
fn tree_clauses() {
    let tree = |tree: &str, answer: &str, clauses: &[Clause]| {
        assert_shows(&format!("judge_tree {OPTIONAL} {tree} -> {answer}"), clauses);
    };
    tree("3000300032323f", "refused 11 4 2", &[Clause::WrongMember]);
    tree("3000300232300132323f", "refused 11 4 5", &[Clause::SecondMember]);
    tree("30003141323f", "refused 11 4 2", &[Clause::Character]);
    tree("30003002314132323f", "refused 11 4 4", &[]);
    tree("3002323f", "refused 11 4 0", &[]);
    tree("3000323f", "ok 1 0 -", &[Clause::ConformsEmpty]);
    tree("3000300232323f", "ok 2 0 -", &[]);
}

#[test]
fn no_image_clauses() {
    let refused = |documents: &str, clauses: &[Clause]| {
        assert_shows(&format!("bring_back {documents} 60 -> refused 15 4 0"), clauses);
    };
    // The first member is filler, and holds an empty element.
    refused(&format!("{OPTIONAL} {TWICE} {SECOND} 3000300330023232300332323f"), &[Clause::FullForNothing]);
    // Two such faults.
    let three = TWICE.replace("1215031503", "12150315031503");
    refused(&format!("{OPTIONAL} {three} {SECOND} 3000300330023232300332300330023232323f"), &[]);
    // A needed choice of two of the three members of an optional one.
    let (source, target) = ("131501150211111f", "171501150215031111111f");
    let needed = format!("{source} {target} 2000212201212202200120022f");
    refused(&format!("{needed} 3000323f"), &[Clause::EmptyForMember]);
    refused(&format!("{needed} 3000300332323f"), &[Clause::FullForOther]);
}

#[test]
fn carried_and_brought_back() {
    let image = "3000300332300332323f";
    let setting = format!("{OPTIONAL} {TWICE} {SECOND}");
    assert_shows(
        &format!("carry {setting} 3000323f 60 -> ok 10 1 {image}"),
        &[Clause::CarriedEmpty, Clause::CarriedShared],
    );
    assert_shows(&format!("bring_back {setting} {image} 60 -> ok 4 0 3000323f"), &[Clause::BroughtBackEmpty]);
    assert_shows(
        &format!("carry {setting} 3000300232323f 60 -> ok 13 1 3000300332300330023232323f"),
        &[Clause::CarriedFull],
    );
    // An optional choice of itself: a full one, which holds an empty one.
    let nested = "1715001f 1715001f 200021220122012f";
    assert_shows(
        &format!("carry {nested} 3000300032323f 60 -> ok 10 0 3000300030003232323f"),
        &[Clause::CarriedEmpty, Clause::CarriedFull, Clause::CarriedNested, Clause::CarriedThenOptional],
    );
    let needed = "131501150211111f 171501150211111f 2000212201212202200120022f";
    assert_shows(
        &format!("carry {needed} 3000300132323f 60 -> ok 7 0 3000300132323f"),
        &[Clause::CarriedThrough],
    );
}

/// Only a command 17 of a table counts, not an operand or another document.
#[test]
fn cases_with_an_optional_choice() {
    let has = |line: &str| has_optional(&check_line(line).unwrap().0);
    assert!(has("judge_table 171f -> refused 2 1 1"));
    assert!(has("judge_embedding 101f 101015171717 - -> refused 2 2 2"));
    assert!(!has("judge_table 14171f -> refused 4 1 0"));
    assert!(!has("judge_tree 101f 17 -> refused 2 4 0"));
    assert!(!has("judge_embedding 101f 101f 17 -> refused 2 3 0"));
}

/// A list of optional choices.
const BELOW_LIST: &str = "1401171502150310111f";
/// The paths through its item.
const BY_ITEM: &str = "20002122012201212201220220022120032f";
/// A choice of a list and an empty type.
const BEHIND: &str = "1315011503140210111f";
/// The paths of it, one through the list.
const BY_LIST: &str = "2000212201220121220220022120032f";

/// Asserts the answer of a line and the clauses about lists that it shows.
fn assert_lists(line: &str, clauses: &[ListClause]) {
    let (case, answer) = check_line(line).unwrap_or_else(|message| panic!("{line}: {message}"));
    assert_eq!(lists::shown(&case, &answer), clauses, "{line}");
}

/// Asserts the refusal of an embedding and its clauses about lists.
fn assert_refused(documents: [&str; 3], refusal: &str, clauses: &[ListClause]) {
    let documents = documents.join(" ");
    assert_lists(&format!("judge_embedding {documents} -> refused {refusal}"), clauses);
}

#[test]
fn lists_and_wrong_steps() {
    let second = BY_ITEM.replacen("2201", "2202", 1);
    assert_refused([NEEDED, BELOW_LIST, &second], "4 3 3", &[ListClause::NoSuchStep]);
    let sequence = "121501150210111f";
    assert_refused([sequence, BELOW_LIST, &second], "4 3 3", &[]);
    let (no_choice, by_lists) = ("12150115021403140410111f", "20002122012201212202220120032120042f");
    assert_refused([NEEDED, no_choice, by_lists], "9 3 2", &[ListClause::NeededWithoutChoice]);
    assert_refused([OPTIONAL, no_choice, by_lists], "9 3 2", &[ListClause::OptionalWithoutChoice]);
    assert_refused([OPTIONAL, sequence, "200021220121220220012120022f"], "9 3 2", &[]);
    let needed = BELOW_LIST.replace("17", "13");
    assert_refused([OPTIONAL, &needed, BY_ITEM], "9 3 2", &[ListClause::NeededChoiceBehind]);
    // The list comes after the needed choice.
    assert_refused([OPTIONAL, BEHIND, BY_LIST], "9 3 2", &[]);
}

#[test]
fn lists_and_beginnings() {
    let one_list = "12150115021402171503150410111f";
    let unlike = "200021220122012201212202220220032120042f";
    assert_refused([OPTIONAL, one_list, unlike], "9 3 9", &[ListClause::OtherBeginning]);
    // No list is in either beginning.
    let apart = "20002122012201212202220220012120022f";
    assert_refused([OPTIONAL, TWICE, apart], "9 3 7", &[]);
}

#[test]
fn other_types_through_a_choice_and_a_list() {
    let (target, member) = ("1715011402101f", "200021220122012002212f");
    assert_refused(["121501101f", target, member], "9 3 2", &[ListClause::SequenceThrough]);
    assert_refused(["1401101f", target, member], "9 3 2", &[ListClause::ListThrough]);
    assert_refused(["101f", target, "200021220122012f"], "9 3 2", &[ListClause::TextThrough]);
    // Without a list on the path.
    assert_refused(["121501101f", "171501121502101f", member], "9 3 2", &[]);
}

#[test]
fn clashes_with_a_list_in_the_common_beginning() {
    let clash = |embedding, mark: usize, clause| {
        let documents = ["131501150211111f", "14011315021503121503111f", embedding];
        assert_refused(documents, &format!("10 3 {mark}"), &[clause]);
    };
    clash("200021220122022122012202200320032f", 7, ListClause::EqualPaths);
    clash("2000212201220121220122012201200220032f", 7, ListClause::EarlierBeginsLater);
    clash("2000212201220122012122012201200320022f", 9, ListClause::LaterBeginsEarlier);
    let beside = "14011215021502131503150410111f";
    let apart = "2000212201220122012122012202220220032120042f";
    assert_refused([NEEDED, beside, apart], "10 3 9", &[ListClause::PartingAtSequence]);
    // They part before the list.
    let one_list = "12150115021402171503150410111f";
    let unlike = "200021220122012201212202220220032120042f";
    assert_refused([NEEDED, one_list, unlike], "10 3 9", &[]);
}

#[test]
fn lists_with_other_than_one_item() {
    let refused = |documents: &str, clauses: &[ListClause]| {
        assert_lists(&format!("bring_back {documents} 60 -> refused 15 4 0"), clauses);
    };
    let optional = format!("{OPTIONAL} {BELOW_LIST} {BY_ITEM}");
    refused(&format!("{optional} 3000300132300132323f"), &[ListClause::SecondItem]);
    refused(&format!("{optional} 3000323f"), &[ListClause::MissingItem]);
    // Three items; an item whose filler is in no image.
    refused(&format!("{optional} 3000300132300132300132323f"), &[]);
    refused(&format!("{NEEDED} {BELOW_LIST} {BY_ITEM} 3000323f"), &[]);
    // A list on the path of a sequence without an item, and one that is no path's with an item.
    refused("121501111f 1401111f 200021220120012f 3000323f", &[]);
    refused("111f 1401111f 20002f 3000300132323f", &[]);
}

#[test]
fn carried_through_lists() {
    let (nothing, text, empty) = ("3000323f", "30003001314132323f", "3000300232323f");
    let carried = |setting: [&str; 3], tree, answer, clauses: &[ListClause]| {
        let setting = setting.join(" ");
        assert_lists(&format!("carry {setting} {tree} 60 -> ok {answer}"), clauses);
    };
    use ListClause::*;
    let below = [OPTIONAL, BELOW_LIST, BY_ITEM];
    carried(below, nothing, "7 0 3000300132323f", &[EmptyBehind, FirstStep]);
    carried(below, text, "12 0 30003001300231413232323f", &[OptionalBefore, FirstStep]);
    let needed = [NEEDED, BELOW_LIST, BY_ITEM];
    carried(needed, text, "12 0 30003001300231413232323f", &[NeededBefore, FirstStep]);
    let behind = [NEEDED, BEHIND, BY_LIST];
    carried(behind, text, "12 0 30003001300231413232323f", &[NeededAfter]);
    // The other member's path has no list.
    carried(behind, empty, "7 0 3000300332323f", &[]);
    let between = ["13150115041402131503150410111f", "2000212201220122012122012201220220032120042f"];
    carried([NEEDED, between[0], between[1]], empty, "13 0 3000300130023004323232323f", &[NeededBetween]);
    let four = [
        OPTIONAL,
        "14011215021507171503140414051315061507140811101f",
        "20002122012201220122012201220122012122012201220122012201220220082120072f",
    ];
    let image = "30003001300230033004300530063008314132323232323230073232323f";
    let all = [OptionalBefore, OptionalBetween, OptionalAfter, FirstStep, SeveralLists];
    carried(four, text, &format!("30 1 {image}"), &all);
}

#[test]
fn brought_back_through_lists() {
    let brought = |source: &str, image: &str, answer: &str, clauses: &[ListClause]| {
        let line = format!("bring_back {source} {BELOW_LIST} {BY_ITEM} {image} 60 -> ok {answer}");
        assert_lists(&line, clauses);
    };
    let (nothing, text) = ("3000300132323f", "30003001300231413232323f");
    brought(OPTIONAL, nothing, "4 0 3000323f", &[ListClause::BroughtBackEmpty]);
    brought(OPTIONAL, text, "9 0 30003001314132323f", &[ListClause::BroughtBackFull]);
    brought(NEEDED, text, "9 0 30003001314132323f", &[ListClause::BroughtBackNeeded]);
}

/// Only paths of choices count, in accepted tables and an embedding of the
/// right form; there a step from a list that doesn't exist counts too.
#[test]
fn cases_with_a_list_on_the_path_of_a_choice() {
    let has = |line: &str| has_list_on_choice(&check_line(line).unwrap().0);
    let judged = |documents: [&str; 3], answer: &str| {
        has(&format!("judge_embedding {} -> {answer}", documents.join(" ")))
    };
    assert!(judged([NEEDED, BELOW_LIST, BY_ITEM], "ok 3 0 -"));
    let second = BY_ITEM.replacen("2201", "2202", 1);
    assert!(judged([NEEDED, BELOW_LIST, &second], "refused 4 3 3"));
    assert!(!judged([NEEDED, BELOW_LIST, &BY_ITEM[2..]], "refused 2 3 0"));
    assert!(!judged(["121501111f", "1401111f", "200021220120012f"], "ok 1 0 -"));
    assert!(!has(&format!("judge_table {BELOW_LIST} -> ok 4 0 -")));
}

/// A text carried to the second of two texts; the first is filler.
const BESIDE_FILLER: &str = "101f 1215011501101f 20002122022f";

/// Asserts the answer of a line and the clauses about characters that it shows.
fn assert_characters(line: &str, clauses: &[CharacterClause]) {
    let (case, answer) = check_line(line).unwrap_or_else(|message| panic!("{line}: {message}"));
    assert_eq!(characters::shown(&case, &answer), clauses, "{line}");
}

/// Asserts the answer of judging a tree and the clauses about characters.
fn assert_judged(documents: &str, answer: &str, clauses: &[CharacterClause]) {
    assert_characters(&format!("judge_tree {documents} -> {answer}"), clauses);
}

#[test]
fn accents_where_none_may_stand() {
    use CharacterClause::*;
    let kinds = [
        ("111f 300031e9323f", InEmpty, ForbiddenInEmpty),
        ("121501101f 300031e9300132323f", InSequence, ForbiddenInSequence),
        ("131501150210111f 300031e9300232323f", InNeeded, ForbiddenInNeeded),
        ("171501150210111f 300031e9323f", InOptional, ForbiddenInOptional),
        ("1401101f 300031e9323f", InList, ForbiddenInList),
    ];
    for (documents, accent, forbidden) in kinds {
        assert_judged(documents, "refused 11 4 2", &[accent]);
        assert_judged(&documents.replace("e9", "9f"), "refused 4 4 2", &[forbidden]);
        assert_judged(&documents.replace("e9", "41"), "refused 11 4 2", &[]);
    }
    // The mark is an element, or stands in none.
    assert_judged("121501101f 3000300031e932323f", "refused 11 4 2", &[]);
    assert_judged("121501101f 300131e9323f", "refused 11 4 0", &[]);
}

#[test]
fn forbidden_characters() {
    use CharacterClause::*;
    for (character, clause) in
        [("00", ForbiddenLow), ("1f", ForbiddenLow), ("7f", ForbiddenHigh), ("9f", ForbiddenHigh)]
    {
        assert_judged(&format!("101f 300031e931{character}323f"), "refused 4 4 4", &[clause]);
    }
    // The root is of another type; an accent stands in the empty element.
    assert_judged("121501101f 30013180323f", "refused 4 4 2", &[ForbiddenHigh, ForbiddenBehind]);
    assert_judged("111f 300031e93100323f", "refused 4 4 4", &[ForbiddenInEmpty, ForbiddenBehind]);
    // The fault of 11 is behind it; the mark is a type.
    assert_judged("111f 3000310031e9323f", "refused 4 4 2", &[ForbiddenInEmpty]);
    assert_judged("121501101f 30003002310032323f", "refused 4 4 2", &[]);
}

#[test]
fn checks_before_that_of_characters() {
    use CharacterClause::*;
    assert_judged("101f 3000318032", "refused 2 4 5", &[FormFirst]);
    assert_judged("121501101f 300030023100323231e93f", "refused 2 4 8", &[FormFirst]);
    // The form breaks before the character, or at the command that lacks it.
    assert_judged("101f 30003f3180323f", "refused 2 4 2", &[]);
    assert_judged("101f 300031e931", "refused 2 4 4", &[]);
    let deep = |first: &str, last: &str| {
        format!("14001f 3000{first}{}{last}{}3f", "3000".repeat(128), "32".repeat(129))
    };
    assert_judged(&deep("3180", ""), "refused 3 4 258", &[LevelsFirst]);
    assert_judged(&deep("31e9", ""), "refused 3 4 258", &[]);
    assert_judged(&deep("", "3180"), "refused 3 4 256", &[]);
}

#[test]
fn accents_in_filler() {
    let refused = |image: &str, clauses: &[CharacterClause]| {
        assert_characters(&format!("bring_back {BESIDE_FILLER} {image} 60 -> refused 15 4 0"), clauses);
    };
    refused("3000300131e932300132323f", &[CharacterClause::InFiller]);
    // Only a letter is in the filler.
    refused("30003001314132300131e932323f", &[]);
    // Two such texts.
    let two = "101f 12150115011501101f 20002122032f 3000300131e932300131e932300132323f 60";
    assert_characters(&format!("bring_back {two} -> refused 15 4 0"), &[]);
}

#[test]
fn accents_and_outputs() {
    use CharacterClause::*;
    let carried = |tree: &str, room: &str, answer: &str, clauses: &[CharacterClause]| {
        assert_characters(&format!("carry {BESIDE_FILLER} {tree} {room} -> {answer}"), clauses);
    };
    let (tree, image) = ("300031e9323f", "3000300132300131e932323f");
    carried(tree, "12", &format!("ok 12 1 {image}"), &[Carried]);
    carried(tree, "11", "refused 14 5 0", &[ShortForImage]);
    carried(tree, "10", "refused 14 5 0", &[]);
    carried("30003141323f", "12", "ok 12 1 30003001323001314132323f", &[]);
    carried("30003141323f", "11", "refused 14 5 0", &[]);
    let brought = |room: &str, answer: &str, clauses: &[CharacterClause]| {
        assert_characters(&format!("bring_back {BESIDE_FILLER} {image} {room} -> {answer}"), clauses);
    };
    brought("6", &format!("ok 6 0 {tree}"), &[BroughtBack]);
    brought("5", "refused 14 5 0", &[ShortForSource]);
    brought("4", "refused 14 5 0", &[]);
    let read = |image: &str, answer: &str, clauses: &[CharacterClause]| {
        assert_characters(&format!("read_along {BESIDE_FILLER} {image} {answer}"), clauses);
    };
    read(image, &format!("6 -> ok 6 1 {tree}"), &[Read]);
    read(image, "5 -> refused 14 5 0", &[ShortForSource]);
    // The accent stands in the filler.
    read("3000300131a032300132323f", "4 -> ok 4 1 3000323f", &[LeftOut]);
    assert_judged("101f 300031a0323f", "ok 1 0 -", &[Conforms]);
    assert_judged("101f 3000317e323f", "ok 1 0 -", &[]);
}

/// Only an operand of a command 31 of a tree counts.
#[test]
fn cases_with_an_accent() {
    let has = |line: &str| has_accent(&check_line(line).unwrap().0);
    assert!(has("judge_tree 101f 300031a0323f -> ok 1 0 -"));
    assert!(has("judge_tree 101f 300031ff -> refused 2 4 4"));
    assert!(has("judge_tree 10 300031e9323f -> refused 2 1 1"));
    assert!(has(&format!("carry {BESIDE_FILLER} 300031e9323f 0 -> refused 14 5 0")));
    assert!(!has("judge_tree 101f 3000319f323f -> refused 4 4 2"));
    assert!(!has("judge_tree 101f 30e9323f -> refused 4 4 0"));
    assert!(!has("judge_embedding 101f 101f 31e9 -> refused 2 3 0"));
    assert!(!has("judge_table 31e9 -> refused 2 1 0"));
}

#[test]
fn cases_whose_tree_is_judged() {
    let judged = |line: &str| is_tree_judged(&check_line(line).unwrap().0);
    assert!(judged("judge_tree 101f - -> refused 2 4 0"));
    assert!(judged(&format!("bring_back {BESIDE_FILLER} - 0 -> refused 2 4 0")));
    assert!(!judged("judge_tree 10 300031a0323f -> refused 2 1 1"));
    assert!(!judged("carry 101f 10 2000212f 300031e9323f 0 -> refused 2 2 1"));
    assert!(!judged("carry 101f 101f 20002f 300031e9323f 0 -> refused 2 3 2"));
    assert!(!judged("judge_embedding 101f 101f 2000212f -> ok 1 0 -"));
}

/// Asserts an explanation and what it shows.
fn assert_explains(documents: [&str; 3], stated: &str, clauses: &[ClashClause]) {
    let line = format!("explain {} -> {stated}", documents.join(" "));
    let (question, explanation) =
        explanations::check_line(&line).unwrap_or_else(|message| panic!("{line}: {message}"));
    assert_eq!(clashes::shown(&question, &explanation), clauses, "{line}");
}

/// A sequence, a choice and an optional choice of two empty types.
const SOURCES: [&str; 3] = ["121501150211111f", "131501150211111f", "171501150211111f"];

#[test]
fn equal_paths_of_each_kind() {
    let [sequence, choice, optional] = SOURCES;
    let (stated, paths) = ("clash 0 1 2 1 equal", "2000212201212201200120012f");
    assert_explains([sequence, "121501111f", paths], stated, &[ClashClause::SequenceEqual]);
    assert_explains([choice, "171501111f", paths], stated, &[ClashClause::ChoiceEqual]);
    assert_explains([optional, "171501111f", paths], stated, &[ClashClause::OptionalEqual]);
    assert_explains([sequence, "1215011501111f", "2000212201212202200120012f"], "none ok 2", &[]);
}

#[test]
fn beginnings_of_each_kind() {
    let [sequence, choice, optional] = SOURCES;
    let longer = "20002122012122012201200120022f";
    let shorter = "20002122012201212201200220012f";
    let stated = "clash 0 1 2 1 earlier-begins-later";
    assert_explains([sequence, "121501121502111f", longer], stated, &[ClashClause::SequenceEarlierBegins]);
    assert_explains([choice, "171501121502111f", longer], stated, &[ClashClause::ChoiceEarlierBegins]);
    assert_explains([optional, "171501121502111f", longer], stated, &[ClashClause::OptionalEarlierBegins]);
    let stated = "clash 0 1 2 1 later-begins-earlier";
    assert_explains([sequence, "121501121502111f", shorter], stated, &[ClashClause::SequenceLaterBegins]);
    assert_explains([choice, "171501121502111f", shorter], stated, &[ClashClause::ChoiceLaterBegins]);
    assert_explains([optional, "171501121502111f", shorter], stated, &[ClashClause::OptionalLaterBegins]);
}

#[test]
fn partings_of_each_kind() {
    let [sequence, choice, optional] = SOURCES;
    let target = "1715011215021502111f";
    let paths = "200021220122012122012202200220022f";
    let stated = "clash 0 1 2 1 parts-at-sequence";
    assert_explains([choice, target, paths], stated, &[ClashClause::ChoiceParts]);
    assert_explains([optional, target, paths], stated, &[ClashClause::OptionalParts]);
    assert_explains([sequence, "1215011215021502111f", paths], "none ok 2", &[]);
}

#[test]
fn several_clashes() {
    // The types 0 and 1 have two equal paths each.
    let types = ["12150115011215021502111f", "121501121502111f", "2000212201212201200121220121220120022f"];
    let shows = [ClashClause::SequenceEqual, ClashClause::SeveralTypes];
    assert_explains(types, "clash 0 1 2 1 equal", &shows);
    // Three paths are equal.
    let three = ["12150115011501111f", "121501111f", "200021220121220121220120012f"];
    let shows = [ClashClause::SequenceEqual, ClashClause::SeveralLater];
    assert_explains(three, "clash 0 1 2 1 equal", &shows);
    // The third path begins the first and the second one.
    let paths = "200021220122012122012202212201200220012f";
    let shows = [ClashClause::SequenceLaterBegins, ClashClause::SeveralEarlier];
    let both = ["1215011501150211111f", "1215011215021502111f", paths];
    assert_explains(both, "clash 0 1 3 1 later-begins-earlier", &shows);
}

#[test]
fn lists_on_clashing_paths() {
    let [sequence, _, optional] = SOURCES;
    let equal = [sequence, "14011215021502111f", "200021220122012122012201200220022f"];
    let shows = [ClashClause::SequenceEqual, ClashClause::ListShared];
    assert_explains(equal, "clash 0 1 2 2 equal", &shows);
    let longer = [sequence, "1215011402111f", "20002122012122012201200120022f"];
    let shows = [ClashClause::SequenceEarlierBegins, ClashClause::ListBehind];
    assert_explains(longer, "clash 0 1 2 1 earlier-begins-later", &shows);
    let shorter = [sequence, "1215011402111f", "20002122012201212201200220012f"];
    let shows = [ClashClause::SequenceLaterBegins, ClashClause::ListBehind];
    assert_explains(shorter, "clash 0 1 2 1 later-begins-earlier", &shows);
    let both = [optional, "14011715021403111f", "2000212201220121220122012201200220032f"];
    let shows = [ClashClause::OptionalEarlierBegins, ClashClause::ListShared, ClashClause::ListBehind];
    assert_explains(both, "clash 0 1 2 2 earlier-begins-later", &shows);
}

/// Asserts a row of operations and what its last one shows.
fn assert_last(line: &str, clauses: &[OperationClause]) {
    let (row, report) = operations::check_line(line).unwrap_or_else(|message| panic!("{line}: {message}"));
    assert_eq!(operation_clauses::shown(&row, &report).last().unwrap(), clauses, "{line}");
}

/// Asserts an operation on a table of one empty type that appends a type.
fn assert_type(commands: &str, answer: &str, kept: &str, clauses: &[OperationClause]) {
    assert_last(&format!("keep 111f | type {commands} -> {answer} | kept 1/3{kept}"), clauses);
}

#[test]
fn types_of_each_kind() {
    assert_type("10", "ok 2", " 1/3", &[OperationClause::Text]);
    assert_type("11", "ok 2", " 1/3", &[OperationClause::Empty]);
    assert_type("1400", "ok 2", " 1/3", &[OperationClause::List]);
    assert_type("121500", "ok 2", " 2/6", &[OperationClause::Sequence]);
    assert_type("171500", "ok 2", " 1/3", &[OperationClause::OptionalChoice]);
    let itself = OperationClause::NamesItself;
    assert_type("1315011500", "ok 2", " 2/6", &[OperationClause::Choice, itself]);
    assert_type("171501", "ok 2", " 1/3", &[OperationClause::OptionalChoice, itself]);
    let (table, kept) = ("11".repeat(63), " 1/3".repeat(64));
    let last = [OperationClause::Text, OperationClause::LastType];
    assert_last(&format!("keep {table}1f | type 10 -> ok 64 | kept{kept}"), &last);
    // A tower of four sequences of 16 and an empty type.
    let tower: String = (1..5).map(|next| format!("12{}", format!("15{next:02x}").repeat(16))).collect();
    let kept = "5/60001 4/13107 3/819 2/51 1/3";
    let held = [OperationClause::Sequence, OperationClause::HeldType];
    assert_last(&format!("keep {tower}111f | type 121500 -> ok 6 | kept {kept} 6/60001"), &held);
}

#[test]
fn refused_types() {
    assert_type("-", "refused 2 1 0", "", &[OperationClause::NotOneType]);
    assert_type("1111", "refused 2 1 0", "", &[OperationClause::NotOneType]);
    let too_many = |operand: &str| format!("12{}", operand.repeat(17));
    assert_type(&too_many("1500"), "refused 3 1 0", "", &[OperationClause::TypeOfTooMany]);
    let both = [OperationClause::TypeOfTooMany, OperationClause::LimitFirst];
    assert_type(&too_many("1502"), "refused 3 1 0", "", &both);
    let (table, kept) = ("11".repeat(64), " 1/3".repeat(64));
    let more = |operand: &str| format!("keep {table}1f | type 14{operand} -> refused 3 1 0 | kept{kept}");
    assert_last(&more("40"), &[OperationClause::OneTypeMore]);
    assert_last(&more("41"), &[OperationClause::OneTypeMore, OperationClause::LimitFirst]);
    assert_type("1402", "refused 4 1 0", "", &[OperationClause::NoSuchType]);
    let both = [OperationClause::NoSuchType, OperationClause::OperandFirst];
    assert_type("1715021502", "refused 4 1 0", "", &both);
    assert_type("1315001500", "refused 5 1 0", "", &[OperationClause::RepeatedType]);
    let both = [OperationClause::RepeatedType, OperationClause::RepeatFirst];
    assert_type("1315011501", "refused 5 1 0", "", &both);
    assert_type("1215001501", "refused 6 1 0", "", &[OperationClause::NoInstance]);
}

#[test]
fn refused_members() {
    let refused = |extended: u8, member: u8, number: u8, clauses: &[OperationClause]| {
        let (table, kept) = ("1315011502121502111f", "2/6 2/6 1/3");
        let line = format!("keep {table} | member {extended} {member} -> refused {number} 1 0 | kept {kept}");
        assert_last(&line, clauses);
    };
    refused(3, 0, 19, &[OperationClause::NothingToExtend]);
    refused(3, 3, 19, &[OperationClause::NothingToExtend, OperationClause::ChoiceFirst]);
    refused(1, 0, 19, &[OperationClause::NoChoice]);
    refused(2, 255, 19, &[OperationClause::NoChoice, OperationClause::ChoiceFirst]);
    refused(0, 3, 4, &[OperationClause::NoSuchMember]);
    refused(0, 1, 5, &[OperationClause::RepeatedMember]);
    let members: String = (1..=16).map(|member| format!("15{member:02x}")).collect();
    let (table, kept) = (format!("13{members}{}", "11".repeat(16)), " 1/3".repeat(16));
    let full = |member: u8| format!("keep {table}1f | member 0 {member} -> refused 3 1 0 | kept 2/6{kept}");
    assert_last(&full(1), &[OperationClause::OneMemberMore]);
    assert_last(&full(17), &[OperationClause::OneMemberMore, OperationClause::LimitFirst]);
}

#[test]
fn members_that_move_nothing() {
    let table = "131501150211101f";
    let itself = [OperationClause::HigherMember, OperationClause::Itself];
    assert_last(&format!("keep {table} | member 0 0 -> ok 3 | kept 2/6 1/3 1/3"), &itself);
    let optional = "1715011111".to_string();
    assert_last(
        &format!("keep {optional}1f | member 0 2 -> ok 3 | kept 1/3 1/3 1/3"),
        &[OperationClause::OptionalMember],
    );
    let members: String = (1..=15).map(|member| format!("15{member:02x}")).collect();
    let (table, kept) = (format!("13{members}{}", "11".repeat(16)), " 1/3".repeat(16));
    let last = [OperationClause::HigherMember, OperationClause::LastMember];
    assert_last(&format!("keep {table}1f | member 0 16 -> ok 17 | kept 2/6{kept}"), &last);
}

/// The first two are examples of the list of readings.
#[test]
fn members_that_move_numbers() {
    let lower = OperationClause::LowerMember;
    assert_last(
        "keep 1215011315001502121503111f | member 1 3 -> ok 4 | kept 3/9 2/6 2/6 1/3",
        &[lower, OperationClause::MovedAbove, OperationClause::BothFall],
    );
    assert_last(
        "keep 131501150412150215061315031501121507121505121506111215061f | member 2 6 -> ok 8 | \
         kept 4/15 3/12 2/6 3/9 3/9 2/6 1/3 2/6",
        &[lower, OperationClause::MovedAbove, OperationClause::BothFall, OperationClause::OnlyLengthGrows],
    );
    // The new member of the choice 0 holds two elements, the old ones three.
    assert_last(
        "keep 1315011500121502121503111215031f | member 0 4 -> ok 5 | kept 3/9 3/9 2/6 1/3 2/6",
        &[lower, OperationClause::MovedAlone, OperationClause::BothFall],
    );
    // It holds as many elements, on fewer levels; then more.
    let narrow = "13150115001215021215031112";
    assert_last(
        &format!("keep {narrow}150315031f | member 0 4 -> ok 5 | kept 3/12 3/9 2/6 1/3 2/9"),
        &[lower, OperationClause::MovedAlone, OperationClause::LengthStays],
    );
    assert_last(
        &format!("keep {narrow}1503150315031f | member 0 4 -> ok 5 | kept 3/15 3/9 2/6 1/3 2/12"),
        &[lower, OperationClause::MovedAlone, OperationClause::LengthGrows],
    );
}

/// The choice 0 of a tower of sequences of 16, and one that takes the tower where
/// it had a higher chain.
#[test]
fn held_lengths() {
    let tower = |first: usize| -> String {
        (first..first + 4).map(|next| format!("12{}", format!("15{next:02x}").repeat(16))).collect()
    };
    let lower = OperationClause::LowerMember;
    let kept = "5/60001 4/13107 3/819 2/51 1/3";
    assert_last(
        &format!("keep 1315011500{}111f | member 0 5 -> ok 6 | kept 2/6 {kept}", tower(2)),
        &[lower, OperationClause::MovedAlone, OperationClause::BothFall, OperationClause::HeldComesDown],
    );
    let chain: String = (2..8).map(|next| format!("1215{next:02x}")).collect();
    let kept = "7/21 6/18 5/15 4/12 3/9 2/6 1/3 5/60001 4/13107 3/819 2/51 1/3";
    assert_last(
        &format!("keep 1315011500{chain}11{}111f | member 0 8 -> ok 13 | kept 6/60001 {kept}", tower(9)),
        &[lower, OperationClause::MovedAlone, OperationClause::LengthGrows, OperationClause::ComesToBeHeld],
    );
}
