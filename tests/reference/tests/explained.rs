//! Explanations of clashes worked by hand, those of the papers and of the lists
//! of readings among them.

use lafindry_reference::explanation::{explain_clash, Clash, Explanation, Reason};
use lafindry_reference::{Refusal, MOST_BYTES};

const S: &str = "12 15 01 15 02 10 13 15 03 15 04 11 11 1F";
const T: &str = "12 15 01 15 02 12 15 03 15 03 13 15 04 15 05 10 11 11 1F";
const E: &str = "20 00 21 22 01 22 01 21 22 02 20 03 21 20 02 21 22 02 21 22 01 20 05 20 04 2F";

/// A sequence, a choice and an optional choice of two empty types.
const SEQUENCE: &str = "12 15 01 15 02 11 11 1F";
const CHOICE: &str = "13 15 01 15 02 11 11 1F";
const OPTIONAL: &str = "17 15 01 15 02 11 11 1F";

/// The bytes of a document written in hexadecimal.
fn hex(text: &str) -> Vec<u8> {
    text.split_whitespace().map(|byte| u8::from_str_radix(byte, 16).unwrap()).collect()
}

/// Some text repeated.
fn times(text: &str, count: usize) -> String {
    format!("{text} ").repeat(count)
}

fn explained(s: &str, t: &str, e: &str) -> Explanation {
    explain_clash(&hex(s), &hex(t), &hex(e))
}

/// The clash of two members of a type, with the mark, the members, the number
/// of steps shared and the reason.
fn clash(source_type: u64, mark: u64, members: [u64; 2], shared: u64, reason: Reason) -> Explanation {
    let [earlier, later] = members;
    let refusal = Refusal { number: 10, document: 3, mark };
    Explanation::Clash { refusal, clash: Clash { source_type, earlier, later, shared, reason } }
}

fn refused(number: u64, document: u64, mark: u64) -> Explanation {
    Explanation::Nothing(Err(Refusal { number, document, mark }))
}

// Equal paths.

/// The patch's embedding with both paths of source type 2 the same, and the
/// right end.
#[test]
fn equal_paths_of_a_choice() {
    let both = E.replace("21 22 02 21 22 01 20 05 20 04", "21 22 02 21 22 02 20 05 20 05");
    assert_eq!(explained(S, T, &both), clash(2, 18, [1, 2], 1, Reason::Equal));
}

#[test]
fn equal_paths_of_an_optional_choice() {
    let paths = "20 00 21 22 01 21 22 01 20 01 20 01 2F";
    assert_eq!(explained(OPTIONAL, "17 15 01 11 1F", paths), clash(0, 5, [1, 2], 1, Reason::Equal));
}

/// Both paths have 12 steps and share them all.
#[test]
fn equal_paths_of_twelve_steps() {
    let twelve = times("22 01", 12);
    let paths = format!("20 00 21 {twelve} 21 {twelve} 20 00 2F");
    assert_eq!(
        explained("12 15 01 15 01 11 1F", "14 00 1F", &paths),
        clash(0, 27, [1, 2], 12, Reason::Equal)
    );
}

/// The last of 16 members has the path of the one before it.
#[test]
fn equal_paths_of_the_last_of_sixteen() {
    let table = format!("12 {} 11 1F", times("15 01", 16));
    let paths: String = (1..=15).chain([15]).map(|step| format!("21 22 {step:02X} ")).collect();
    let explanation = explained(&table, &table, &format!("20 00 {paths} 20 01 2F"));
    assert_eq!(explanation, clash(0, 47, [15, 16], 1, Reason::Equal));
}

// One path is a shorter beginning of the other.

#[test]
fn beginnings_in_a_sequence() {
    let target = "12 15 01 12 15 02 11 1F";
    let longer = "20 00 21 22 01 21 22 01 22 01 20 01 20 02 2F";
    let shorter = "20 00 21 22 01 22 01 21 22 01 20 02 20 01 2F";
    assert_eq!(explained(SEQUENCE, target, longer), clash(0, 5, [1, 2], 1, Reason::EarlierBeginsLater));
    assert_eq!(explained(SEQUENCE, target, shorter), clash(0, 7, [1, 2], 1, Reason::LaterBeginsEarlier));
}

#[test]
fn beginnings_in_a_choice() {
    let target = "13 15 01 15 02 12 15 02 11 1F";
    let longer = "20 00 21 22 01 21 22 01 22 01 20 01 20 02 2F";
    let shorter = "20 00 21 22 01 22 01 21 22 01 20 02 20 01 2F";
    assert_eq!(explained(CHOICE, target, longer), clash(0, 5, [1, 2], 1, Reason::EarlierBeginsLater));
    assert_eq!(explained(CHOICE, target, shorter), clash(0, 7, [1, 2], 1, Reason::LaterBeginsEarlier));
}

/// A list before the optional choice that both paths leave, and a list at the
/// end of the shorter one.
#[test]
fn beginnings_in_an_optional_choice_with_lists() {
    let target = "14 01 17 15 02 14 03 11 1F";
    let longer = "20 00 21 22 01 22 01 21 22 01 22 01 22 01 20 02 20 03 2F";
    let shorter = "20 00 21 22 01 22 01 22 01 21 22 01 22 01 20 03 20 02 2F";
    assert_eq!(explained(OPTIONAL, target, longer), clash(0, 7, [1, 2], 2, Reason::EarlierBeginsLater));
    assert_eq!(explained(OPTIONAL, target, shorter), clash(0, 9, [1, 2], 2, Reason::LaterBeginsEarlier));
}

/// Paths of 11 and 12 steps share 11.
#[test]
fn beginnings_of_eleven_steps() {
    let (eleven, twelve) = (times("22 01", 11), times("22 01", 12));
    let explained = |first: &str, second: &str| {
        explained("12 15 01 15 01 11 1F", "14 00 1F", &format!("20 00 21 {first} 21 {second} 20 00 2F"))
    };
    assert_eq!(explained(&eleven, &twelve), clash(0, 25, [1, 2], 11, Reason::EarlierBeginsLater));
    assert_eq!(explained(&twelve, &eleven), clash(0, 27, [1, 2], 11, Reason::LaterBeginsEarlier));
}

// Parting at a sequence.

/// A starred case of paper 01.
#[test]
fn choice_paths_part_at_a_sequence() {
    let target = "12 15 01 15 01 13 15 02 15 03 11 11 1F";
    let paths = "20 00 21 22 01 22 01 21 22 02 22 01 20 02 20 02 2F";
    assert_eq!(explained(CHOICE, target, paths), clash(0, 7, [1, 2], 0, Reason::PartsAtSequence));
    // Paths of a sequence may part there.
    let target = "12 15 01 15 01 12 15 02 15 02 11 1F";
    assert_eq!(explained(SEQUENCE, target, paths), Explanation::Nothing(Ok(2)));
}

#[test]
fn optional_paths_part_at_a_sequence() {
    let target = "17 15 01 12 15 02 15 02 11 1F";
    let paths = "20 00 21 22 01 22 01 21 22 01 22 02 20 02 20 02 2F";
    assert_eq!(explained(OPTIONAL, target, paths), clash(0, 7, [1, 2], 1, Reason::PartsAtSequence));
}

/// Where paths of an optional choice part before their first choice it is 9.
#[test]
fn paths_part_before_an_optional_choice() {
    let target = "12 15 03 15 03 10 11 17 15 01 15 02 1F";
    let paths = "20 00 21 22 01 22 01 21 22 02 22 02 20 01 21 20 02 2F";
    assert_eq!(explained("17 15 01 15 02 10 11 1F", target, paths), refused(9, 3, 7));
    let parting = clash(0, 7, [1, 2], 0, Reason::PartsAtSequence);
    assert_eq!(explained("13 15 01 15 02 10 11 1F", target, paths), parting);
}

/// The paths part by their twelfth step.
#[test]
fn paths_part_after_eleven_steps() {
    let target = "13 15 00 15 01 12 15 02 15 02 11 1F";
    let eleven = format!("{} 22 02", times("22 01", 10));
    let paths = format!("20 00 21 {eleven} 22 01 21 {eleven} 22 02 20 02 20 02 2F");
    assert_eq!(explained(CHOICE, target, &paths), clash(0, 27, [1, 2], 11, Reason::PartsAtSequence));
}

// Several clashes at once.

/// The third path begins the first and the second one.
#[test]
fn the_first_of_two_that_a_path_begins() {
    let source = "12 15 01 15 01 15 02 11 11 1F";
    let target = "12 15 01 12 15 02 15 02 11 1F";
    let paths = "20 00 21 22 01 22 01 21 22 01 22 02 21 22 01 20 02 20 01 2F";
    assert_eq!(explained(source, target, paths), clash(0, 12, [1, 3], 1, Reason::LaterBeginsEarlier));
}

/// The third path begins the second one only.
#[test]
fn an_earlier_path_that_does_not_clash() {
    let source = "12 15 01 15 01 15 02 11 11 1F";
    let target = "12 15 01 15 02 12 15 02 15 02 11 1F";
    let paths = "20 00 21 22 02 21 22 01 22 01 21 22 01 20 02 20 01 2F";
    assert_eq!(explained(source, target, paths), clash(0, 10, [2, 3], 1, Reason::LaterBeginsEarlier));
}

/// The third path parts from both others at a sequence.
#[test]
fn the_first_of_two_that_a_path_parts_from() {
    let source = "13 15 01 15 02 15 03 11 11 11 1F";
    let target = "12 15 01 15 01 13 15 02 15 03 11 11 1F";
    let paths = "20 00 21 22 01 22 01 21 22 01 22 02 21 22 02 22 01 20 02 20 03 20 02 2F";
    assert_eq!(explained(source, target, paths), clash(0, 12, [1, 3], 0, Reason::PartsAtSequence));
}

/// The third path parts from the first at a choice, from the second at a
/// sequence.
#[test]
fn a_parting_at_a_choice_is_no_clash() {
    let source = "13 15 01 15 02 15 03 11 11 11 1F";
    let target = "13 15 01 15 02 12 15 03 15 03 11 11 1F";
    let paths = "20 00 21 22 02 21 22 01 22 01 21 22 01 22 02 20 02 20 03 20 03 2F";
    assert_eq!(explained(source, target, paths), clash(0, 10, [2, 3], 1, Reason::PartsAtSequence));
}

/// Source type 1 has the paths 2, 1, 1 and 2, source type 2 the paths 1 and 1:
/// the lowest offset is that of the third path of type 1, which clashes with the
/// second.
#[test]
fn the_lowest_of_several_marks() {
    let source = "12 15 01 15 02 12 15 03 15 03 15 03 15 03 12 15 03 15 03 11 1F";
    let target = "12 15 01 15 01 12 15 02 15 02 11 1F";
    let paths =
        "20 00 21 22 01 21 22 02 20 01 21 22 02 21 22 01 21 22 01 21 22 02 20 01 21 22 01 21 22 01 20 02 2F";
    assert_eq!(explained(source, target, paths), clash(1, 16, [2, 3], 1, Reason::Equal));
}

/// The first and the fourth path are equal; the third begins the second, and is
/// marked before.
#[test]
fn the_lowest_mark_is_not_that_of_the_first_path() {
    let source = "12 15 01 15 01 15 02 15 01 11 11 1F";
    let target = "12 15 01 15 02 12 15 02 11 1F";
    let paths = "20 00 21 22 02 21 22 01 22 01 21 22 01 21 22 02 20 02 20 01 2F";
    assert_eq!(explained(source, target, paths), clash(0, 10, [2, 3], 1, Reason::LaterBeginsEarlier));
}

// Nothing to explain.

#[test]
fn the_patch_has_no_clash() {
    assert_eq!(explained(S, T, E), Explanation::Nothing(Ok(5)));
}

/// The refusals of the tables come before those of the embedding, and 8 and 9
/// before 10.
#[test]
fn other_refusals_are_inside() {
    let clashing = "20 00 21 22 01 21 22 01 20 01 20 01 2F";
    let target = "12 15 01 11 1F";
    assert_eq!(explained(SEQUENCE, target, clashing), clash(0, 5, [1, 2], 1, Reason::Equal));
    assert_eq!(explained("12 15 00 1F", target, clashing), refused(6, 1, 0));
    assert_eq!(explained(SEQUENCE, "12 15 00 1F", clashing), refused(6, 2, 0));
    assert_eq!(explained(SEQUENCE, target, ""), refused(2, 3, 0));
    assert_eq!(explained(SEQUENCE, target, "20 01 21 21 20 01 20 01 2F"), refused(7, 3, 0));
    assert_eq!(explained(SEQUENCE, target, &clashing.replace("20 01 2F", "20 00 2F")), refused(8, 3, 5));
    assert_eq!(explained(SEQUENCE, "17 15 01 11 1F", clashing), refused(9, 3, 2));
    let wrong_end = E.replace("21 22 02 21 22 01 20 05", "21 22 02 21 22 02 20 05");
    assert_eq!(explained(S, T, &wrong_end), refused(8, 3, 18));
}

#[test]
fn documents_that_are_too_long() {
    let [source, target, clashing] =
        [SEQUENCE, "12 15 01 11 1F", "20 00 21 22 01 21 22 01 20 01 20 01 2F"].map(hex);
    let long = vec![0x20; MOST_BYTES + 1];
    assert_eq!(explain_clash(&long, &target, &clashing), refused(1, 1, 0));
    assert_eq!(explain_clash(&source, &long, &clashing), refused(1, 2, 0));
    assert_eq!(explain_clash(&source, &target, &long), refused(1, 3, 0));
}
