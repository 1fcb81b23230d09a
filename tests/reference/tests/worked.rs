//! The worked cases of paper 01 and the examples of the lists of readings, a
//! test each. A star in a name's comment marks a starred case.

use lafindry_reference::vectors::JUNK;
use lafindry_reference::{bring_back, carry, judge_embedding, judge_table, judge_tree, Carried, Refusal};

const S: &str = "12 15 01 15 02 10 13 15 03 15 04 11 11 1F";
const T: &str = "12 15 01 15 02 12 15 03 15 03 13 15 04 15 05 10 11 11 1F";
const E: &str = "20 00 21 22 01 22 01 21 22 02 20 03 21 20 02 21 22 02 21 22 01 20 05 20 04 2F";
const TREE: &str = "30 00 30 01 31 41 32 30 02 30 03 32 32 32 3F";
const IMAGE: &str = "30 00 30 01 30 03 31 41 32 30 03 32 32 30 02 30 05 32 32 32 3F";

/// The bytes of a document written in hexadecimal.
fn hex(text: &str) -> Vec<u8> {
    text.split_whitespace().map(|byte| u8::from_str_radix(byte, 16).unwrap()).collect()
}

fn refused<A>(number: u64, document: u64, mark: u64) -> Result<A, Refusal> {
    Err(Refusal { number, document, mark })
}

fn table(t: &str) -> Result<u64, Refusal> {
    judge_table(&hex(t))
}

fn embedding(s: &str, t: &str, e: &str) -> Result<u64, Refusal> {
    judge_embedding(&hex(s), &hex(t), &hex(e))
}

fn tree(t: &str, tr: &str) -> Result<u64, Refusal> {
    judge_tree(&hex(t), &hex(tr))
}

/// Carries into so many bytes and gives what is written with the answer;
/// checks that all other bytes are kept.
fn carried(docs: [&str; 4], length: usize) -> Result<(Vec<u8>, u64), Refusal> {
    let [s, t, e, tr] = docs.map(hex);
    let mut output = vec![JUNK; length];
    let answer = carry(&s, &t, &e, &tr, &mut output);
    let written = answer.map_or(0, |Carried { length, .. }| length as usize);
    assert!(output[written..].iter().all(|&byte| byte == JUNK));
    answer.map(|Carried { filler, .. }| (output[..written].to_vec(), filler))
}

/// Brings back in the same way.
fn brought_back(docs: [&str; 4], length: usize) -> Result<Vec<u8>, Refusal> {
    let [s, t, e, tr] = docs.map(hex);
    let mut output = vec![JUNK; length];
    let answer = bring_back(&s, &t, &e, &tr, &mut output);
    let written = answer.map_or(0, |length| length as usize);
    assert!(output[written..].iter().all(|&byte| byte == JUNK));
    answer.map(|_| output[..written].to_vec())
}

/// Asserts an image and its filler count, and that it comes back.
fn assert_image(docs: [&str; 4], image: &str, filler: u64) {
    assert_eq!(carried(docs, 60_000), Ok((hex(image), filler)));
    let [s, t, e, tr] = docs;
    assert_eq!(brought_back([s, t, e, image], 60_000), Ok(hex(tr)));
}

/// Some text repeated.
fn times(text: &str, count: usize) -> String {
    format!("{text} ").repeat(count)
}

// One patch, whole.

#[test]
fn patch_documents_are_accepted() {
    assert_eq!(table(S), Ok(5));
    assert_eq!(table(T), Ok(6));
    assert_eq!(embedding(S, T, E), Ok(5));
    assert_eq!(tree(S, TREE), Ok(4));
}

/// * The patch carried, * its image brought back.
#[test]
fn patch_is_carried_and_brought_back() {
    assert_image([S, T, E, TREE], IMAGE, 1);
}

/// * Carried into 21 bytes, * into 20 bytes.
#[test]
fn patch_output_length() {
    assert_eq!(carried([S, T, E, TREE], 21), Ok((hex(IMAGE), 1)));
    assert_eq!(carried([S, T, E, TREE], 20), refused(14, 5, 0));
    assert_eq!(brought_back([S, T, E, IMAGE], 15), Ok(hex(TREE)));
    assert_eq!(brought_back([S, T, E, IMAGE], 14), refused(14, 5, 0));
}

/// * The image with `31 42` put in at offset 11.
#[test]
fn character_in_filler_is_no_image() {
    let mut image: Vec<&str> = IMAGE.split(' ').collect();
    image.splice(11..11, ["31", "42"]);
    assert_eq!(brought_back([S, T, E, &image.join(" ")], 60_000), refused(15, 4, 0));
}

// Edges of the rules.

/// * The empty tree document, and other wrong forms.
#[test]
fn tree_forms() {
    assert_eq!(tree(S, ""), refused(2, 4, 0));
    assert_eq!(tree(S, "30"), refused(2, 4, 0));
    assert_eq!(tree(S, "30 00 3F"), refused(2, 4, 2));
    assert_eq!(tree(S, &format!("{TREE} 3F")), refused(2, 4, 15));
}

/// * The sequence closed at once; the root of another type.
#[test]
fn nonconforming_trees() {
    assert_eq!(tree(S, "30 00 32 3F"), refused(11, 4, 2));
    assert_eq!(tree(S, "30 01 32 3F"), refused(11, 4, 0));
}

/// * A sequence of itself, * a list of itself, a repeated member.
#[test]
fn tables_of_one_and_two_types() {
    assert_eq!(table("12 15 00 1F"), refused(6, 1, 0));
    assert_eq!(table("14 00 1F"), Ok(1));
    assert_eq!(table("13 15 01 15 01 11 1F"), refused(5, 1, 3));
}

/// * Both paths of source type 2 the same, * with the right end.
#[test]
fn same_path_twice() {
    let both = E.replace("21 22 02 21 22 01 20 05", "21 22 02 21 22 02 20 05");
    assert_eq!(embedding(S, T, &both), refused(8, 3, 18));
    assert_eq!(embedding(S, T, &both.replace("20 05 20 04", "20 05 20 05")), refused(10, 3, 18));
}

/// * Paths of a choice that part at a sequence.
#[test]
fn choice_paths_part_at_a_sequence() {
    let target = "12 15 01 15 01 13 15 02 15 03 11 11 1F";
    let paths = "20 00 21 22 01 22 01 21 22 02 22 01 20 02 20 02 2F";
    assert_eq!(embedding("13 15 01 15 02 11 11 1F", target, paths), refused(10, 3, 7));
}

#[test]
fn limit_of_types() {
    assert_eq!(table(&(times("11", 64) + "1F")), Ok(64));
    assert_eq!(table(&(times("11", 65) + "1F")), refused(3, 1, 64));
}

#[test]
fn limit_of_members() {
    let members = |count| format!("12 {} 11 1F", times("15 01", count));
    assert_eq!(table(&members(16)), Ok(2));
    assert_eq!(table(&members(17)), refused(3, 1, 33));
}

#[test]
fn limit_of_steps() {
    let steps = |count| format!("20 00 21 {} 2F", times("22 01", count));
    assert_eq!(embedding("14 00 1F", "14 00 1F", &steps(12)), Ok(1));
    assert_eq!(embedding("14 00 1F", "14 00 1F", &steps(13)), refused(3, 3, 27));
}

#[test]
fn limit_of_levels() {
    let levels = |count| times("30 00", count) + &times("32", count) + "3F";
    assert_eq!(tree("14 00 1F", &levels(128)), Ok(128));
    assert_eq!(tree("14 00 1F", &levels(129)), refused(3, 4, 256));
}

#[test]
fn limit_of_bytes() {
    assert_eq!(tree("10 1F", &format!("30 00 {} 32 3F", times("31 41", 29_998))), Ok(1));
    let longer = format!("30 00 30 01 {} 32 32 3F", times("31 41", 29_997));
    assert_eq!(tree("12 15 01 10 1F", &longer), refused(1, 4, 0));
}

// Programs that look finished and aren't.

#[test]
fn filler_takes_the_lowest_member() {
    assert_image(["11 1F", "13 15 00 15 01 11 1F", "20 00 2F", "30 00 32 3F"], "30 00 30 01 32 32 3F", 1);
}

#[test]
fn siblings_share_a_list_item() {
    let documents = [
        "12 15 01 15 02 10 11 1F",
        "14 01 12 15 02 15 03 10 11 1F",
        "20 00 21 22 01 22 01 21 22 01 22 02 20 02 21 20 03 2F",
        "30 00 30 01 31 41 32 30 02 32 32 3F",
    ];
    assert_image(documents, "30 00 30 01 30 02 31 41 32 30 03 32 32 32 3F", 0);
    let [s, t, e, _] = documents;
    let apart = "30 00 30 01 30 02 31 41 32 30 03 32 32 30 01 30 02 32 30 03 32 32 32 3F";
    assert_eq!(brought_back([s, t, e, apart], 60_000), refused(15, 4, 0));
}

#[test]
fn first_list_takes_the_items() {
    let documents = [
        "14 01 10 1F",
        "12 15 01 14 02 12 15 03 15 04 14 05 14 05 10 1F",
        "20 00 21 22 01 22 01 22 01 22 01 20 05 21 2F",
        "30 00 30 01 31 41 32 30 01 32 32 3F",
    ];
    let image = "30 00 30 01 30 02 30 03 30 05 31 41 32 32 30 04 32 32 \
                 30 02 30 03 30 05 32 32 30 04 32 32 32 32 3F";
    assert_image(documents, image, 2);
    let [s, t, e, _] = documents;
    assert_image([s, t, e, "30 00 32 3F"], "30 00 30 01 32 32 3F", 0);
}

// Readings.

#[test]
fn reading_1_operands_are_read_blind() {
    assert_eq!(tree("10 1F", "30 00 31 32 32 3F"), Ok(1));
    assert_eq!(tree("10 1F", "30 3F 32 3F"), refused(4, 4, 0));
    assert_eq!(table("12 15 1F 1F"), refused(4, 1, 1));
}

#[test]
fn reading_2_too_few_members() {
    assert_eq!(table("12 1F"), refused(2, 1, 1));
    assert_eq!(table("13 15 00 10 1F"), refused(2, 1, 3));
    assert_eq!(table("13 15 00"), refused(2, 1, 3));
    assert_eq!(table("13 15"), refused(2, 1, 1));
    assert_eq!(table("1F"), refused(2, 1, 0));
}

#[test]
fn reading_3_counts_are_form() {
    let c = "12 15 01 15 01 11 1F";
    assert_eq!(embedding(c, c, "20 00 21 22 01 21 22 02 20 01 2F"), Ok(2));
    assert_eq!(embedding(c, c, "20 00 21 22 01 21 22 02 21 22 01 20 01 2F"), refused(2, 3, 8));
    assert_eq!(embedding(c, c, "20 00 21 22 01 21 22 02 20 01 20 01 2F"), refused(2, 3, 10));
    assert_eq!(embedding(c, c, "20 00 21 22 01 20 01 2F"), refused(2, 3, 5));
    assert_eq!(embedding(c, c, "20 00 21 22 01 2F"), refused(2, 3, 5));
    assert_eq!(embedding(c, c, "20 00 21 22 01 21 22 02 2F"), refused(2, 3, 8));
}

#[test]
fn reading_4_outside_the_root() {
    assert_eq!(tree("10 1F", "31 41 30 00 32 3F"), refused(2, 4, 0));
    assert_eq!(tree("10 1F", "30 00 32 31 41 3F"), refused(2, 4, 3));
    assert_eq!(tree("10 1F", "30 00 32 30 00 32 3F"), refused(2, 4, 3));
}

#[test]
fn reading_5_limits_before_operands() {
    let deep = times("30 FF", 129) + &times("32", 129) + "3F";
    assert_eq!(tree("10 1F", &deep), refused(3, 4, 256));
    let steps = format!("20 00 21 22 09 {} 2F", times("22 01", 12));
    assert_eq!(embedding("10 1F", "10 1F", &steps), refused(3, 3, 27));
}

#[test]
fn reading_6_and_7_bad_steps() {
    let q = "12 15 01 11 1F";
    assert_eq!(embedding(q, q, "20 00 21 22 00 20 01 2F"), refused(4, 3, 3));
    assert_eq!(embedding(q, q, "20 00 21 22 09 22 00 20 01 2F"), refused(4, 3, 3));
}

#[test]
fn reading_8_repeats_and_instances() {
    assert_eq!(table("13 15 01 15 02 15 02 15 01 11 11 1F"), refused(5, 1, 5));
    assert_eq!(table("11 12 15 01 1F"), refused(6, 1, 1));
}

#[test]
fn reading_9_ends_before_steps() {
    let q = "12 15 01 11 1F";
    assert_eq!(embedding(q, q, "20 00 21 20 01 2F"), refused(8, 3, 2));
    assert_eq!(embedding(q, q, "20 00 21 20 00 2F"), refused(9, 3, 2));
    assert_eq!(embedding("10 1F", "11 1F", "20 00 21 2F"), refused(8, 3, 2));
    assert_eq!(embedding("14 01 11 1F", q, "20 00 21 22 01 20 01 2F"), refused(9, 3, 2));
    assert_eq!(embedding("14 01 10 1F", q, "20 00 21 22 01 20 01 21 2F"), refused(8, 3, 7));
}

#[test]
fn reading_10_lowest_clash() {
    let paths = "20 00 21 22 01 21 22 02 21 22 01 21 22 02 20 01 2F";
    let source = "12 15 01 15 01 15 01 15 01 11 1F";
    assert_eq!(embedding(source, "12 15 01 15 01 11 1F", paths), refused(10, 3, 8));
}

#[test]
fn reading_11_characters_in_a_sequence() {
    let q = "12 15 01 11 1F";
    assert_eq!(tree(q, "30 00 31 00 30 01 32 32 3F"), refused(4, 4, 2));
    assert_eq!(tree(q, "30 00 31 41 30 01 32 32 3F"), refused(11, 4, 2));
}

#[test]
fn reading_12_the_marked_command() {
    let q = "12 15 01 11 1F";
    assert_eq!(tree(q, "30 00 30 00 32 32 3F"), refused(11, 4, 2));
    assert_eq!(tree(q, "30 00 30 01 32 30 01 32 32 3F"), refused(11, 4, 5));
    assert_eq!(tree(S, "30 00 30 01 32 32 3F"), refused(11, 4, 5));
}

#[test]
fn reading_13_earliest_of_equals() {
    let documents = ["11 1F", "13 15 02 15 01 11 11 1F", "20 00 2F", "30 00 32 3F"];
    assert_image(documents, "30 00 30 02 32 32 3F", 1);
}

#[test]
fn reading_14_a_list_at_the_end() {
    let (q, e, tree) = ("12 15 01 11 1F", "20 00 21 22 01 20 01 2F", "30 00 30 01 32 32 3F");
    assert_image([q, "12 15 01 14 02 11 1F", e, tree], tree, 0);
    assert_image([q, "14 01 11 1F", e, tree], tree, 0);
}

#[test]
fn reading_15_what_is_filler() {
    let text = ["10 1F", "12 15 01 14 02 10 1F", "20 00 21 22 01 22 01 2F", "30 00 32 3F"];
    assert_image(text, "30 00 30 01 30 02 32 32 32 3F", 0);
    let list = ["14 01 11 1F", "12 15 01 14 02 11 1F", "20 00 21 22 01 22 01 20 02 2F", "30 00 32 3F"];
    assert_image(list, "30 00 30 01 32 32 3F", 0);
    let empty =
        ["12 15 01 11 1F", "12 15 01 12 15 02 10 1F", "20 00 21 22 01 20 01 2F", "30 00 30 01 32 32 3F"];
    assert_image(empty, "30 00 30 01 30 02 32 32 32 3F", 1);
}

#[test]
fn reading_16_one_target_type_for_two() {
    let documents = [
        "12 15 01 15 02 11 10 1F",
        "12 15 01 15 01 10 1F",
        "20 00 21 22 01 21 22 02 20 01 20 01 21 2F",
        "30 00 30 01 32 30 02 31 41 32 32 3F",
    ];
    assert_image(documents, "30 00 30 01 32 30 01 31 41 32 32 3F", 0);
    assert_eq!(embedding("11 10 1F", "11 1F", "20 00 20 00 21 2F"), refused(8, 3, 4));
}

/// Types from `first` to 62 are sequences of 16 of the next type, 63 is empty.
fn tower(first: u8) -> String {
    let sequence = |t: u8| format!("12 {} ", times(&format!("15 {:02X}", t + 1), 16));
    (first..63).map(sequence).collect::<String>() + "11 1F"
}

#[test]
fn reading_17_levels_before_length() {
    assert_eq!(carried(["11 1F", &tower(0), "20 00 2F", "30 00 32 3F"], 0), refused(13, 5, 0));
    let target = format!("12 15 01 15 02 14 00 {}", tower(2));
    let levels = |count| times("30 00", count) + &times("32", count) + "3F";
    let answer = |count| carried(["14 00 1F", &target, "20 00 21 22 01 22 01 2F", &levels(count)], 0);
    assert_eq!(answer(33), refused(13, 5, 0));
    assert_eq!(answer(34), refused(12, 5, 0));
}

#[test]
fn reading_18_long_output() {
    assert_eq!(carried([S, T, E, TREE], 100_000), Ok((hex(IMAGE), 1)));
}

#[test]
fn reading_19_order_of_documents() {
    assert_eq!(tree("", ""), refused(2, 1, 0));
    assert_eq!(embedding(S, "", ""), refused(2, 2, 0));
    assert_eq!(brought_back([S, T, E, TREE], 60_000), refused(11, 4, 4));
    let altered = "30 00 30 01 30 03 31 41 32 30 03 31 42 32 32 30 02 30 05 32 32 32 3F";
    assert_eq!(brought_back([S, T, E, altered], 0), refused(15, 4, 0));
}

#[test]
fn reading_20_the_last_of_64_types() {
    assert_eq!(table(&format!("{} 12 15 3F 1F", times("11", 63))), refused(6, 1, 63));
}

// Optional choices: N3 of paper 02 and its readings.

/// An optional choice of a text and an empty type, and the same as a member of
/// a sequence twice.
const OPTIONAL: &str = "17 15 01 15 02 10 11 1F";
const TWICE: &str = "12 15 03 15 03 10 11 17 15 01 15 02 1F";
/// Both paths go through the second member.
const SECOND: &str = "20 00 21 22 02 22 01 21 22 02 22 02 20 01 21 20 02 2F";

#[test]
fn optional_tables() {
    assert_eq!(table("17 1F"), refused(2, 1, 1));
    assert_eq!(table("17 15 00 1F"), Ok(1));
    assert_eq!(table("17 15 00 15 00 1F"), refused(5, 1, 3));
    assert_eq!(table("17 15 01 1F"), refused(4, 1, 1));
    assert_eq!(table("16 15 00 1F"), refused(2, 1, 0));
    let members: String = (1..=17).map(|t| format!("15 {t:02X} ")).collect();
    let types = times("11", 17);
    assert_eq!(table(&format!("17 {members} {types} 1F")), refused(3, 1, 33));
    assert_eq!(table(&format!("17 {} {types} 1F", &members[..16 * 6])), Ok(18));
}

/// An optional choice has a finite instance whatever its members are.
#[test]
fn optional_instances() {
    assert_eq!(table("12 15 01 17 15 00 1F"), Ok(2));
    assert_eq!(table("12 15 01 13 15 00 15 01 1F"), refused(6, 1, 0));
    assert_eq!(table("17 15 01 12 15 01 1F"), refused(6, 1, 1));
}

#[test]
fn optional_trees() {
    assert_eq!(tree(OPTIONAL, "30 00 32 3F"), Ok(1));
    assert_eq!(tree(OPTIONAL, "30 00 30 02 32 32 3F"), Ok(2));
    assert_eq!(tree(OPTIONAL, "30 00 30 00 32 32 3F"), refused(11, 4, 2));
    assert_eq!(tree(OPTIONAL, "30 00 30 02 32 30 01 32 32 3F"), refused(11, 4, 5));
    assert_eq!(tree(OPTIONAL, "30 00 31 41 32 3F"), refused(11, 4, 2));
}

#[test]
fn optional_paths_begin_alike() {
    let apart = "20 00 21 22 01 22 01 21 22 02 22 02 20 01 21 20 02 2F";
    assert_eq!(embedding(OPTIONAL, TWICE, apart), refused(9, 3, 7));
    assert_eq!(embedding(&OPTIONAL.replace("17", "13"), TWICE, apart), refused(10, 3, 7));
    assert_eq!(embedding(OPTIONAL, TWICE, SECOND), Ok(3));
}

#[test]
fn optional_first_choice_is_optional() {
    assert_eq!(embedding(OPTIONAL, &TWICE.replace("17", "13"), SECOND), refused(9, 3, 2));
    let both = "20 00 21 22 01 22 01 21 22 01 22 02 20 02 21 20 03 2F";
    let needed_later = "17 15 01 13 15 02 15 03 10 11 1F";
    assert_eq!(embedding(OPTIONAL, needed_later, both), Ok(3));
    let needed_first = "13 15 01 15 02 17 15 02 15 03 10 11 1F";
    assert_eq!(embedding(OPTIONAL, needed_first, both), refused(9, 3, 2));
    assert_eq!(embedding(&OPTIONAL.replace("17", "13"), needed_first, both), Ok(3));
}

#[test]
fn optional_paths_have_a_choice() {
    let sequence = "12 15 01 15 02 10 11 1F";
    assert_eq!(embedding(OPTIONAL, sequence, "20 00 21 22 01 21 22 02 20 01 21 20 02 2F"), refused(9, 3, 2));
}

/// A sequence, a list or a text through an optional choice.
#[test]
fn only_choices_go_through_an_optional_choice() {
    let target = "17 15 01 12 15 02 10 1F";
    let member = "20 00 21 22 01 22 01 20 02 21 2F";
    assert_eq!(embedding("12 15 01 10 1F", target, member), refused(9, 3, 2));
    assert_eq!(embedding("14 01 10 1F", &target.replace("12 15 02", "14 02"), member), refused(9, 3, 2));
    assert_eq!(embedding("10 1F", target, "20 00 21 22 01 22 01 2F"), refused(9, 3, 2));
    assert_eq!(embedding("17 15 01 10 1F", target, member), Ok(2));
}

#[test]
fn optional_paths_that_clash() {
    let source = "17 15 01 15 02 11 11 1F";
    let target = "17 15 01 12 15 02 15 02 13 15 03 15 04 11 11 1F";
    let equal = "20 00 21 22 01 22 01 22 01 21 22 01 22 01 22 01 20 03 20 03 2F";
    assert_eq!(embedding(source, target, equal), refused(10, 3, 9));
    let beginning = "20 00 21 22 01 21 22 01 22 01 20 01 20 02 2F";
    assert_eq!(embedding(source, target, beginning), refused(10, 3, 5));
    let at_sequence = "20 00 21 22 01 22 01 22 01 21 22 01 22 02 22 02 20 03 20 04 2F";
    assert_eq!(embedding(source, target, at_sequence), refused(10, 3, 9));
    let at_choice = "20 00 21 22 01 22 02 22 01 21 22 01 22 02 22 02 20 03 20 04 2F";
    assert_eq!(embedding(source, target, at_choice), Ok(2));
}

/// Nothing, and each member; the elements built for nothing are no filler.
#[test]
fn optional_images() {
    let documents = |tree| [OPTIONAL, TWICE, SECOND, tree];
    assert_image(documents("30 00 32 3F"), "30 00 30 03 32 30 03 32 32 3F", 1);
    assert_image(documents("30 00 30 02 32 32 3F"), "30 00 30 03 32 30 03 30 02 32 32 32 3F", 1);
    let text = documents("30 00 30 01 31 41 32 32 3F");
    assert_image(text, "30 00 30 03 32 30 03 30 01 31 41 32 32 32 3F", 1);
    // The first member is filler.
    let filled = "30 00 30 03 30 02 32 32 30 03 32 32 3F";
    assert_eq!(brought_back(documents(filled), 60_000), refused(15, 4, 0));
}

/// Where the path goes on through a second optional choice, that one is not
/// left empty.
#[test]
fn only_the_first_optional_choice_is_left_empty() {
    let documents =
        |tree| ["17 15 01 11 1F", "17 15 01 17 15 02 11 1F", "20 00 21 22 01 22 01 20 02 2F", tree];
    assert_image(documents("30 00 32 3F"), "30 00 32 3F", 0);
    assert_image(documents("30 00 30 01 32 32 3F"), "30 00 30 01 30 02 32 32 32 3F", 0);
    assert_eq!(brought_back(documents("30 00 30 01 32 32 3F"), 60_000), refused(15, 4, 0));
}

/// A needed choice through an optional one: nothing is no image.
#[test]
fn a_needed_choice_through_an_optional_one() {
    let documents = |tree| {
        ["13 15 01 15 02 11 11 1F", "17 15 01 15 02 11 11 1F", "20 00 21 22 02 21 22 01 20 02 20 01 2F", tree]
    };
    assert_image(documents("30 00 30 01 32 32 3F"), "30 00 30 02 32 32 3F", 0);
    assert_eq!(brought_back(documents("30 00 32 3F"), 60_000), refused(15, 4, 0));
}

/// The filler of an optional choice is empty, of height 1: a filler choice
/// takes it though its only member is high.
#[test]
fn filler_of_an_optional_choice() {
    let target = "13 15 01 15 02 12 15 03 17 15 01 11 1F";
    assert_image(["11 1F", target, "20 00 2F", "30 00 32 3F"], "30 00 30 02 32 32 3F", 1);
}

// Paper 02, N6: lists on the paths of choices.

/// A needed choice of a text and an empty type, as `OPTIONAL` is.
const NEEDED: &str = "13 15 01 15 02 10 11 1F";
/// A list of optional choices.
const BELOW_LIST: &str = "14 01 17 15 02 15 03 10 11 1F";
/// The paths through its item.
const BY_ITEM: &str = "20 00 21 22 01 22 01 21 22 01 22 02 20 02 21 20 03 2F";
/// Lists before, between and after an optional and a needed choice, with a
/// filler element beside.
const FOUR_LISTS: &str = "14 01 12 15 02 15 07 17 15 03 14 04 14 05 13 15 06 15 07 14 08 11 10 1F";
/// The paths through these lists; that of the empty type has no last one.
const THROUGH_LISTS: &str = "20 00 21 22 01 22 01 22 01 22 01 22 01 22 01 22 01 \
     21 22 01 22 01 22 01 22 01 22 01 22 02 20 08 21 20 07 2F";

/// The image is the list, with one item: for nothing, and for each member.
#[test]
fn list_before_the_choice() {
    let documents = |tree| [OPTIONAL, BELOW_LIST, BY_ITEM, tree];
    assert_image(documents("30 00 32 3F"), "30 00 30 01 32 32 3F", 0);
    assert_image(documents("30 00 30 02 32 32 3F"), "30 00 30 01 30 03 32 32 32 3F", 0);
    let text = "30 00 30 01 31 41 32 32 3F";
    let image = "30 00 30 01 30 02 31 41 32 32 32 3F";
    assert_image(documents(text), image, 0);
    assert_image([NEEDED, BELOW_LIST, BY_ITEM, text], image, 0);
}

#[test]
fn list_between_choices() {
    let target = "13 15 01 15 04 14 02 13 15 03 15 04 10 11 1F";
    let paths = "20 00 21 22 01 22 01 22 01 21 22 01 22 01 22 02 20 03 21 20 04 2F";
    let image = "30 00 30 01 30 02 30 04 32 32 32 32 3F";
    assert_image([NEEDED, target, paths, "30 00 30 02 32 32 3F"], image, 0);
}

/// Only the path of the text has the list.
#[test]
fn list_after_the_choice() {
    let documents = |tree| {
        let (target, paths) =
            ("13 15 01 15 03 14 02 10 11 1F", "20 00 21 22 01 22 01 21 22 02 20 02 21 20 03 2F");
        [NEEDED, target, paths, tree]
    };
    let image = "30 00 30 01 30 02 31 41 32 32 32 3F";
    assert_image(documents("30 00 30 01 31 41 32 32 3F"), image, 0);
    assert_image(documents("30 00 30 02 32 32 3F"), "30 00 30 03 32 32 3F", 0);
    assert_eq!(brought_back(documents("30 00 30 01 32 32 3F"), 60), refused(15, 4, 0));
}

#[test]
fn several_lists_on_a_path() {
    let documents = |tree| [OPTIONAL, FOUR_LISTS, THROUGH_LISTS, tree];
    assert_image(documents("30 00 32 3F"), "30 00 30 01 30 02 32 30 07 32 32 32 3F", 1);
    let image = "30 00 30 01 30 02 30 03 30 04 30 05 30 06 30 08 31 41 32 32 32 32 32 32 30 07 32 32 32 3F";
    assert_image(documents("30 00 30 01 31 41 32 32 3F"), image, 1);
    // A second item in the second list; the last list without an item.
    let second = image.replace("30 04 30 05", "30 04 30 05 30 07 32 32 32 30 04 30 05");
    assert_eq!(brought_back(documents(&second), 60), refused(15, 4, 0));
    let missing = image.replace("30 08 31 41 32 ", "");
    assert_eq!(brought_back(documents(&missing), 60), refused(15, 4, 0));
}

/// A second item, of either kind of content, and no item at all.
#[test]
fn other_than_one_item_is_no_image() {
    let optional = |tree| brought_back([OPTIONAL, BELOW_LIST, BY_ITEM, tree], 60);
    assert_eq!(optional("30 00 30 01 32 30 01 32 32 3F"), refused(15, 4, 0));
    assert_eq!(optional("30 00 30 01 30 03 32 32 30 01 32 32 3F"), refused(15, 4, 0));
    assert_eq!(optional("30 00 30 01 32 30 01 30 03 32 32 32 3F"), refused(15, 4, 0));
    assert_eq!(optional("30 00 32 3F"), refused(15, 4, 0));
    let needed = |tree| brought_back([NEEDED, BELOW_LIST, BY_ITEM, tree], 60);
    assert_eq!(needed("30 00 30 01 32 32 3F"), refused(15, 4, 0));
    assert_eq!(needed("30 00 32 3F"), refused(15, 4, 0));
}

/// Lists and no choice; a needed choice behind the list.
#[test]
fn list_is_no_choice() {
    let lists = "12 15 01 15 02 14 03 14 04 10 11 1F";
    let paths = "20 00 21 22 01 22 01 21 22 02 22 01 20 03 21 20 04 2F";
    assert_eq!(embedding(NEEDED, lists, paths), refused(9, 3, 2));
    assert_eq!(embedding(OPTIONAL, lists, paths), refused(9, 3, 2));
    let needed = BELOW_LIST.replace("17", "13");
    assert_eq!(embedding(NEEDED, &needed, BY_ITEM), Ok(3));
    assert_eq!(embedding(OPTIONAL, &needed, BY_ITEM), refused(9, 3, 2));
}

/// Paths that part at a sequence behind a list; beginnings that differ by a
/// list; a second step from a list.
#[test]
fn paths_part_at_a_choice_behind_a_list() {
    let beside = "14 01 12 15 02 15 02 17 15 03 15 04 10 11 1F";
    let apart = "20 00 21 22 01 22 01 22 01 21 22 01 22 02 22 02 20 03 21 20 04 2F";
    assert_eq!(embedding(NEEDED, beside, apart), refused(10, 3, 9));
    assert_eq!(embedding(OPTIONAL, beside, apart), refused(9, 3, 9));
    let one_list = "12 15 01 15 02 14 02 17 15 03 15 04 10 11 1F";
    let unlike = "20 00 21 22 01 22 01 22 01 21 22 02 22 02 20 03 21 20 04 2F";
    assert_eq!(embedding(NEEDED, one_list, unlike), refused(10, 3, 9));
    assert_eq!(embedding(OPTIONAL, one_list, unlike), refused(9, 3, 9));
    let second = BY_ITEM.replacen("22 01", "22 02", 1);
    assert_eq!(embedding(NEEDED, BELOW_LIST, &second), refused(4, 3, 3));
}

/// A sequence, a list or a text still goes through no choice.
#[test]
fn only_choices_go_through_a_choice_and_a_list() {
    let target = "17 15 01 14 02 10 1F";
    let member = "20 00 21 22 01 22 01 20 02 21 2F";
    assert_eq!(embedding("12 15 01 10 1F", target, member), refused(9, 3, 2));
    assert_eq!(embedding("14 01 10 1F", target, member), refused(9, 3, 2));
    assert_eq!(embedding("10 1F", target, "20 00 21 22 01 22 01 2F"), refused(9, 3, 2));
    assert_eq!(embedding("17 15 01 10 1F", target, member), Ok(2));
}

// Paper 02, N5: the characters from A0 to FF.

/// The characters at the ends of the ranges, and their neighbours.
#[test]
fn accents_are_characters() {
    let text = |c: &str| tree("10 1F", &format!("30 00 31 {c} 32 3F"));
    for allowed in ["09", "0A", "20", "7E", "A0", "E9", "FF"] {
        assert_eq!(text(allowed), Ok(1), "{allowed}");
    }
    for forbidden in ["00", "08", "0B", "1F", "7F", "80", "9F"] {
        assert_eq!(text(forbidden), refused(4, 4, 2), "{forbidden}");
    }
}

/// Where no character may stand: 11 for an accent, 4 for a forbidden one.
#[test]
fn accents_in_other_elements() {
    let documents = [
        ("11 1F", "30 00 31 E9 32 3F"),
        ("12 15 01 10 1F", "30 00 31 E9 30 01 32 32 3F"),
        (NEEDED, "30 00 31 E9 30 02 32 32 3F"),
        (OPTIONAL, "30 00 31 E9 32 3F"),
        ("14 01 10 1F", "30 00 31 E9 32 3F"),
    ];
    for (table, document) in documents {
        assert_eq!(tree(table, document), refused(11, 4, 2), "{table}");
        assert_eq!(tree(table, &document.replace("E9", "9F")), refused(4, 4, 2), "{table}");
    }
}

/// 4 precedes a fault of 11 before it; 2 precedes it behind it.
#[test]
fn forbidden_characters_and_other_faults() {
    assert_eq!(tree("11 1F", "30 00 31 E9 31 9F 32 3F"), refused(4, 4, 4));
    assert_eq!(tree("11 1F", "30 00 31 9F 32"), refused(2, 4, 5));
}

/// In the filler of an image an accent is 15, a forbidden character 4.
#[test]
fn accents_are_carried() {
    let documents = |tree| ["10 1F", "12 15 01 15 01 10 1F", "20 00 21 22 02 2F", tree];
    let image = "30 00 30 01 32 30 01 31 A0 31 FF 32 32 3F";
    assert_image(documents("30 00 31 A0 31 FF 32 3F"), image, 1);
    assert_eq!(carried(documents("30 00 31 A0 31 FF 32 3F"), 13), refused(14, 5, 0));
    assert_eq!(brought_back(documents(image), 7), refused(14, 5, 0));
    let filled = image.replacen("30 01", "30 01 31 E9", 1);
    assert_eq!(brought_back(documents(&filled), 60), refused(15, 4, 0));
    assert_eq!(brought_back(documents(&filled.replace("E9", "80")), 60), refused(4, 4, 4));
}
