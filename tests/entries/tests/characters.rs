//! Characters: each of the 256 bytes at each kind of place, answered as papers
//! 01 and 02 (N5) say; and random cases with an accent, a character from A0 to
//! FF, on which the C entries agree with the reference and among which every
//! clause about characters occurs. LAFINDRY_SEED sets another seed.

mod clauses;
mod seed;

use clauses::Subject;
use lafindry_entries::{ensure, Failure, Histogram, Kind, Setting, Tally};
use lafindry_reference::clauses::characters::{has_accent, shown, CharacterClause};
use lafindry_reference::generate::cases::Made;
use lafindry_reference::generate::{Rng, World};
use lafindry_reference::vectors::{Answer, Case, Entry};
use lafindry_reference::{Refusal, MOST_LEVELS, OUTPUT, TREE};
use seed::seed;
use std::ops::RangeInclusive;

/// The characters that the papers allow.
const ALLOWED: [RangeInclusive<u8>; 4] = [0x09..=0x09, 0x0A..=0x0A, 0x20..=0x7E, 0xA0..=0xFF];

/// Whether the papers allow a character.
fn is_allowed(byte: u8) -> bool {
    ALLOWED.iter().any(|range| range.contains(&byte))
}

/// A sequence with a member of each other kind: 1 a text, 2 an empty type, 3 a
/// choice and 4 an optional choice of these two, 5 a list of texts.
#[rustfmt::skip]
const SOURCE: &[u8] = &[
    0x12, 0x15, 1, 0x15, 2, 0x15, 3, 0x15, 4, 0x15, 5,
    0x10, 0x11, 0x13, 0x15, 1, 0x15, 2, 0x17, 0x15, 1, 0x15, 2, 0x14, 1, 0x1F,
];

/// The same with another text before all members, which is filler.
#[rustfmt::skip]
const TARGET: &[u8] = &[
    0x12, 0x15, 1, 0x15, 1, 0x15, 2, 0x15, 3, 0x15, 4, 0x15, 5,
    0x10, 0x11, 0x13, 0x15, 1, 0x15, 2, 0x17, 0x15, 1, 0x15, 2, 0x14, 1, 0x1F,
];

/// Every type to itself.
#[rustfmt::skip]
const EMBEDDING: &[u8] = &[
    0x20, 0, 0x21, 0x22, 2, 0x21, 0x22, 3, 0x21, 0x22, 4, 0x21, 0x22, 5, 0x21, 0x22, 6,
    0x20, 1, 0x21,
    0x20, 2,
    0x20, 3, 0x21, 0x22, 1, 0x21, 0x22, 2,
    0x20, 4, 0x21, 0x22, 1, 0x21, 0x22, 2,
    0x20, 5, 0x21, 0x22, 1,
    0x2F,
];

/// A tree of the source table in pieces. Between two of them stands a place in
/// an element of each kind.
const PIECES: [&[u8]; 7] = [
    &[0x30, 0],
    &[0x30, 1],
    &[0x32, 0x30, 2],
    &[0x32, 0x30, 3],
    &[0x30, 2, 0x32, 0x32, 0x30, 4],
    &[0x32, 0x30, 5],
    &[0x32, 0x32, 0x3F],
];

/// The elements of that tree.
const ELEMENTS: u64 = 7;

/// The places: in the sequence, before its members; in the text; in the empty
/// element; in the choice, before its member; in the optional choice; in the
/// list.
const IN_SEQUENCE: usize = 0;
const IN_TEXT: usize = 1;
const IN_EMPTY: usize = 2;
const IN_CHOICE: usize = 3;
const IN_OPTIONAL: usize = 4;
const IN_LIST: usize = 5;

/// What the image has behind the opening of its root, in two pieces. Between
/// them stands a place in the filler.
const FILLER: [&[u8]; 2] = [&[0x30, 1], &[0x32]];

/// The length of the root's opening, and of the filler behind it.
const OPENING: usize = PIECES[0].len();
const FILLER_LENGTH: usize = FILLER[0].len() + FILLER[1].len();

/// What is put at the places of the tree.
#[derive(Default)]
struct Put([Vec<u8>; 6]);

impl Put {
    /// Puts bytes at one more place.
    fn and(mut self, place: usize, bytes: Vec<u8>) -> Put {
        self.0[place] = bytes;
        self
    }

    /// The offset of what is put at a place.
    fn offset(&self, place: usize) -> usize {
        let pieces: usize = PIECES[..=place].iter().map(|piece| piece.len()).sum();
        pieces + self.0[..place].iter().map(Vec::len).sum::<usize>()
    }

    /// The tree.
    fn tree(&self) -> Vec<u8> {
        let rest = self.0.iter().zip(&PIECES[1..]).flat_map(|(put, piece)| [put, *piece].concat());
        PIECES[0].iter().copied().chain(rest).collect()
    }
}

/// The commands of some characters.
fn characters(characters: &[u8]) -> Vec<u8> {
    characters.iter().flat_map(|&character| [0x31, character]).collect()
}

/// The image of a tree, with some characters in its filler.
fn image(tree: &[u8], in_filler: &[u8]) -> Vec<u8> {
    [&tree[..OPENING], FILLER[0], &characters(in_filler), FILLER[1], &tree[OPENING..]].concat()
}

/// Compares answers with those that are expected, and counts them.
#[derive(Default)]
struct Run(Tally);

impl Run {
    /// Fails unless the library and the reference both give an answer to a
    /// case. Where it is a refusal, the tree is damaged, or altered if it still
    /// conforms.
    fn ensure(&mut self, case: Case, expected: Answer) -> Result<(), Failure> {
        let made = match expected {
            Answer::Ok { .. } => Made::Whole,
            Answer::Refused(Refusal { number: 14 | 15, .. }) => Made::Altered,
            Answer::Refused(_) => Made::Damaged,
        };
        self.0.count_change(case.entry, case.documents.len() - 1, made);
        self.0.compare_with(&case, &expected)
    }

    /// Fails unless a tree is judged, carried and, as it is in its image,
    /// brought back and read along with these answers. The outputs are just long
    /// enough.
    fn ensure_all(&mut self, tree: &[u8], answers: [Answer; 4]) -> Result<(), Failure> {
        let [judged, carried, brought_back, read] = answers;
        let documents = vec![SOURCE.to_vec(), tree.to_vec()];
        self.ensure(Case { entry: Entry::JudgeTree, documents, output_length: 0 }, judged)?;
        let image = image(tree, &[]);
        self.ensure(setting().case(Entry::Carry, tree, image.len()), carried)?;
        self.ensure(setting().case(Entry::BringBack, &image, tree.len()), brought_back)?;
        self.ensure(setting().case(Entry::ReadAlong, &image, tree.len()), read)
    }

    /// Fails unless a tree conforms, is carried to its image, comes back and is
    /// read from it.
    fn ensure_accepted(&mut self, tree: &[u8]) -> Result<(), Failure> {
        let judged = Answer::Ok { value: ELEMENTS, filler: 0, output: Vec::new() };
        self.ensure_all(tree, [judged, written(&image(tree, &[]), 1), written(tree, 0), written(tree, 1)])
    }

    /// Fails unless a tree is refused by a number and a mark behind the opening
    /// of the root; in its image the filler stands before the mark.
    fn ensure_refused(&mut self, tree: &[u8], (number, mark): (u64, usize)) -> Result<(), Failure> {
        let refused = |mark| Answer::Refused(Refusal::new(number, TREE, mark));
        let in_image = refused(mark + FILLER_LENGTH);
        self.ensure_all(tree, [refused(mark), refused(mark), in_image.clone(), in_image])
    }

    /// Prints the counts and gives them. Fails unless there were so many cases,
    /// and among them so many altered or damaged trees, and images.
    fn finish(self, title: &str, cases: usize, changed: [usize; 2]) -> Result<Histogram, Failure> {
        let histogram = self.0.finish(title)?;
        let made = |kind| histogram.made(kind, Made::Altered) + histogram.made(kind, Made::Damaged);
        ensure(histogram.total() == cases, format!("{title}: not {cases} cases"))?;
        let right = [Kind::Tree, Kind::Image].map(made) == changed;
        ensure(right, format!("{title}: not {changed:?} altered or damaged trees and images"))?;
        Ok(histogram)
    }
}

/// The answer where a document is written, with so many elements of filler, or on
/// no followed path.
fn written(document: &[u8], filler: u64) -> Answer {
    Answer::Ok { value: document.len() as u64, filler, output: document.to_vec() }
}

/// The setting of the three documents.
fn setting() -> Setting {
    Setting::new(SOURCE.to_vec(), TARGET.to_vec(), EMBEDDING.to_vec())
}

/// Alone, and as the first, the middle and the last of three.
#[test]
fn bytes_in_a_text() -> Result<(), Failure> {
    let mut run = Run::default();
    for byte in 0..=0xFF {
        let texts: [(&[u8], usize); 4] =
            [(&[byte], 0), (&[byte, 0x41, 0x42], 0), (&[0x41, byte, 0x42], 1), (&[0x41, 0x42, byte], 2)];
        for (text, at) in texts {
            let put = Put::default().and(IN_TEXT, characters(text));
            match is_allowed(byte) {
                true => run.ensure_accepted(&put.tree())?,
                false => run.ensure_refused(&put.tree(), (4, put.offset(IN_TEXT) + 2 * at))?,
            }
        }
    }
    // The characters: 2 and 95 of paper 01, 96 of paper 02. The other bytes are refused.
    let refused = 0x100 - 193;
    let histogram = run.finish("bytes in a text", 4 * 4 * 0x100, [4 * 2 * refused; 2])?;
    ensure(Entry::WITH_TREE.iter().all(|&entry| histogram.of(entry, 0) == 4 * 193), "not 193 characters")
}

#[test]
fn bytes_in_other_elements() -> Result<(), Failure> {
    let mut run = Run::default();
    let places = [IN_SEQUENCE, IN_EMPTY, IN_CHOICE, IN_OPTIONAL, IN_LIST];
    for (byte, place) in (0..=0xFF).flat_map(|byte| places.map(|place| (byte, place))) {
        let put = Put::default().and(place, characters(&[byte]));
        let number = if is_allowed(byte) { 11 } else { 4 };
        run.ensure_refused(&put.tree(), (number, put.offset(place)))?;
    }
    run.finish("bytes in other elements", 5 * 4 * 0x100, [5 * 2 * 0x100; 2]).map(drop)
}

/// Something wrong: the place where it is put, its bytes, the number of its
/// refusal, and where in these bytes the mark is.
type Fault = (usize, Vec<u8>, u64, usize);

/// Faults of the form, of levels, of types and of conformity, the last two
/// before and behind the text.
fn faults() -> [Fault; 6] {
    let (no_type, unexpected) = (vec![0x30, 6, 0x32], vec![0x30, 2, 0x32]);
    // The sequence and the empty element are on the first two levels.
    let levels = MOST_LEVELS - 1;
    let deep = [[0x30, 5].repeat(levels), vec![0x32; levels]].concat();
    [
        (IN_EMPTY, vec![0x3F], 2, 0),
        (IN_EMPTY, deep, 3, 2 * (levels - 1)),
        (IN_SEQUENCE, no_type.clone(), 4, 0),
        (IN_EMPTY, no_type, 4, 0),
        (IN_SEQUENCE, unexpected.clone(), 11, 0),
        (IN_EMPTY, unexpected, 11, 0),
    ]
}

/// The first check that fails is told, and of that check the lowest mark.
#[test]
fn bytes_beside_another_fault() -> Result<(), Failure> {
    let mut run = Run::default();
    for (place, bytes, number, mark) in faults() {
        for byte in 0..=0xFF {
            let put = Put::default().and(IN_TEXT, characters(&[byte])).and(place, bytes.clone());
            let fault = (number, put.offset(place) + mark);
            let forbidden = (4, put.offset(IN_TEXT));
            run.ensure_refused(&put.tree(), if is_allowed(byte) { fault } else { fault.min(forbidden) })?;
        }
    }
    run.finish("bytes beside another fault", 6 * 4 * 0x100, [6 * 2 * 0x100; 2]).map(drop)
}

/// No image has a character in its filler. The output is long enough for the
/// source, or has no bytes.
#[test]
fn bytes_in_filler() -> Result<(), Failure> {
    let mut run = Run::default();
    let tree = Put::default().and(IN_TEXT, characters(&[0xE9])).tree();
    for (byte, room) in (0..=0xFF).flat_map(|byte| [(byte, tree.len()), (byte, 0)]) {
        let case = setting().case(Entry::BringBack, &image(&tree, &[byte]), room);
        let (number, mark) = if is_allowed(byte) { (15, 0) } else { (4, OPENING + FILLER[0].len()) };
        run.ensure(case, Answer::Refused(Refusal::new(number, TREE, mark)))?;
    }
    run.finish("bytes in filler", 2 * 0x100, [0, 2 * 0x100]).map(drop)
}

/// Reading leaves a character in the filler out, if it is allowed.
#[test]
fn bytes_in_filler_are_left_out() -> Result<(), Failure> {
    let mut run = Run::default();
    let tree = Put::default().and(IN_TEXT, characters(&[0xE9])).tree();
    for (byte, room) in (0..=0xFF).flat_map(|byte| [(byte, tree.len()), (byte, 0)]) {
        let case = setting().case(Entry::ReadAlong, &image(&tree, &[byte]), room);
        let expected = match (is_allowed(byte), room) {
            (false, _) => Answer::Refused(Refusal::new(4, TREE, OPENING + FILLER[0].len())),
            (true, 0) => Answer::Refused(Refusal::new(14, OUTPUT, 0)),
            (true, _) => written(&tree, 1),
        };
        run.ensure(case, expected)?;
    }
    run.finish("bytes in filler, left out", 2 * 0x100, [0, 2 * 0x100 - 193]).map(drop)
}

/// How often each clause has to occur. With seed 1 the rarest occurs 25 times.
const LEAST: usize = 5;

/// Accents. A case is counted only where one stands in the tree.
const ACCENTS: Subject<CharacterClause> = Subject {
    name: "accents",
    world: World::accented,
    has: has_accent,
    shown,
    clauses: &CharacterClause::ALL,
};

#[test]
fn cases_with_accents_agree() -> Result<(), Failure> {
    let rng = Rng::new(seed().wrapping_add(1000));
    let histogram = ACCENTS.compare(rng, 4800, &Entry::WITH_TREE, LEAST)?;
    histogram.ensure_all(&Entry::WITH_TREE, 1)?;
    let ways = [(Kind::Tree, Made::Damaged), (Kind::Image, Made::Damaged), (Kind::Image, Made::Altered)];
    histogram.ensure_made(&ways, 1000)?;
    ensure(histogram.total() >= 50_000, "too few cases")
}
