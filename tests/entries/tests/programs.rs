//! The programs: `carry`, `bring` and `read` print the line of their answer, just
//! as Rust formats it and by one write, and `cases` does so for each of its cases;
//! `extend` prints a line for each operation on a table and for each type. They
//! are looked for in the folder that LAFINDRY_PROGRAM_DIR names, else in
//! `target/bin`; both are taken from the root of the repository unless absolute.
//! LAFINDRY_SEED sets another seed.

mod counts;
mod lines;
mod seed;
mod writes;

use counts::Counts;
use lafindry_entries::{ensure, report, Failure, Setting};
use lafindry_reference::extension::{report as report_of, Kept};
use lafindry_reference::generate::{random_extension, Rng, TableSize, World};
use lafindry_reference::vectors::crossings::is_crossing;
use lafindry_reference::vectors::explanations::is_question;
use lafindry_reference::vectors::operations::{self, is_row};
use lafindry_reference::vectors::{is_skipped, parse_line, Answer, Case, Entry};
use lafindry_reference::{Refusal, MOST_BYTES};
use lines::{answer_to, at, case_of, place, program, Folder, Run, ENTRIES, FILES};
use seed::seed;
use std::collections::{BTreeMap, BTreeSet};
use std::fs::{self, File};
use std::path::{Path, PathBuf};
use std::process::{Command, Stdio};
use writes::writes_of;

/// How many cases of each answer are taken from a file of vectors.
const MOST_OF_EACH: usize = 4;

/// The cases of a file of vectors whose entries have a program, with their
/// answers, at most [`MOST_OF_EACH`] of an entry with the same refusal of the
/// same document. No program explains clashes or counts what went across; rows of
/// operations go to another one.
fn some_vectors(path: &Path) -> Result<Vec<(Case, Answer)>, Failure> {
    let text = fs::read_to_string(path).map_err(at(path))?;
    let mut taken: BTreeMap<_, usize> = BTreeMap::new();
    let mut vectors = Vec::new();
    let others = [is_skipped, is_question, is_crossing, is_row];
    for line in text.lines().filter(|line| !others.iter().any(|is_other| is_other(line))) {
        let (case, answer) = parse_line(line).map_err(|message| Failure(format!("{line}: {message}")))?;
        let refusal = match answer {
            Answer::Ok { .. } => (0, 0),
            Answer::Refused(refusal) => (refusal.number, refusal.document),
        };
        let count = taken.entry((case.entry, refusal)).or_default();
        if ENTRIES.contains(&case.entry) && *count < MOST_OF_EACH {
            *count += 1;
            vectors.push((case, answer));
        }
    }
    Ok(vectors)
}

/// The files of vectors.
fn vector_files() -> Result<BTreeSet<PathBuf>, Failure> {
    let folder = place("tests/data");
    let files = fs::read_dir(&folder).map_err(at(&folder))?;
    files.map(|file| file.map(|file| file.path()).map_err(at(&folder))).collect()
}

/// The documents of each vector go to all three programs. The answer of its own
/// entry is the vector's, unless that output was too short; the programs lend
/// one that never is.
#[test]
fn lines_of_vectors() -> Result<(), Failure> {
    let mut run = Run::new("vectors")?;
    for file in vector_files()? {
        for (vector, answer) in some_vectors(&file)? {
            let too_short = matches!(answer, Answer::Refused(Refusal { number: 14, .. }));
            for entry in ENTRIES {
                let case = case_of(entry, vector.documents.clone());
                match entry == vector.entry && !too_short {
                    true => run.ensure_line(&case, &answer)?,
                    false => run.compare(&case).map(drop)?,
                }
            }
        }
    }
    let histogram = run.finish("lines of vectors")?;
    let carried = (0..=13).map(|number| (Entry::Carry, number));
    let brought = (0..=11).chain([15]).map(|number| (Entry::BringBack, number));
    let read = (0..=11).chain([17]).map(|number| (Entry::ReadAlong, number));
    let missing =
        carried.chain(brought).chain(read).find(|&(entry, number)| histogram.of(entry, number) == 0);
    ensure(missing.is_none(), format!("no line of {missing:?}"))?;
    ensure(histogram.total() >= 1200, "too few lines")
}

/// Lengths and offsets where a number gets one digit more, and about the
/// greatest length.
fn edges() -> impl Iterator<Item = usize> {
    let edges = [0..=12, 97..=103, 997..=1003, 9_997..=10_003, MOST_BYTES - 3..=MOST_BYTES + 2];
    edges.into_iter().flatten()
}

/// A text, and target tables where it is the member of a sequence, alone and
/// beside an empty element, which is filler.
const TEXT: &[u8] = &[0x10, 0x1F];
const ALONE: &[u8] = &[0x12, 0x15, 1, 0x10, 0x1F];
const BESIDE_FILLER: &[u8] = &[0x12, 0x15, 1, 0x15, 2, 0x10, 0x11, 0x1F];

/// The setting of that text and such a table.
fn text_setting(target: &[u8]) -> Setting {
    Setting::new(TEXT.to_vec(), target.to_vec(), vec![0x20, 0, 0x21, 0x22, 1, 0x2F])
}

/// A text of so many characters.
fn text(characters: usize) -> Vec<u8> {
    [&[0x30, 0][..], &[0x31, 0x41].repeat(characters), &[0x32, 0x3F]].concat()
}

/// Trees and images of these lengths, or of one byte less.
#[test]
fn lines_with_lengths() -> Result<(), Failure> {
    let mut run = Run::new("lengths")?;
    for length in edges() {
        // What the tree, and the image by each table, have beside characters.
        for (target, rest) in [(ALONE, 4), (ALONE, 7), (BESIDE_FILLER, 10)] {
            if let Some(left) = length.checked_sub(rest) {
                run.round_trip(&text_setting(target), &text(left / 2))?;
            }
        }
    }
    run.ensure_printed(&["carried 9 0", "carried 10 1", "carried 99 0", "carried 100 1", "carried 999 0"])?;
    run.ensure_printed(&["carried 1000 1", "carried 9999 0", "carried 10000 1", "carried 10003 0"])?;
    run.ensure_printed(&["carried 59999 0", "carried 60000 1", "refused 13 5 0", "brought 4", "brought 8"])?;
    run.ensure_printed(&["brought 10", "brought 98", "brought 100", "brought 998", "brought 1000"])?;
    run.ensure_printed(&["brought 9998", "brought 10000", "brought 59994", "brought 59996"])?;
    run.ensure_printed(&["read 4 0", "read 4 1", "read 8 0", "read 10 0", "read 98 0", "read 100 0"])?;
    run.ensure_printed(&["read 998 0", "read 1000 0", "read 10000 0", "read 59994 1", "read 59996 0"])?;
    run.finish("lines with lengths").map(drop)
}

/// Trees whose bytes run out after so many, or within the command there.
#[test]
fn lines_with_marks() -> Result<(), Failure> {
    let mut run = Run::new("marks")?;
    let tree = text(MOST_BYTES);
    for (length, entry) in edges().flat_map(|length| ENTRIES.map(|entry| (length, entry))) {
        run.compare_damaged(&text_setting(ALONE).case(entry, &tree[..length], MOST_BYTES))?;
    }
    run.ensure_printed(&["refused 2 4 0", "refused 2 4 8", "refused 2 4 10", "refused 2 4 98"])?;
    run.ensure_printed(&["refused 2 4 100", "refused 2 4 998", "refused 2 4 1000", "refused 2 4 9998"])?;
    run.ensure_printed(&["refused 2 4 10000", "refused 2 4 59998", "refused 2 4 60000", "refused 1 4 0"])?;
    run.finish("lines with marks").map(drop)
}

/// An empty element carried into a sequence of filler: so many elements, each a
/// sequence of so many others, and so on.
fn filler_setting(widths: &[usize]) -> Setting {
    let mut target = Vec::new();
    for (&width, next) in widths.iter().zip(1..) {
        target.push(0x12);
        target.extend([0x15, next].repeat(width));
    }
    target.extend([0x11, 0x1F]);
    Setting::new(vec![0x11, 0x1F], target, vec![0x20, 0, 0x2F])
}

#[test]
fn lines_with_filler() -> Result<(), Failure> {
    let mut run = Run::new("filler")?;
    let widths: [&[usize]; 11] = [
        &[1],
        &[9],
        &[10],
        &[9, 10],
        &[10, 9],
        &[9, 10, 10],
        &[10, 9, 10],
        &[9, 10, 10, 10],
        &[10, 9, 10, 10],
        &[16, 16, 16, 3],
        &[16, 16, 16, 4],
    ];
    for widths in widths {
        run.round_trip(&filler_setting(widths), &[0x30, 0, 0x32, 0x3F])?;
    }
    run.ensure_printed(&[
        "carried 7 1",
        "carried 31 9",
        "carried 34 10",
        "carried 301 99",
        "carried 304 100",
    ])?;
    run.ensure_printed(&[
        "carried 3001 999",
        "carried 3004 1000",
        "carried 30001 9999",
        "carried 30004 10000",
    ])?;
    run.ensure_printed(&["carried 49972 16656", "refused 13 5 0", "brought 4"])?;
    run.ensure_printed(&["read 4 1", "read 4 9", "read 4 10", "read 4 99", "read 4 100", "read 4 16656"])?;
    run.finish("lines with filler").map(drop)
}

/// Random trees and images of about the greatest length.
#[test]
fn lines_of_long_documents() -> Result<(), Failure> {
    let mut rng = Rng::new(seed().wrapping_add(1200));
    let (mut run, mut counts) = (Run::new("long")?, Counts::default());
    for _ in 0..100 {
        let size = TableSize::random(&mut rng);
        let world = World::at_most_bytes(&mut rng, size);
        let answer = run.round_trip(&Setting::of(&world), &world.tree.to_bytes())?;
        let is_long = matches!(answer, Answer::Ok { value, .. } if value > 59_000);
        counts.add("carried to more than 59,000 bytes", is_long);
    }
    let histogram = run.finish("lines of long documents")?;
    let rare = [1, 13].into_iter().find(|&number| histogram.of(Entry::Carry, number) < 5);
    ensure(rare.is_none(), format!("too few refusals: {rare:?}"))?;
    counts.finish("long documents", 5)
}

/// All ways to leave out some of the patch's files. One that can't be opened
/// counts as empty.
#[test]
fn lines_without_some_files() -> Result<(), Failure> {
    let mut run = Run::new("missing")?;
    let read = |name| fs::read(place("examples/patch").join(name)).map_err(at(Path::new(name)));
    let patch: Result<Vec<Vec<u8>>, Failure> = FILES.into_iter().map(read).collect();
    let carried = case_of(Entry::Carry, patch?);
    let Answer::Ok { output: image, .. } = answer_to(&carried)? else {
        return Err(Failure("the patch is not carried".to_string()));
    };
    let brought = case_of(Entry::BringBack, [&carried.documents[..3], &[image]].concat());
    let read = case_of(Entry::ReadAlong, brought.documents.clone());
    for (case, bits) in [carried, brought, read].iter().flat_map(|case| (0..16).map(move |bits| (case, bits)))
    {
        let mut case = case.clone();
        let left_out: Vec<usize> = (0..FILES.len()).filter(|at| bits >> at & 1 == 1).collect();
        left_out.iter().for_each(|&at| case.documents[at].clear());
        run.ensure_line_without(&left_out, &case, &answer_to(&case)?)?;
    }
    run.ensure_printed(&["carried 21 1", "brought 15", "read 15 1"])?;
    run.ensure_printed(&["refused 2 1 0", "refused 2 2 0", "refused 2 3 0", "refused 2 4 0"])?;
    run.finish("lines without some files").map(drop)
}

/// The program `cases` prints what is stored, a line by each write.
#[test]
fn lines_of_worked_cases() -> Result<(), Failure> {
    let [input, stored] = ["crates/cases/stdin", "crates/cases/stdout"].map(place);
    let folder = Folder::new("cases")?;
    let input = File::open(&input).map_err(at(&input))?;
    let writes = writes_of(&program("cases")?, folder.path(), Stdio::from(input))?;
    let expected = fs::read(&stored).map_err(at(&stored))?;
    ensure(writes.concat() == expected, "cases printed something else than crates/cases/stdout")?;
    let lines: Vec<&[u8]> = expected.split_inclusive(|&byte| byte == b'\n').collect();
    ensure(writes == lines, format!("cases wrote {} lines by {} writes", lines.len(), writes.len()))?;
    report(&format!("lines of worked cases: {} agree", lines.len()));
    ensure(lines.len() >= 165, "too few lines")
}

/// The files that the program `extend` reads.
const TABLE_AND_OPERATIONS: [&str; 2] = ["s1", "op"];

/// The lines that it prints: for each operation the number of types or the
/// refusal, then for each type what is kept of it; or the refusal of a document.
fn lines_of_report([table, operations]: &[Vec<u8>; 2]) -> String {
    match report_of(table, operations) {
        Ok(report) => {
            let answers = report.answers.iter().map(|answer| match answer {
                Ok(types) => format!("types {types}\n"),
                Err(refusal) => format!("{refusal}\n"),
            });
            let kept = report.kept.iter().map(|Kept { height, length }| format!("{height} {length}\n"));
            answers.chain(kept).collect()
        }
        Err(refusal) => format!("{refusal}\n"),
    }
}

/// Fails unless `extend` prints the lines of the reference's report, where the
/// files of some documents are left out. Gives these lines.
fn ensure_extends(folder: &Folder, documents: &[Vec<u8>; 2], left_out: &[usize]) -> Result<String, Failure> {
    folder.put(&TABLE_AND_OPERATIONS, documents, left_out)?;
    let given = [0, 1].map(|at| if left_out.contains(&at) { Vec::new() } else { documents[at].clone() });
    let (lines, extend) = (lines_of_report(&given), program("extend")?);
    let ended = Command::new(&extend).current_dir(folder.path()).output().map_err(at(&extend))?;
    match ended.status.success() && ended.stdout == lines.as_bytes() {
        true => Ok(lines),
        false => Err(Failure(format!("{given:02x?}\nextend: {ended:?}\nnot {lines}"))),
    }
}

/// Every third vector.
#[test]
fn lines_of_operations() -> Result<(), Failure> {
    let (folder, path) = (Folder::new("operations")?, place("tests/data/n8.txt"));
    let text = fs::read_to_string(&path).map_err(at(&path))?;
    let (mut count, mut kinds) = (0, BTreeSet::new());
    for line in text.lines().filter(|line| !is_skipped(line)).step_by(3) {
        let (row, _) =
            operations::parse_line(line).map_err(|message| Failure(format!("{line}: {message}")))?;
        let lines = ensure_extends(&folder, &row.lent(0).documents, &[])?;
        kinds.extend(lines.lines().filter_map(|line| line.strip_prefix("refused ")).map(str::to_string));
        count += lines.lines().count();
    }
    report(&format!("lines of operations: {count}, refused: {kinds:?}"));
    let refused = ["19 1 0", "2 1 0", "3 1 0", "4 1 0", "5 1 0", "6 1 0"].map(str::to_string);
    ensure(kinds == refused.into(), "a refusal is missing")
}

/// Random rows of which some are damaged, files that aren't there, and as many
/// operations as there may be.
#[test]
fn lines_of_damaged_operations() -> Result<(), Failure> {
    let mut rng = Rng::new(seed().wrapping_add(1300));
    let (folder, mut counts) = (Folder::new("damaged")?, Counts::default());
    for _ in 0..150 {
        let lines = ensure_extends(&folder, &random_extension(&mut rng).documents, &[])?;
        let words: Vec<&str> = lines.split_whitespace().collect();
        counts.add("refused tables", matches!(words[..], ["refused", _, "1", _]));
        counts.add("refused operations", matches!(words[..], ["refused", _, "11", _]));
        counts.add("with a refused operation", lines.contains(" 1 0\n"));
        counts.add("with an accepted one", lines.contains("types "));
    }
    let documents = [vec![0x13, 0x15, 1, 0x15, 0, 0x11, 0x1F], vec![0x52, 0, 2, 0x51, 1, 0x10]];
    for left_out in [&[][..], &[0], &[1], &[0, 1]] {
        ensure_extends(&folder, &documents, left_out)?;
    }
    for length in [MOST_BYTES, MOST_BYTES + 1] {
        let documents = [vec![0x11, 0x1F], [0x51, 0].repeat(MOST_BYTES)[..length].to_vec()];
        let lines = ensure_extends(&folder, &documents, &[])?;
        counts.add("too long", lines == "refused 1 11 0\n");
    }
    counts.finish("lines of damaged operations", 1)
}
