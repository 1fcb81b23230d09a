//! Reading along the paths: the C entry agrees with the reference on edited
//! images and other target documents, among which everything that a reading shows
//! occurs. What is read conforms, and is neither longer nor deeper than what it is
//! read from; edits of what no path leads to don't change it. LAFINDRY_SEED sets
//! another seed.

mod counts;
mod seed;

use counts::Counts;
use lafindry_entries::{ensure, Failure, Histogram, Kind, Setting, Tally};
use lafindry_reference::clauses::reading::{shown, ReadingClause};
use lafindry_reference::generate::cases::{draw_case, Made};
use lafindry_reference::generate::trees::pad;
use lafindry_reference::generate::{edited_case, Edits, Rng, Shape, TableSize, World};
use lafindry_reference::tree::{self, levels, Element};
use lafindry_reference::vectors::{Answer, Case, Entry};
use lafindry_reference::{Refusal, MOST_BYTES, MOST_LEVELS, OUTPUT, TREE};
use seed::seed;

/// The place of the target document among the documents of a case.
const TARGET_TREE: usize = 3;

/// How many edited targets there have to be.
const EDITED: usize = 100_000;

/// How often everything that a reading shows has to occur. With seed 1 the rarest
/// occurs 160 times.
const LEAST: usize = 50;

/// Reads target documents, and counts the answers and what they show.
#[derive(Default)]
struct Run {
    tally: Tally,
    judged: Tally,
    shown: Counts,
}

impl Run {
    /// Compares the library with the reference on a case. Fails unless what is
    /// read conforms to the source table and is neither longer nor deeper than the
    /// target document.
    fn compare(&mut self, case: &Case, made: Made) -> Result<Answer, Failure> {
        self.tally.count_change(case.entry, TARGET_TREE, made);
        let answer = self.tally.compare(case)?;
        let clauses = shown(case, &answer);
        for (clause, text) in &ReadingClause::ALL {
            self.shown.add(text, clauses.contains(clause));
        }
        if let Answer::Ok { output, .. } = &answer {
            let documents = vec![case.documents[0].clone(), output.clone()];
            let judging = Case { entry: Entry::JudgeTree, documents, output_length: 0 };
            let conforms = matches!(self.judged.compare(&judging)?, Answer::Ok { .. });
            let given = &case.documents[TARGET_TREE];
            let within = output.len() <= given.len() && levels(output) <= levels(given);
            ensure(conforms && within, format!("{case} -> {answer}: it does not conform, or is too large"))?;
        }
        Ok(answer)
    }

    /// Prints all counts after a title. Fails where those of the two sides differ,
    /// and where something that a reading shows is too rare.
    fn finish(self, title: &str, least: usize) -> Result<Histogram, Failure> {
        let histogram = self.tally.finish(&format!("{title}, seed {}", seed()))?;
        self.judged.finish(&format!("{title}, what is read"))?;
        self.shown.finish(&format!("{title}, what they show"), least)?;
        Ok(histogram)
    }
}

/// A world to edit.
fn random_world(rng: &mut Rng) -> World {
    World::varied(rng, [25, 30, 30, 15])
}

/// How often a reading read, was refused with 17, or with 14.
fn conforming(histogram: &Histogram) -> [usize; 3] {
    [0, 17, 14].map(|number| histogram.of(Entry::ReadAlong, number))
}

#[test]
fn edited_targets_agree() -> Result<(), Failure> {
    let mut rng = Rng::new(seed().wrapping_add(1400));
    let mut run = Run::default();
    for _ in 0..6400 {
        let world = random_world(&mut rng);
        let Some(edits) = Edits::of(&world) else { continue };
        // Long documents take long, and are read in another test too.
        let count = if edits.image.to_bytes().len() > 2000 { 1 } else { 20 };
        for _ in 0..count {
            let tree = edits.draw(&mut rng);
            let made = if tree == edits.image { Made::Whole } else { Made::Altered };
            run.compare(&edited_case(&mut rng, &world, &tree), made)?;
        }
    }
    let histogram = run.finish("edited targets", LEAST)?;
    let edited = histogram.made(Kind::Image, Made::Altered);
    ensure(edited >= EDITED, format!("only {edited} edited targets"))?;
    let counts = conforming(&histogram);
    ensure(counts.iter().all(|&count| count >= EDITED / 20), format!("too few of one answer: {counts:?}"))
}

/// Cases with damaged documents of every kind: the answers are those of bringing
/// back up to the tree.
#[test]
fn damaged_documents_agree() -> Result<(), Failure> {
    let mut rng = Rng::new(seed().wrapping_add(1401));
    let mut tally = Tally::default();
    for _ in 0..8000 {
        let world = random_world(&mut rng);
        let mut drawn = draw_case(&mut rng, &world, Entry::ReadAlong);
        let (_, read) = tally.compare_drawn(&drawn)?;
        drawn.case.entry = Entry::BringBack;
        let brought = tally.compare(&drawn.case)?;
        let is_judged = |answer: &Answer| match answer {
            Answer::Ok { .. } => true,
            Answer::Refused(refusal) => matches!(refusal.number, 14 | 15 | 17),
        };
        let alike = read == brought || (is_judged(&read) && is_judged(&brought));
        ensure(alike, format!("{} -> {brought}, but read {read}", drawn.case))?;
    }
    let histogram = tally.finish(&format!("damaged documents to read, seed {}", seed()))?;
    histogram.ensure_all(&[Entry::ReadAlong], 1)
}

/// The document that is read where a target document of a world is given ample
/// room, and how many elements are on no followed path.
fn read_whole(
    tally: &mut Tally,
    setting: &Setting,
    tree: &[u8],
) -> Result<Result<(Vec<u8>, u64), Refusal>, Failure> {
    Ok(match tally.compare(&setting.case(Entry::ReadAlong, tree, MOST_BYTES))? {
        Answer::Ok { filler, output, .. } => Ok((output, filler)),
        Answer::Refused(refusal) => Err(refusal),
    })
}

/// With the same tables and embedding, targets that differ only in what no path
/// leads to give the same source document.
#[test]
fn edits_aside_change_nothing() -> Result<(), Failure> {
    let mut rng = Rng::new(seed().wrapping_add(1402));
    let (mut tally, mut counts) = (Tally::default(), Counts::default());
    for _ in 0..4000 {
        let world = random_world(&mut rng);
        let Some(edits) = Edits::of(&world) else { continue };
        let (setting, image, source) = (Setting::of(&world), edits.image.to_bytes(), world.tree.to_bytes());
        let Ok((read, filler)) = read_whole(&mut tally, &setting, &image)? else {
            return Err(Failure(format!("{}: an image is not read", to_text(&setting, &image))));
        };
        ensure(read == source, "an image is read as another source")?;
        for _ in 0..3 {
            let edited = edits.edited_aside(&mut rng, 3).to_bytes();
            let added = tree::count(&edited) as i64 - tree::count(&image) as i64;
            tally.count_change(Entry::ReadAlong, TARGET_TREE, Made::Altered);
            match read_whole(&mut tally, &setting, &edited)? {
                Ok((read, aside)) => {
                    let right = read == source && aside as i64 == filler as i64 + added;
                    ensure(right, format!("{}: read otherwise", to_text(&setting, &edited)))?;
                    counts.add("edited and read alike", edited != image);
                    counts.add("with elements added", added > 0);
                }
                // The edits may pass the limits.
                Err(refusal) => {
                    let beyond = edited.len() > MOST_BYTES || levels(&edited) > MOST_LEVELS;
                    ensure(beyond, format!("{}: {refusal}", to_text(&setting, &edited)))?;
                }
            }
        }
    }
    tally.finish(&format!("edits of what no path leads to, seed {}", seed()))?;
    counts.finish("edits of what no path leads to", 500)
}

/// The case of reading a tree as a text.
fn to_text(setting: &Setting, tree: &[u8]) -> String {
    setting.case(Entry::ReadAlong, tree, MOST_BYTES).to_string()
}

/// An output is just long enough, longer, one byte too short, or has no bytes.
#[test]
fn outputs_of_all_lengths_agree() -> Result<(), Failure> {
    let mut rng = Rng::new(seed().wrapping_add(1403));
    let mut tally = Tally::default();
    for _ in 0..1500 {
        let world = random_world(&mut rng);
        let Some(edits) = Edits::of(&world) else { continue };
        let (setting, tree) = (Setting::of(&world), edits.draw(&mut rng).to_bytes());
        let whole = tally.compare(&setting.case(Entry::ReadAlong, &tree, MOST_BYTES))?;
        let needed = match &whole {
            Answer::Ok { output, .. } => output.len(),
            Answer::Refused(_) => 0,
        };
        let more = rng.below(100);
        for length in [needed, needed + 1, needed + more, needed.saturating_sub(1), rng.below(needed), 0] {
            let case = setting.case(Entry::ReadAlong, &tree, length);
            let expected = match length < needed {
                true => Answer::Refused(Refusal { number: 14, document: OUTPUT, mark: 0 }),
                false => whole.clone(),
            };
            tally.compare_with(&case, &expected)?;
        }
    }
    let histogram = tally.finish(&format!("lengths of output, seed {}", seed()))?;
    let counts = conforming(&histogram);
    ensure(counts.iter().all(|&count| count >= 500), format!("too few of one answer: {counts:?}"))
}

/// Documents of about 60,000 bytes or 128 levels, edited, up to a byte or a level
/// too many.
#[test]
fn targets_near_the_limits() -> Result<(), Failure> {
    let mut rng = Rng::new(seed().wrapping_add(1404));
    let (mut run, mut counts) = (Run::default(), Counts::default());
    for number in 0..900 {
        let size = TableSize::random(&mut rng);
        let world = match number % 3 {
            0 => World::at_most_bytes(&mut rng, size),
            1 => World::at_most_levels(&mut rng, size),
            _ => {
                let shape = Shape::wide(&mut rng);
                World::random(&mut rng, size, shape)
            }
        };
        let Some(edits) = Edits::of(&world) else { continue };
        for _ in 0..2 {
            let mut tree = edits.draw(&mut rng);
            if rng.chance(50) {
                lengthen(&mut rng, &mut tree, &world);
            }
            let case = edited_case(&mut rng, &world, &tree);
            let (given, answer) = (&case.documents[TARGET_TREE], run.compare(&case, Made::Altered)?);
            let is_read = matches!(answer, Answer::Ok { .. } | Answer::Refused(Refusal { number: 14, .. }));
            let is_stopped = matches!(answer, Answer::Refused(Refusal { number: 17, .. }));
            let (is_long, is_deep) = (given.len() > 59_000, levels(given) > 120);
            counts.add("of more than 59,000 bytes, read", is_long && is_read);
            counts.add("of more than 120 levels, read", is_deep && is_read);
            counts.add("of more than 20,000 bytes, refused with 17", given.len() > 20_000 && is_stopped);
            counts.add("of more than 120 levels, refused with 17", is_deep && is_stopped);
            counts.add("refused as too long", answer == Answer::Refused(Refusal::new(1, TREE, 0)));
            counts.add("of 128 levels", levels(given) == MOST_LEVELS);
        }
    }
    run.finish("targets near the limits", 0)?;
    counts.finish("targets near the limits", 2)
}

/// Puts characters into some text of a target document, up to about the greatest
/// length.
fn lengthen(rng: &mut Rng, tree: &mut Element, world: &World) {
    let left = MOST_BYTES.saturating_sub(tree.to_bytes().len());
    let more = rng.below(3);
    pad(rng, &world.embedded.target, tree, left / 2 + more);
}

/// A list of lists of itself: the lowest list of as many levels as there may be
/// lacks its item, or has two.
#[test]
fn the_lowest_of_128_levels() -> Result<(), Failure> {
    // An optional choice of itself, on two levels of the target.
    let setting = Setting::new(
        vec![0x17, 0x15, 0, 0x1F],
        vec![0x14, 1, 0x17, 0x15, 0, 0x1F],
        vec![0x20, 0, 0x21, 0x22, 1, 0x22, 1, 0x2F],
    );
    let mut tally = Tally::default();
    let nested = |levels: usize, lowest: &[u8]| {
        let (opening, closing): (Vec<u8>, Vec<u8>) =
            ((0..levels).flat_map(|level| [0x30, (level % 2) as u8]).collect(), vec![0x32; levels]);
        [&opening[..], lowest, &closing, &[0x3F]].concat()
    };
    for choices in 1..=MOST_LEVELS / 2 {
        let levels = 2 * choices;
        // The last optional choice is empty, and is followed by a second one.
        let source = [[0x30, 0].repeat(choices), vec![0x32; choices], vec![0x3F]].concat();
        let expected = Answer::Ok { value: source.len() as u64, filler: 0, output: source.clone() };
        let case = |tree: &[u8]| setting.case(Entry::ReadAlong, tree, source.len());
        tally.compare_with(&case(&nested(levels, &[])), &expected)?;
        let aside = Answer::Ok { value: source.len() as u64, filler: 1, output: source.clone() };
        let mut second = nested(levels - 1, &[0x30, 1, 0x32, 0x30, 1, 0x32]);
        tally.compare_with(&case(&second), &aside)?;
        // The last list is empty: the choice that it stands for can't be read.
        second = nested(levels - 1, &[]);
        let refused = Answer::Refused(Refusal::new(17, TREE, 2 * (levels - 2)));
        tally.compare_with(&case(&second), &refused)?;
    }
    let too_deep = nested(MOST_LEVELS + 1, &[]);
    let refused = Answer::Refused(Refusal::new(3, TREE, 2 * MOST_LEVELS));
    tally.compare_with(&setting.case(Entry::ReadAlong, &too_deep, 9), &refused)?;
    tally.finish("readings of up to 128 levels").map(drop)
}

/// A list of as many items as there may be, of which the last lacks its own.
#[test]
fn the_last_of_many_items() -> Result<(), Failure> {
    // A list of texts, each in a list of its own.
    let setting = Setting::new(
        vec![0x14, 1, 0x10, 0x1F],
        vec![0x14, 1, 0x14, 2, 0x10, 0x1F],
        vec![0x20, 0, 0x21, 0x22, 1, 0x20, 1, 0x21, 0x22, 1, 0x2F],
    );
    let mut tally = Tally::default();
    let (item, items) = ([0x30, 1, 0x30, 2, 0x32, 0x32], 9_998);
    let document = |last: &[u8]| [&[0x30, 0], &item.repeat(items)[..], last, &[0x32, 0x3F]].concat();
    let source = |items: usize| [&[0x30, 0], &[0x30, 1, 0x32].repeat(items)[..], &[0x32, 0x3F]].concat();
    for (last, expected) in [
        (&[][..], Ok((source(items), 0))),
        (&[0x30, 1, 0x32], Err(Refusal::new(17, TREE, 2 + item.len() * items))),
        (&[0x30, 1, 0x30, 2, 0x32, 0x32], Ok((source(items + 1), 0))),
    ] {
        let read = read_whole(&mut tally, &setting, &document(last))?;
        ensure(read == expected, format!("{last:02x?}: {:?}", read.map(|(_, aside)| aside)))?;
    }
    tally.finish("readings of many items").map(drop)
}
