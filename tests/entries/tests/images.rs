//! Images of random worlds: they come back byte for byte, need an output of
//! just their length, and are refused just beyond the limits.

mod counts;
mod seed;
mod traits;

use counts::Counts;
use lafindry_entries::{ensure, report, Failure, Histogram, Setting, Tally};
use lafindry_reference::clauses::characters::characters;
use lafindry_reference::generate::trees::{pad, random_tree};
use lafindry_reference::generate::{Rng, Shape, TableSize, World};
use lafindry_reference::tree::{is_character, levels};
use lafindry_reference::vectors::{Answer, Entry};
use lafindry_reference::{Refusal, MOST_BYTES, MOST_LEVELS, OUTPUT};
use seed::seed;
use std::collections::BTreeSet;
use traits::Traits;

/// The refusal of an output, which has mark 0.
fn refused_output(number: u64) -> Answer {
    Answer::Refused(Refusal { number, document: OUTPUT, mark: 0 })
}

/// An image and its number of filler elements.
struct Image {
    bytes: Vec<u8>,
    filler: u64,
}

/// Carries random trees, brings them back, and counts the answers and what the
/// images have.
struct Run {
    rng: Rng,
    tally: Tally,
    counts: Counts,
}

impl Run {
    /// A run with random numbers of its own.
    fn new(stream: u64) -> Run {
        let rng = Rng::new(seed().wrapping_add(stream));
        Run { rng, tally: Tally::default(), counts: Counts::default() }
    }

    /// Fails unless an entry writes a document into outputs that are long
    /// enough, and refuses those that are not.
    fn ensure_output_lengths(
        &mut self,
        setting: &Setting,
        entry: Entry,
        tree: &[u8],
        written: &[u8],
    ) -> Result<(), Failure> {
        let needed = written.len();
        let longer = self.rng.below(2 * needed);
        for length in [needed, needed + 1, needed + longer, needed - 1, self.rng.below(needed), 0] {
            let case = setting.case(entry, tree, length);
            let right = match self.tally.compare(&case)? {
                Answer::Ok { output, .. } => length >= needed && output == written,
                refused => length < needed && refused == refused_output(14),
            };
            ensure(right, format!("{case}: wrong for this length of output"))?;
        }
        Ok(())
    }

    /// Carries a tree. Fails unless its image, if it is not refused, comes back,
    /// and is read along with its filler counted.
    fn round_trip(&mut self, setting: &Setting, tree: &[u8]) -> Result<Result<Image, Refusal>, Failure> {
        let case = setting.case(Entry::Carry, tree, MOST_BYTES);
        let (value, filler, bytes) = match self.tally.compare(&case)? {
            Answer::Ok { value, filler, output } => (value, filler, output),
            Answer::Refused(refusal) => return Ok(Err(refusal)),
        };
        let back = setting.written(&mut self.tally, Entry::BringBack, &bytes, MOST_BYTES)?;
        let right = value == bytes.len() as u64 && back.as_deref() == Ok(tree);
        ensure(right, format!("{case}: it does not come back"))?;
        let read = self.tally.compare(&setting.case(Entry::ReadAlong, &bytes, tree.len()))?;
        let source = Answer::Ok { value: tree.len() as u64, filler, output: tree.to_vec() };
        ensure(read == source, format!("{case}: it is read otherwise, {read}"))?;
        Ok(Ok(Image { bytes, filler }))
    }

    /// The image of a world's tree, if it is within the limits. It comes back,
    /// and both are written exactly where the output is long enough.
    fn comes_back(&mut self, world: &World) -> Result<Option<Image>, Failure> {
        let (setting, tree) = (Setting::of(world), world.tree.to_bytes());
        let Ok(image) = self.round_trip(&setting, &tree)? else {
            return Ok(None);
        };
        self.ensure_output_lengths(&setting, Entry::Carry, &tree, &image.bytes)?;
        self.ensure_output_lengths(&setting, Entry::BringBack, &image.bytes, &tree)?;
        Ok(Some(image))
    }

    /// Prints the counts; fails unless each of what the images have is at least
    /// so much. Gives those of the answers.
    fn finish(self, title: &str, least: usize) -> Result<Histogram, Failure> {
        let histogram = self.tally.finish(&format!("{title}, seed {}", seed()))?;
        self.counts.finish(title, least)?;
        Ok(histogram)
    }
}

/// Draws worlds whose images come back, and counts by `tally` what they have.
/// Fails unless each of these counts is at least so much, and there are so many
/// images.
fn round_trips(
    title: &str,
    stream: u64,
    draw: fn(&mut Rng) -> World,
    mut tally: impl FnMut(&mut Counts, &Image, &Traits),
    least: usize,
) -> Result<(), Failure> {
    let mut run = Run::new(stream);
    let mut images = 0;
    for _ in 0..2500 {
        let world = draw(&mut run.rng);
        if let Some(image) = run.comes_back(&world)? {
            images += 1;
            run.counts.add("images", true);
            tally(&mut run.counts, &image, &Traits::of(&world));
        }
    }
    run.finish(title, least)?;
    ensure(images >= 2000, format!("{title}: only {images} images"))
}

#[test]
fn images_come_back() -> Result<(), Failure> {
    let tally = |counts: &mut Counts, image: &Image, traits: &Traits| {
        counts.add("with filler", image.filler > 0);
        counts.add("through a shared list", traits.shared_list);
        counts.add("with permuted members", traits.permuted_members);
        counts.add("with a later list on a path", traits.later_list);
        counts.add("with a list within a list", traits.list_in_list);
        counts.add("with a long path of a choice", traits.long_choice);
    };
    round_trips("round trips", 100, World::mixed, tally, 50)
}

#[test]
fn images_with_optional_choices_come_back() -> Result<(), Failure> {
    let tally = |counts: &mut Counts, _: &Image, traits: &Traits| {
        counts.add("of an empty optional choice", traits.empty_optional);
        counts.add("of one left empty below its image", traits.nothing_below);
        counts.add("of a full optional choice", traits.full_optional);
        counts.add("of one within another", traits.nested_optional);
        counts.add("of one with 16 members", traits.sixteen_optional);
        counts.add("of a choice through an optional one", traits.through_optional);
    };
    round_trips("round trips of optional choices", 600, World::optional, tally, 10)
}

#[test]
fn images_with_lists_on_paths_come_back() -> Result<(), Failure> {
    let tally = |counts: &mut Counts, _: &Image, traits: &Traits| {
        counts.add("with a list before the first choice of a path", traits.list_before);
        counts.add("with a list between choices", traits.list_between);
        counts.add("with a list after the last choice", traits.list_after);
        counts.add("with several lists on a path", traits.several_lists);
        counts.add("of an optional choice left empty behind a list", traits.nothing_behind_list);
    };
    round_trips("round trips of lists on the paths of choices", 800, World::listed, tally, 50)
}

/// Every character that a tree may hold stands in some of the images.
#[test]
fn images_with_accents_come_back() -> Result<(), Failure> {
    let mut images_with = [0; 0x100];
    let tally = |_: &mut Counts, image: &Image, _: &Traits| {
        let held: BTreeSet<u8> = characters(&image.bytes).collect();
        held.into_iter().for_each(|character| images_with[character as usize] += 1);
    };
    round_trips("round trips of accents", 900, World::accented, tally, 2000)?;
    let allowed = (0..=0xFF).filter(|&byte| is_character(byte));
    let images: Vec<usize> = allowed.map(|byte| images_with[byte as usize]).collect();
    let (count, rarest) = (images.len(), images.iter().copied().min().unwrap_or(0));
    report(&format!("round trips of accents: {count} characters, the rarest in {rarest} images"));
    ensure(count == 193 && rarest >= 20, "a character is in too few images")
}

impl Run {
    /// Carries the tree of a world whose image is near a limit. Fails unless it
    /// comes back where its measures are within the limits, and is refused by
    /// the limit that it passes.
    fn carry_near_limit(&mut self, world: &World) -> Result<(), Failure> {
        let tree = world.tree.to_bytes();
        if tree.len() > MOST_BYTES {
            return Ok(());
        }
        let (image_levels, length) = world.measure();
        let right = match self.round_trip(&Setting::of(world), &tree)? {
            Ok(image) => (levels(&image.bytes) as u64, image.bytes.len() as u64) == (image_levels, length),
            Err(Refusal { number: 12, document: OUTPUT, mark: 0 }) => image_levels > MOST_LEVELS as u64,
            Err(Refusal { number: 13, document: OUTPUT, mark: 0 }) => length > MOST_BYTES as u64,
            Err(_) => false,
        };
        ensure(right, format!("an image of {image_levels} levels and {length} bytes"))?;
        let (most_levels, most_bytes) = (MOST_LEVELS as u64, MOST_BYTES as u64);
        let counts = &mut self.counts;
        counts.add("images of 128 levels", image_levels == most_levels && length <= most_bytes);
        counts.add("of 129 levels", image_levels == most_levels + 1);
        counts.add("of 60,000 bytes", length == most_bytes && image_levels <= most_levels);
        counts.add("of 60,001 bytes", length == most_bytes + 1 && image_levels <= most_levels);
        Ok(())
    }

    /// Carries a tree whose image just fits, and the same with one character
    /// more.
    fn carry_long(&mut self) -> Result<(), Failure> {
        let rng = &mut self.rng;
        let (size, shape) = (TableSize::random(rng), Shape::small(rng));
        let mut world = World::random(rng, size, shape);
        let Some(left) = (MOST_BYTES as u64).checked_sub(world.measure().1) else {
            return Ok(());
        };
        let source = world.embedded.source.clone();
        if pad(rng, &source, &mut world.tree, left as usize / 2) {
            self.carry_near_limit(&world)?;
            pad(&mut self.rng, &source, &mut world.tree, 1);
            self.carry_near_limit(&world)?;
        }
        Ok(())
    }

    /// Carries a tree whose image has about 128 levels, and some deeper ones.
    fn carry_deep(&mut self) -> Result<(), Failure> {
        let size = TableSize::random(&mut self.rng);
        let mut world = World::at_most_levels(&mut self.rng, size);
        let most = levels(&world.tree.to_bytes());
        for more in 0..4 {
            self.carry_near_limit(&world)?;
            let levels = (most + more).min(MOST_LEVELS);
            let shape = Shape { levels, bytes: 800, deep: true, wide: false };
            if let Some(tree) = random_tree(&mut self.rng, &world.embedded.source, shape) {
                world.tree = tree;
            }
        }
        Ok(())
    }
}

#[test]
fn images_near_the_limits() -> Result<(), Failure> {
    let mut run = Run::new(200);
    for number in 0..800 {
        run.carry_long()?;
        if number % 4 == 0 {
            run.carry_deep()?;
        }
    }
    run.finish("near the limits", 20).map(drop)
}

/// A list of itself carried into a target with a tower of filler beside each
/// list: each of `height` types is a sequence of `width` of the next one, so
/// that a tower has up to 16 to the power of 61 elements.
fn tower_setting(height: u8, width: usize) -> Setting {
    let mut target = vec![0x12, 0x15, 1, 0x15, 2, 0x14, 0];
    for next in 3..2 + height {
        target.push(0x12);
        target.extend([0x15, next].repeat(width));
    }
    target.extend([0x11, 0x1F]);
    Setting::new(vec![0x14, 0, 0x1F], target, vec![0x20, 0, 0x21, 0x22, 1, 0x22, 1, 0x2F])
}

/// What carrying a list of so many levels into [`tower_setting`] must give,
/// worked out by hand: each list is on two levels, the lowest tower stands
/// below the sequence of the last list, and every list has a tower.
fn tower_answer(lists: u64, height: u64, width: u64) -> (u64, u64, u64) {
    let elements = (0..height as u32).map(|level| width.saturating_pow(level)).fold(0, u64::saturating_add);
    let image_levels = (2 * lists).max(2 * lists - 1 + height);
    let filler = elements.saturating_mul(lists);
    (image_levels, filler.saturating_mul(3).saturating_add(6 * lists + 1), filler)
}

/// An entry that builds the filler would not answer for ages.
#[test]
fn filler_too_large_to_build() -> Result<(), Failure> {
    let (mut tally, mut counts) = (Tally::default(), Counts::default());
    for (height, width) in (1..=62).flat_map(|height| [1, 2, 3, 8, 16].map(|width| (height, width))) {
        let setting = tower_setting(height, width);
        for lists in [1, 2, 33, 34, 64, 65] {
            let tree = [[0x30, 0].repeat(lists), vec![0x32; lists], vec![0x3F]].concat();
            let (levels, length, filler) = tower_answer(lists as u64, height as u64, width as u64);
            let answer = tally.compare(&setting.case(Entry::Carry, &tree, MOST_BYTES))?;
            let right = match &answer {
                Answer::Ok { value, filler: given, .. } => {
                    levels <= MOST_LEVELS as u64 && (*value, *given) == (length, filler)
                }
                refused if levels > MOST_LEVELS as u64 => *refused == refused_output(12),
                refused => length > MOST_BYTES as u64 && *refused == refused_output(13),
            };
            ensure(right, format!("{lists} lists, towers of {height} levels, {width} wide: {answer}"))?;
            counts.add("too many elements for a u64", filler == u64::MAX);
        }
    }
    let histogram = tally.finish("towers of filler")?;
    counts.finish("towers of filler", 100)?;
    let rare = [0, 12, 13].into_iter().find(|&number| histogram.of(Entry::Carry, number) < 100);
    ensure(rare.is_none(), format!("answer {rare:?} fewer than 100 times"))
}
