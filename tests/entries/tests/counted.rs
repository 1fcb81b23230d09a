//! What went across, counted on what the C entries answer and write: distinct
//! source elements stand at distinct elements of the image, each character occurs
//! as often, and the image has just the filler and what the paths build beside its
//! root. Everything that a count can show occurs. LAFINDRY_SEED sets another seed.

mod counts;
mod seed;

use counts::Counts;
use lafindry_entries::{ensure, Across, Crossings, Failure, Scan};
use lafindry_reference::generate::trees::{pad, random_tree};
use lafindry_reference::generate::{crossing_of, damaged_crossing, Rng, Shape, TableSize, World};
use lafindry_reference::tree::{is_character, levels};
use lafindry_reference::vectors::crossings::{parse_line, Crossing};
use lafindry_reference::vectors::Entry;
use lafindry_reference::{Refusal, MOST_BYTES, MOST_LEVELS, OUTPUT};
use seed::seed;

/// How often everything that a count shows has to occur. With seed 1 the rarest
/// occurs 257 times.
const LEAST: usize = 100;

/// A world to count.
fn random_world(rng: &mut Rng) -> World {
    World::varied(rng, [30, 30, 25, 15])
}

#[test]
fn random_images_are_counted() -> Result<(), Failure> {
    let mut rng = Rng::new(seed().wrapping_add(1500));
    let mut crossings = Crossings::default();
    for _ in 0..8000 {
        crossings.across(&crossing_of(&random_world(&mut rng)))?.ok();
    }
    let histogram = crossings.finish(&format!("images counted, seed {}", seed()), LEAST)?;
    let images = histogram.of(Entry::Carry, 0);
    ensure(images >= 7000, format!("only {images} images"))
}

/// Some documents are damaged, or have a path changed together with the target
/// table. What is refused is refused as by carrying.
#[test]
fn damaged_documents_are_counted_or_refused() -> Result<(), Failure> {
    let mut rng = Rng::new(seed().wrapping_add(1501));
    let mut crossings = Crossings::default();
    for _ in 0..3000 {
        let world = random_world(&mut rng);
        crossings.across(&damaged_crossing(&mut rng, &world))?.ok();
    }
    let histogram = crossings.finish(&format!("damaged documents counted, seed {}", seed()), 1)?;
    let (total, images) = (histogram.total_of(Entry::Carry), histogram.of(Entry::Carry, 0));
    ensure(images >= 1000 && total - images >= 1000, format!("{images} of {total} counted"))
}

/// Counts images near the limits.
#[derive(Default)]
struct Run {
    crossings: Crossings,
    counts: Counts,
}

impl Run {
    /// Counts the image of a world, and by how much it keeps within the limits.
    fn count(&mut self, world: &World) -> Result<(), Failure> {
        let crossing = crossing_of(world);
        let answer = self.crossings.across(&crossing)?;
        let has = |test: fn(&Across) -> bool| answer.as_ref().is_ok_and(test);
        let counts = &mut self.counts;
        counts.add("images of 60,000 bytes", has(|across| across.image.len() == MOST_BYTES));
        counts.add("images of 128 levels", has(|across| levels(&across.image) == MOST_LEVELS));
        counts.add("images of more than 5,000 elements", has(|across| across.elements > 5000));
        let refused = |number| answer == Err(Refusal::new(number, OUTPUT, 0));
        counts.add("refused with 12", refused(12));
        counts.add("refused with 13", refused(13));
        Ok(())
    }

    /// Counts an image that characters lengthen as far as may be, and the same with
    /// one character more.
    fn count_long(&mut self, rng: &mut Rng) -> Result<(), Failure> {
        let (size, shape) = (TableSize::random(rng), Shape::small(rng));
        let mut world = World::random(rng, size, shape);
        let source = world.embedded.source.clone();
        let left = (MOST_BYTES as u64).saturating_sub(world.measure().1);
        if left > 0 && pad(rng, &source, &mut world.tree, left as usize / 2) {
            self.count(&world)?;
            pad(rng, &source, &mut world.tree, 1);
            self.count(&world)?;
        }
        Ok(())
    }

    /// Counts an image of about 128 levels, and one of a source that is deeper.
    fn count_deep(&mut self, rng: &mut Rng) -> Result<(), Failure> {
        let size = TableSize::random(rng);
        let mut world = World::at_most_levels(rng, size);
        self.count(&world)?;
        let levels = (levels(&world.tree.to_bytes()) + 1).min(MOST_LEVELS);
        let shape = Shape { levels, bytes: 800, deep: true, wide: false };
        if let Some(tree) = random_tree(rng, &world.embedded.source, shape) {
            world.tree = tree;
            self.count(&world)?;
        }
        Ok(())
    }
}

#[test]
fn images_near_the_limits_are_counted() -> Result<(), Failure> {
    let mut rng = Rng::new(seed().wrapping_add(1502));
    let mut run = Run::default();
    for number in 0..400 {
        run.count_long(&mut rng)?;
        run.count_deep(&mut rng)?;
        if number % 4 == 0 {
            let (size, shape) = (TableSize::random(&mut rng), Shape::wide(&mut rng));
            run.count(&World::random(&mut rng, size, shape))?;
        }
    }
    run.crossings.finish(&format!("images near the limits counted, seed {}", seed()), 1)?;
    run.counts.finish("images near the limits counted", 2)
}

/// A list of texts, in the target the second member beside a text that is filler.
/// Each text holds one of the characters, the first of them once, the second
/// twice, and so on.
#[test]
fn every_character_is_counted() -> Result<(), Failure> {
    let allowed: Vec<u8> = (0..=u8::MAX).filter(|&byte| is_character(byte)).collect();
    let mut tree = vec![0x30, 0];
    for (number, &character) in allowed.iter().enumerate() {
        tree.extend([&[0x30, 1][..], &[0x31, character].repeat(number + 1), &[0x32]].concat());
    }
    tree.extend([0x32, 0x3F]);
    let source = vec![0x14, 1, 0x10, 0x1F];
    let target = vec![0x12, 0x15, 2, 0x15, 1, 0x14, 2, 0x10, 0x1F];
    let embedding = vec![0x20, 0, 0x21, 0x22, 2, 0x22, 1, 0x20, 2, 0x21, 0x2F];
    let mut crossings = Crossings::default();
    let across = crossings.across(&Crossing { documents: [source, target, embedding, tree] })?;
    let across = across.map_err(|refusal| Failure(refusal.to_string()))?;
    let mut expected = [0; 256];
    allowed.iter().zip(1..).for_each(|(&character, count)| expected[character as usize] = count);
    let counted = Scan::of(&across.image).map(|scan| scan.characters);
    ensure(counted == Some(expected), format!("{counted:?}"))?;
    // The root, the list, a text for each character, and the filler.
    let elements = allowed.len() as u64 + 3;
    ensure((across.elements, across.filler) == (elements, 1), format!("{} elements", across.elements))?;
    crossings.finish("every character counted", 0).map(drop)
}

/// The patch of paper 01, whose image has at offset 4 a text with the character 41
/// and at 9 an empty one as filler.
const PATCH: &str = "counted 121501150210131503150411111f 1215011502121503150313150415051011111f \
                     200021220122012122022003212002212202212201200520042f \
                     30003001314132300230033232323f -> ok 6 1 4 0@0,1@4,2@13,3@15";

/// A change of what the entries say.
type Change = fn(&mut Across);

/// A number that is answered otherwise, or an image that is written otherwise, is
/// noticed.
#[test]
fn other_answers_and_images_are_noticed() -> Result<(), Failure> {
    let (crossing, stated) = parse_line(PATCH).map_err(Failure)?;
    let mut crossings = Crossings::default();
    crossings.compare_with(&crossing, &stated)?;
    let across = crossings.across(&crossing)?.map_err(|refusal| Failure(refusal.to_string()))?;
    let wrong: [(&str, Change); 10] = [
        ("the sum is wrong", |across| across.filler = 0),
        ("the sum is wrong", |across| across.filler = 2),
        ("the image is judged to have another number of elements", |across| across.elements = 5),
        ("the source is judged to have another number of elements", |across| across.source_elements = 5),
        ("a character occurs more or less often", |across| across.image[7] = 0x42),
        ("a character occurs more or less often", |across| drop(across.image.splice(6..6, [0x31, 0x41]))),
        ("a character occurs more or less often", |across| drop(across.image.drain(6..8))),
        ("a path is not there", |across| across.image[5] = 4),
        ("bytes that are no command", |across| across.image.truncate(20)),
        ("the sum is wrong", |across| {
            across.image.drain(9..12);
            across.elements = 5;
        }),
    ];
    for (problem, change) in wrong {
        let mut changed = across.clone();
        change(&mut changed);
        let noticed = changed.counted(&crossing).err().unwrap_or_default();
        ensure(noticed.starts_with(problem), format!("not noticed: {problem}, but {noticed:?}"))?;
    }
    // A line that states something else.
    for (right, other) in [("ok 6", "ok 7"), (" 1 4 ", " 0 5 "), ("2@13", "2@15"), ("ok 6 1 4 ", "ok 6 1 3 ")]
    {
        let (crossing, stated) = parse_line(&PATCH.replace(right, other)).map_err(Failure)?;
        let noticed = crossings.compare_with(&crossing, &stated).is_err();
        ensure(noticed, format!("not noticed: {other}"))?;
    }
    crossings.finish("the patch counted", 0).map(drop)
}
