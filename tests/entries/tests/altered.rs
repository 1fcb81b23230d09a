//! Altered images: bringing one back gives the source whose image it is, or
//! says that there is none, or refuses the document.

mod seed;

use lafindry_entries::{ensure, Failure, Histogram, Setting, Tally};
use lafindry_reference::generate::cases::Made;
use lafindry_reference::generate::damage::{alter, damage_bytes, damage_commands, damage_tree};
use lafindry_reference::generate::trees::{random_accent, random_element};
use lafindry_reference::generate::{Rng, Shape, TableSize, World};
use lafindry_reference::places::{element_at, places_of, Places};
use lafindry_reference::table::ContentModel;
use lafindry_reference::tree::{commands, Command, Element};
use lafindry_reference::vectors::{Answer, Entry};
use lafindry_reference::{Refusal, TREE};
use seed::seed;

/// The place of the image among the documents of bringing back.
const IMAGE: usize = 3;

/// Altered images, and the answers that they got.
struct Run {
    /// Whether they are altered or damaged.
    made: Made,
    tally: Tally,
}

/// How often bringing back an altered image gave what.
struct Outcomes {
    /// A source document.
    source: usize,
    /// Refusal 15.
    no_image: usize,
    /// The refusal that judging it by the target table gives.
    refused: usize,
}

impl Run {
    /// The run of a test whose images are made so.
    fn new(made: Made) -> Run {
        Run { made, tally: Tally::default() }
    }

    /// Brings an altered image back and counts it. Fails unless a source
    /// document that is given has just this image, and any refusal but 15 is
    /// the judge's.
    fn bring(&mut self, setting: &Setting, altered: &[u8]) -> Result<(), Failure> {
        let tally = &mut self.tally;
        // A source is never longer than its image.
        let case = setting.case(Entry::BringBack, altered, altered.len());
        tally.count_change(case.entry, IMAGE, self.made);
        let right = match tally.compare(&case)? {
            Answer::Ok { output: source, .. } => {
                setting.written(tally, Entry::Carry, &source, altered.len())?.as_deref() == Ok(altered)
            }
            Answer::Refused(Refusal { number: 15, document: TREE, mark: 0 }) => {
                matches!(setting.judge_image(tally, altered)?, Answer::Ok { .. })
            }
            refused => setting.judge_image(tally, altered)? == refused,
        };
        ensure(right, format!("{case}: a wrong outcome"))
    }

    /// Prints the counts, and gives those of bringing back.
    fn finish(self, title: &str) -> Result<Outcomes, Failure> {
        let histogram = self.tally.finish(&format!("{title}, seed {}", seed()))?;
        Ok(Outcomes::of(&histogram))
    }
}

impl Outcomes {
    /// What bringing back gave.
    fn of(histogram: &Histogram) -> Outcomes {
        let [source, no_image] = [0, 15].map(|number| histogram.of(Entry::BringBack, number));
        Outcomes { source, no_image, refused: histogram.total_of(Entry::BringBack) - source - no_image }
    }
}

/// Each byte of a small image takes all other values.
#[test]
fn bytes_changed() -> Result<(), Failure> {
    let mut rng = Rng::new(seed().wrapping_add(300));
    let mut run = Run::new(Made::Damaged);
    let mut images = 0;
    while images < 30 {
        let size = TableSize { types: 4, members: 3, optional: 30, lists: 30 };
        let world = World::random(&mut rng, size, Shape { levels: 5, bytes: 25, deep: false, wide: false });
        let image = world.image().map_or(Vec::new(), |image| image.to_bytes());
        if !(10..60).contains(&image.len()) {
            continue;
        }
        images += 1;
        let setting = Setting::of(&world);
        for (at, change) in (0..image.len()).flat_map(|at| (1..=0xFF).map(move |change| (at, change))) {
            let mut altered = image.clone();
            altered[at] ^= change;
            run.bring(&setting, &altered)?;
        }
    }
    let outcomes = run.finish("images with a byte changed")?;
    ensure(outcomes.source > 50 && outcomes.refused > 100_000, "too few outcomes")
}

/// Alters the images of worlds of mixed size and brings them back.
fn bring_altered(
    title: &str,
    made: Made,
    alteration: impl Fn(&mut Rng, &World, &Element) -> Option<Vec<u8>>,
) -> Result<Outcomes, Failure> {
    bring_altered_of(title, made, World::mixed, alteration)
}

/// Alters the images of random worlds and brings them back. Alterations that
/// change nothing are left out.
fn bring_altered_of(
    title: &str,
    made: Made,
    random_world: impl Fn(&mut Rng) -> World,
    alteration: impl Fn(&mut Rng, &World, &Element) -> Option<Vec<u8>>,
) -> Result<Outcomes, Failure> {
    let mut rng = Rng::new(seed().wrapping_add(400));
    let mut run = Run::new(made);
    for _ in 0..3000 {
        let world = random_world(&mut rng);
        let Some(image) = world.image() else {
            continue;
        };
        let altered = alteration(&mut rng, &world, &image);
        if let Some(altered) = altered.filter(|altered| *altered != image.to_bytes()) {
            run.bring(&Setting::of(&world), &altered)?;
        }
    }
    run.finish(title)
}

/// A filler element altered so that the tree still conforms: no tree has this
/// image, as no path goes there.
fn change_filler(rng: &mut Rng, world: &World, image: &Element) -> Option<Vec<u8>> {
    let places = Places::of(&world.mapping(), &world.tree).filler;
    let mut altered = image.clone();
    let element = element_at(&mut altered, places.get(rng.below(places.len()))?);
    *element = alter(rng, &world.embedded.target, element);
    Some(altered.to_bytes())
}

/// The places of some lists in the image of a world.
type Lists = fn(&World, &Element) -> Vec<Vec<usize>>;

/// The places of all lists in an image.
fn all_lists(world: &World, image: &Element) -> Vec<Vec<usize>> {
    places_of(&world.embedded.target, image, ContentModel::is_list)
}

/// The places of the lists on the paths of choices. Each holds one item, and
/// whatever the tree is brought back to, it is on the path of that choice.
fn lists_on_paths(world: &World, _: &Element) -> Vec<Vec<usize>> {
    Places::of(&world.mapping(), &world.tree).lists
}

/// An item more in one of some lists: one repeated, or another one.
fn add_item(rng: &mut Rng, world: &World, image: &Element, lists: Lists) -> Option<Vec<u8>> {
    let (target, mut altered) = (&world.embedded.target, image.clone());
    let places = lists(world, image);
    let list = element_at(&mut altered, places.get(rng.below(places.len()))?);
    let item = target.types[list.element_type as usize].named()[0];
    let shape = Shape { levels: 20, bytes: 200, deep: false, wide: false };
    let added = match list.children.get(rng.below(list.children.len())) {
        Some(repeated) if rng.chance(70) => repeated.clone(),
        _ => random_element(rng, target, item, shape)?,
    };
    let at = rng.between(0, list.children.len());
    list.children.insert(at, added);
    Some(altered.to_bytes())
}

/// An item less in one of some lists that has one.
fn drop_item(rng: &mut Rng, world: &World, image: &Element, lists: Lists) -> Option<Vec<u8>> {
    let mut altered = image.clone();
    let places = lists(world, image);
    let items = &mut element_at(&mut altered, places.get(rng.below(places.len()))?).children;
    let at = rng.below(items.len());
    (!items.is_empty()).then(|| items.remove(at))?;
    Some(altered.to_bytes())
}

/// The places of the optional choices of an image that hold nothing, or of
/// those that hold a member.
fn optional_choices(world: &World, image: &Element, is_empty: bool) -> Vec<Vec<usize>> {
    let mut image = image.clone();
    let mut places = places_of(&world.embedded.target, &image, ContentModel::is_optional);
    places.retain(|place| element_at(&mut image, place).children.is_empty() == is_empty);
    places
}

/// Some optional choice emptied that holds a member.
fn empty_optional(rng: &mut Rng, world: &World, image: &Element) -> Option<Vec<u8>> {
    let mut altered = image.clone();
    let full = optional_choices(world, image, false);
    element_at(&mut altered, full.get(rng.below(full.len()))?).children.clear();
    Some(altered.to_bytes())
}

/// Some member put in an optional choice that holds nothing.
fn fill_optional(rng: &mut Rng, world: &World, image: &Element) -> Option<Vec<u8>> {
    let (target, mut altered) = (&world.embedded.target, image.clone());
    let empty = optional_choices(world, image, true);
    let choice = element_at(&mut altered, empty.get(rng.below(empty.len()))?);
    let shape = Shape { levels: 20, bytes: 200, deep: false, wide: false };
    let member = rng.pick(target.types[choice.element_type as usize].named());
    choice.children.push(random_element(rng, target, member, shape)?);
    Some(altered.to_bytes())
}

/// Some character replaced by one from A0 to FF.
fn change_character(rng: &mut Rng, _: &World, image: &Element) -> Option<Vec<u8>> {
    let mut altered = image.to_bytes();
    let characters = commands(&altered).filter(|(_, command)| matches!(command, Command::Character(_)));
    let offsets: Vec<usize> = characters.map(|(offset, _)| offset).collect();
    altered[offsets.get(rng.below(offsets.len()))? + 1] = random_accent(rng);
    Some(altered)
}

#[test]
fn optional_choices_emptied() -> Result<(), Failure> {
    let title = "images with an optional choice emptied";
    let outcomes = bring_altered_of(title, Made::Altered, World::optional, empty_optional)?;
    ensure(outcomes.source > 200 && outcomes.no_image > 200, "too few outcomes")
}

#[test]
fn optional_choices_filled() -> Result<(), Failure> {
    let title = "images with an optional choice filled";
    let outcomes = bring_altered_of(title, Made::Altered, World::optional, fill_optional)?;
    ensure(outcomes.source > 200 && outcomes.no_image > 200, "too few outcomes")
}

#[test]
fn filler_changed() -> Result<(), Failure> {
    let outcomes = bring_altered("images with filler changed", Made::Altered, change_filler)?;
    ensure(outcomes.source == 0, "a source for an image with other filler")?;
    ensure(outcomes.no_image > 200, "too few outcomes")
}

/// All characters of an image are its source's, so that with another character
/// it is the image of another source.
#[test]
fn characters_changed() -> Result<(), Failure> {
    let title = "images with a character changed";
    let outcomes = bring_altered_of(title, Made::Altered, World::accented, change_character)?;
    ensure(outcomes.no_image + outcomes.refused == 0, "no source for an image with another character")?;
    ensure(outcomes.source > 2000, "too few outcomes")
}

#[test]
fn items_added() -> Result<(), Failure> {
    let outcomes = bring_altered("images with an item added", Made::Altered, |rng, world, image| {
        add_item(rng, world, image, all_lists)
    })?;
    ensure(outcomes.source > 300 && outcomes.no_image > 300, "too few outcomes")
}

#[test]
fn items_dropped() -> Result<(), Failure> {
    let outcomes = bring_altered("images with an item dropped", Made::Altered, |rng, world, image| {
        drop_item(rng, world, image, all_lists)
    })?;
    ensure(outcomes.source > 200 && outcomes.no_image > 80, "too few outcomes")
}

/// A second item in a list on the path of a choice: there is no such image.
#[test]
fn items_added_on_paths() -> Result<(), Failure> {
    let title = "images with a second item on the path of a choice";
    let outcomes = bring_altered_of(title, Made::Altered, World::listed, |rng, world, image| {
        add_item(rng, world, image, lists_on_paths)
    })?;
    ensure(outcomes.source == 0, "a source for an image with a second item")?;
    ensure(outcomes.no_image > 1000, "too few outcomes")
}

/// A list on the path of a choice left empty: there is no such image.
#[test]
fn items_dropped_on_paths() -> Result<(), Failure> {
    let title = "images with no item on the path of a choice";
    let outcomes = bring_altered_of(title, Made::Altered, World::listed, |rng, world, image| {
        drop_item(rng, world, image, lists_on_paths)
    })?;
    ensure(outcomes.source == 0, "a source for an image without an item")?;
    ensure(outcomes.no_image > 1000, "too few outcomes")
}

/// Anything altered, so that the tree still conforms to the target table.
#[test]
fn anything_altered() -> Result<(), Failure> {
    let outcomes = bring_altered("altered images", Made::Altered, |rng, world, image| {
        let target = &world.embedded.target;
        let altered = alter(rng, target, image);
        Some(if rng.chance(50) { altered } else { alter(rng, target, &altered) }.to_bytes())
    })?;
    ensure(outcomes.source > 500 && outcomes.no_image > 500, "too few outcomes")
}

/// Bytes, commands or elements changed, most often so that the tree conforms
/// no more.
#[test]
fn anything_damaged() -> Result<(), Failure> {
    let outcomes = bring_altered("damaged images", Made::Damaged, |rng, world, image| {
        let mut bytes = image.to_bytes();
        match rng.below(3) {
            0 => damage_bytes(rng, &mut bytes),
            1 => damage_commands(rng, &mut bytes),
            _ => bytes = damage_tree(rng, &world.embedded.target, image),
        }
        Some(bytes)
    })?;
    ensure(outcomes.source > 50 && outcomes.refused > 1000, "too few outcomes")
}
