//! Edited target documents: images in which something is changed that no path
//! leads to, or something that a path leads through. They conform to the target
//! table, some limits of length and levels aside.

use super::cases::World;
use super::damage::{alter, alter_characters, other_element};
use super::tables::TableSize;
use super::trees::{random_tree, Shape};
use super::Rng;
use crate::places::{element_at, OnPath, Places};
use crate::table::Table;
use crate::tree::Element;
use crate::vectors::{Answer, Case, Entry};
use crate::MOST_BYTES;

/// A place of an image that can be edited.
#[derive(Debug, Clone, Copy, PartialEq, Eq, PartialOrd, Ord)]
pub enum Site {
    /// An element that no path leads to.
    Filler,
    /// An element on a path.
    OnPath(OnPath),
}

/// The image of a world's tree, and where it can be edited.
pub struct Edits<'a> {
    world: &'a World,
    pub image: Element,
    sites: Vec<(Vec<usize>, Site)>,
}

impl Edits<'_> {
    /// Those of a world, if its image keeps within the limits.
    pub fn of(world: &World) -> Option<Edits<'_>> {
        let image = world.image()?;
        let Places { filler, on_paths, .. } = Places::of(&world.mapping(), &world.tree);
        let filler = filler.into_iter().map(|place| (place, Site::Filler));
        let on_paths = on_paths.into_iter().map(|(place, what)| (place, Site::OnPath(what)));
        Some(Edits { world, image, sites: filler.chain(on_paths).collect() })
    }

    /// A target document that is not the image, where one is found: most often the
    /// image with up to five edits, of which in some documents none changes what is
    /// read; else a random tree.
    pub fn draw(&self, rng: &mut Rng) -> Element {
        for _ in 0..8 {
            let count = rng.pick(&[1, 1, 1, 2, 3, 5]);
            let drawn = match rng.weighted(&[35, 55, 10]) {
                0 => self.edited_aside(rng, count),
                1 => self.edited(rng, count),
                _ => self.other(rng),
            };
            if drawn != self.image {
                return drawn;
            }
        }
        self.image.clone()
    }

    /// The image with up to so many edits of any kind.
    pub fn edited(&self, rng: &mut Rng, count: usize) -> Element {
        self.with_edits(rng, count, |_| true, edit)
    }

    /// The image with up to so many edits of what no path leads to: filler
    /// changed, and further items in lists that stand for one.
    pub fn edited_aside(&self, rng: &mut Rng, count: usize) -> Element {
        let is_aside = |site| matches!(site, Site::Filler | Site::OnPath(OnPath::OneItem));
        self.with_edits(rng, count, is_aside, edit_aside)
    }

    /// Another tree that conforms to the target table, if a small one is found.
    fn other(&self, rng: &mut Rng) -> Element {
        let shape = Shape::small(rng);
        random_tree(rng, &self.world.embedded.target, shape).unwrap_or_else(|| self.image.clone())
    }

    /// The image with up to so many edits at sites that pass a test. Those behind
    /// come first, so that the places of the others stay.
    fn with_edits(
        &self,
        rng: &mut Rng,
        count: usize,
        test: impl Fn(Site) -> bool,
        edit: fn(&mut Rng, &Table, Site, &mut Element),
    ) -> Element {
        let mut root = self.image.clone();
        let sites: Vec<&(Vec<usize>, Site)> = self.sites.iter().filter(|(_, site)| test(*site)).collect();
        let mut drawn: Vec<&(Vec<usize>, Site)> = (0..count).filter_map(|_| draw_site(rng, &sites)).collect();
        drawn.sort();
        drawn.dedup();
        for (place, site) in drawn.into_iter().rev() {
            edit(rng, &self.world.embedded.target, *site, element_at(&mut root, place));
        }
        root
    }
}

/// One of some sites. First a kind is drawn, so that no kind is rare.
fn draw_site<'a>(rng: &mut Rng, sites: &[&'a (Vec<usize>, Site)]) -> Option<&'a (Vec<usize>, Site)> {
    let mut kinds: Vec<Site> = sites.iter().map(|(_, site)| *site).collect();
    kinds.sort();
    kinds.dedup();
    let kind = *kinds.get(rng.below(kinds.len()))?;
    let of_kind: Vec<&(Vec<usize>, Site)> = sites.iter().copied().filter(|(_, site)| *site == kind).collect();
    of_kind.get(rng.below(of_kind.len())).copied()
}

/// Edits an element as its site is.
fn edit(rng: &mut Rng, target: &Table, site: Site, element: &mut Element) {
    match site {
        Site::OnPath(OnPath::OneItem) => match rng.weighted(&[45, 20, 35]) {
            0 => add_item(rng, target, element, 1),
            1 => add_item(rng, target, element, 0),
            _ => element.children.clear(),
        },
        Site::OnPath(OnPath::Items) => edit_items(rng, target, element),
        Site::OnPath(OnPath::Choice) => match target.types[element.element_type as usize].is_optional() {
            true if rng.chance(50) => element.children.clear(),
            _ => choose_member(rng, target, element),
        },
        Site::OnPath(OnPath::Nothing) => choose_member(rng, target, element),
        Site::OnPath(OnPath::Text) => alter_characters(rng, &mut element.characters),
        Site::Filler => edit_aside(rng, target, site, element),
    }
}

/// Edits an element so that what the paths lead to stays.
fn edit_aside(rng: &mut Rng, target: &Table, site: Site, element: &mut Element) {
    match site {
        Site::OnPath(_) => (0..rng.pick(&[1, 1, 2, 4])).for_each(|_| add_item(rng, target, element, 1)),
        Site::Filler => (0..rng.pick(&[1, 1, 2, 4])).for_each(|_| *element = alter(rng, target, element)),
    }
}

/// Puts an item into a list, one repeated or another one, behind so many others
/// at least.
fn add_item(rng: &mut Rng, target: &Table, list: &mut Element, behind: usize) {
    let item = target.types[list.element_type as usize].named()[0];
    let added = match list.children.get(rng.below(list.children.len())) {
        Some(repeated) if rng.chance(40) => Some(repeated.clone()),
        _ => other_element(rng, target, item),
    };
    let at = rng.between(behind.min(list.children.len()), list.children.len());
    added.into_iter().for_each(|added| list.children.insert(at, added));
}

/// Adds items to the list that takes a source list's, or takes some or all away.
fn edit_items(rng: &mut Rng, target: &Table, list: &mut Element) {
    let at = rng.below(list.children.len());
    match rng.weighted(&[55, 25, 10, 10]) {
        1 if !list.children.is_empty() => {
            list.children.remove(at);
        }
        2 if !list.children.is_empty() => list.children.swap(0, at),
        3 => list.children.clear(),
        _ => add_item(rng, target, list, 0),
    }
}

/// Gives a choice of either kind some member.
fn choose_member(rng: &mut Rng, target: &Table, choice: &mut Element) {
    let member = rng.pick(target.types[choice.element_type as usize].named());
    other_element(rng, target, member).into_iter().for_each(|member| choice.children = vec![member]);
}

/// The case of reading a target document of a world, with an output of about the
/// length that is needed.
pub fn edited_case(rng: &mut Rng, world: &World, tree: &Element) -> Case {
    let embedded = &world.embedded;
    let documents = vec![
        embedded.source.to_bytes(),
        embedded.target.to_bytes(),
        embedded.embedding.to_bytes(),
        tree.to_bytes(),
    ];
    // A source is no longer than the document that it is read from.
    let most = documents[3].len();
    let mut case = Case { entry: Entry::ReadAlong, documents, output_length: most };
    let needed = match case.run_into(&mut vec![0; most]) {
        Answer::Ok { value, .. } => Some(value as usize),
        Answer::Refused(_) => None,
    };
    case.output_length = output_length(rng, needed);
    case
}

/// A length of output: the length needed, if there is one, one less, one more,
/// none, some more or the greatest.
fn output_length(rng: &mut Rng, needed: Option<usize>) -> usize {
    let needed = needed.unwrap_or_else(|| rng.below(100));
    match rng.weighted(&[30, 15, 15, 10, 27, 3]) {
        0 => needed,
        1 => needed.saturating_sub(1),
        2 => needed + 1,
        3 => 0,
        4 => needed + rng.below(200),
        _ => MOST_BYTES,
    }
}

/// Such a case whose documents have at most 60 bytes each and 110 together.
pub fn random_small_edited_case(rng: &mut Rng) -> Case {
    loop {
        let (bytes, members) = (rng.pick(&[4, 8, 12, 20]), rng.pick(&[2, 3]));
        let (optional, lists) = (rng.pick(&[0, 40, 80]), rng.pick(&[0, 30, 50]));
        let size = TableSize { types: rng.between(1, 5), members, optional, lists };
        let shape = Shape { levels: 6, bytes, deep: rng.chance(30), wide: false };
        let world = World::random(rng, size, shape);
        let Some(tree) = Edits::of(&world).map(|edits| edits.draw(rng)) else {
            continue;
        };
        let case = edited_case(rng, &world, &tree);
        let lengths = || case.documents.iter().map(Vec::len);
        if lengths().all(|length| length <= 60) && lengths().sum::<usize>() <= 110 {
            return case;
        }
    }
}
