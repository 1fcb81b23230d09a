//! The image of a source tree: its levels, length and filler elements,
//! counted without building it, and the image written.

use crate::embedding::{before_choice, Embedding};
use crate::table::{ContentModel, Table};
use crate::tree::Element;
use crate::{Carried, Refusal, MOST_BYTES, MOST_LEVELS, OUTPUT};

/// The filler element of a target type: its levels, bytes and elements (these
/// two stop at the greatest u64), and the types of its children.
#[derive(Debug, Clone, PartialEq, Eq)]
pub struct Filler {
    pub height: u64,
    pub length: u64,
    pub elements: u64,
    pub children: Vec<u8>,
}

/// The filler of each type of an accepted table.
pub fn fillers(table: &Table) -> Vec<Filler> {
    let heights: Vec<u64> = table.heights().into_iter().map(|h| h.unwrap_or(u64::MAX)).collect();
    let mut fillers: Vec<Filler> = (0..table.types.len())
        .map(|t| Filler {
            height: heights[t],
            length: 0,
            elements: 0,
            children: filler_children(&table.types[t], &heights),
        })
        .collect();
    // Children have a lesser height, so their sums are complete before.
    let mut order: Vec<usize> = (0..fillers.len()).collect();
    order.sort_by_key(|&t| heights[t]);
    for t in order {
        let mut sum = (3_u64, 1_u64);
        for &child in &fillers[t].children {
            let child = &fillers[child as usize];
            sum = (sum.0.saturating_add(child.length), sum.1.saturating_add(child.elements));
        }
        (fillers[t].length, fillers[t].elements) = sum;
    }
    fillers
}

/// The types of the children of a filler element: all members of a sequence,
/// the earliest member of least height of a choice, else none. An optional
/// choice holds nothing.
fn filler_children(model: &ContentModel, heights: &[u64]) -> Vec<u8> {
    match model {
        ContentModel::Sequence(members) => members.clone(),
        ContentModel::Choice(members) => {
            members.iter().min_by_key(|&&member| heights[member as usize]).copied().into_iter().collect()
        }
        _ => Vec::new(),
    }
}

/// What an element of the image holds, from the image of a source element
/// down to the ends of its paths.
#[derive(Debug, Clone, PartialEq, Eq)]
pub enum Place {
    /// No path goes on: filler children of these types.
    Filler(Vec<u8>),
    /// A path ends: this is the image of that child.
    Child(usize),
    /// The character path ends: the characters of the source element.
    Characters,
    /// A sequence: its members' types; `None` for a filler member.
    Sequence(Vec<(u8, Option<Place>)>),
    /// A choice of either kind and the member on the path.
    Choice(u8, Box<Place>),
    /// The optional choice that stays empty where the source holds nothing.
    Nothing,
    /// A list that holds one item.
    Item(u8, Box<Place>),
    /// The list that receives one item for each item of the source list. The
    /// place is the same under each; its child 0 is that source item.
    Items(u8, Box<Place>),
}

/// A source type mapped into a target table: the target type, and the places
/// below an image of this type. A choice has places for each of its members,
/// an optional choice also, as the last, those for nothing; every other type
/// has one.
#[derive(Debug, Clone, PartialEq, Eq)]
pub struct MappedType {
    pub target: u8,
    pub alternatives: Vec<Place>,
}

/// An accepted embedding prepared for carrying and bringing back.
#[derive(Debug, Clone, PartialEq, Eq)]
pub struct Mapping {
    pub types: Vec<MappedType>,
    /// The content models of the source types.
    pub models: Vec<ContentModel>,
    /// For each target type, its filler.
    pub fillers: Vec<Filler>,
}

impl Mapping {
    /// Prepares an accepted embedding.
    pub fn new(source: &Table, target: &Table, embedding: &Embedding) -> Mapping {
        let fillers = fillers(target);
        let types = source.types.iter().zip(&embedding.maps).map(|(model, map)| {
            let paths: Vec<&[u8]> = map.paths.iter().map(|path| &path.steps[..]).collect();
            let builder = PlaceBuilder { target, fillers: &fillers };
            MappedType { target: map.target, alternatives: builder.alternatives(model, map.target, &paths) }
        });
        Mapping { types: types.collect(), models: source.types.clone(), fillers }
    }

    /// The places below the image of a source element.
    fn place_of(&self, element: &Element) -> &Place {
        let t = element.element_type as usize;
        &self.types[t].alternatives[alternative(&self.models[t], element)]
    }

    /// Measures the image, refuses by 12, 13 and 14, then writes it.
    pub fn carry(&self, root: &Element, output: &mut [u8]) -> Result<Carried, Refusal> {
        let measure = self.measure(root);
        if measure.levels > MOST_LEVELS as u64 {
            return Err(Refusal::new(12, OUTPUT, 0));
        }
        if measure.length > MOST_BYTES as u64 {
            return Err(Refusal::new(13, OUTPUT, 0));
        }
        if measure.length > output.len() as u64 {
            return Err(Refusal::new(14, OUTPUT, 0));
        }
        let mut writer = Writer { output, length: 0, fillers: &self.fillers };
        self.image(root, &mut writer);
        writer.put(0x3F);
        Ok(Carried { length: measure.length, filler: measure.filler })
    }

    /// The levels, length and filler elements of the image of a root.
    pub fn measure(&self, root: &Element) -> Measure<'_> {
        let mut measure = Measure { level: 0, levels: 0, length: 1, filler: 0, fillers: &self.fillers };
        self.image(root, &mut measure);
        measure
    }

    /// Gives the image of an element to a sink.
    fn image(&self, element: &Element, sink: &mut impl Sink) {
        sink.open(self.types[element.element_type as usize].target);
        self.content(element, sink);
        sink.close();
    }

    /// Gives what the image of an element holds to a sink.
    fn content(&self, element: &Element, sink: &mut impl Sink) {
        self.place(self.place_of(element), element, &element.children, sink);
    }

    /// Gives what a place below the image of `element` holds to a sink.
    fn place(&self, place: &Place, element: &Element, children: &[Element], sink: &mut impl Sink) {
        match place {
            Place::Filler(types) => types.iter().for_each(|&t| sink.filler(t)),
            Place::Child(edge) => self.content(&children[*edge], sink),
            Place::Characters => sink.characters(&element.characters),
            Place::Nothing => {}
            Place::Sequence(members) => {
                for (t, member) in members {
                    match member {
                        Some(member) => self.built(*t, member, element, children, sink),
                        None => sink.filler(*t),
                    }
                }
            }
            Place::Choice(t, rest) | Place::Item(t, rest) => self.built(*t, rest, element, children, sink),
            Place::Items(t, rest) => {
                for item in children {
                    self.built(*t, rest, element, std::slice::from_ref(item), sink);
                }
            }
        }
    }

    /// Gives an element that a path builds to a sink.
    fn built(&self, t: u8, place: &Place, element: &Element, children: &[Element], sink: &mut impl Sink) {
        sink.open(t);
        self.place(place, element, children, sink);
        sink.close();
    }
}

/// Which of the alternatives of its type an element takes: that of the member
/// it holds, or the one after all members where an optional choice holds
/// nothing; 0 where the type has only one.
pub fn alternative(model: &ContentModel, element: &Element) -> usize {
    match (model, element.children.first()) {
        (ContentModel::Choice(members) | ContentModel::OptionalChoice(members), Some(child)) => {
            members.iter().position(|&member| member == child.element_type).unwrap_or(0)
        }
        (ContentModel::OptionalChoice(members), None) => members.len(),
        _ => 0,
    }
}

/// The steps of a path and the place at its end.
type Edge<'a> = (&'a [u8], Place);

/// Finds the places below the images of one source type.
struct PlaceBuilder<'a> {
    target: &'a Table,
    fillers: &'a [Filler],
}

impl PlaceBuilder<'_> {
    /// The places below an image of a source type, which has target type
    /// `start`, given the paths of its edges.
    fn alternatives(&self, model: &ContentModel, start: u8, paths: &[&[u8]]) -> Vec<Place> {
        // The only child of a choice, and the item under each list item, is child 0.
        let single = |&steps: &&[u8]| self.place(start, 0, &[(steps, Place::Child(0))], false);
        match model {
            ContentModel::Empty => {
                vec![Place::Filler(self.fillers[start as usize].children.clone())]
            }
            ContentModel::Text => vec![self.place(start, 0, &[(paths[0], Place::Characters)], false)],
            ContentModel::Sequence(_) => {
                let edges = paths.iter().enumerate().map(|(edge, &steps)| (steps, Place::Child(edge)));
                vec![self.place(start, 0, &edges.collect::<Vec<Edge>>(), false)]
            }
            ContentModel::Choice(_) => paths.iter().map(single).collect(),
            ContentModel::OptionalChoice(_) => {
                let before = before_choice(self.target, start, paths[0]).unwrap_or(&[]);
                let nothing = self.place(start, 0, &[(before, Place::Nothing)], false);
                paths.iter().map(single).chain([nothing]).collect()
            }
            ContentModel::List(_) => vec![self.place(start, 0, &[(paths[0], Place::Child(0))], true)],
        }
    }

    /// The place at target type `at`, which these paths reach by their first
    /// `taken` steps. `items` says that the next list receives the items.
    fn place(&self, at: u8, taken: usize, paths: &[Edge], items: bool) -> Place {
        let (steps, end) = &paths[0];
        let Some(&step) = steps.get(taken) else {
            return end.clone();
        };
        match &self.target.types[at as usize] {
            ContentModel::List(t) if items => {
                Place::Items(*t, Box::new(self.place(*t, taken + 1, paths, false)))
            }
            ContentModel::List(t) => Place::Item(*t, Box::new(self.place(*t, taken + 1, paths, false))),
            ContentModel::Choice(members) | ContentModel::OptionalChoice(members) => {
                let t = members[step as usize - 1];
                Place::Choice(t, Box::new(self.place(t, taken + 1, paths, items)))
            }
            model => Place::Sequence(self.members(model.named(), taken, paths, items)),
        }
    }

    /// The members of a sequence, each with the paths that go through it.
    fn members(&self, members: &[u8], taken: usize, paths: &[Edge], items: bool) -> Vec<(u8, Option<Place>)> {
        let member = |(place, &t): (usize, &u8)| {
            let through = |(steps, _): &&Edge| steps[taken] as usize == place + 1;
            let group: Vec<Edge> = paths.iter().filter(through).cloned().collect();
            let built = !group.is_empty();
            (t, built.then(|| self.place(t, taken + 1, &group, items)))
        };
        members.iter().enumerate().map(member).collect()
    }
}

/// Receives the elements of an image in document order.
trait Sink {
    /// Opens an element that a path builds, or the root.
    fn open(&mut self, t: u8);
    /// Characters of the open element.
    fn characters(&mut self, characters: &[u8]);
    /// Closes the innermost open element.
    fn close(&mut self);
    /// A whole filler element.
    fn filler(&mut self, t: u8);
}

/// Counts levels, bytes and filler elements. Sums stop at the greatest u64.
pub struct Measure<'a> {
    level: u64,
    pub levels: u64,
    pub length: u64,
    pub filler: u64,
    fillers: &'a [Filler],
}

impl Sink for Measure<'_> {
    fn open(&mut self, _: u8) {
        self.level += 1;
        self.levels = self.levels.max(self.level);
        self.length = self.length.saturating_add(3);
    }

    fn characters(&mut self, characters: &[u8]) {
        self.length = self.length.saturating_add(2 * characters.len() as u64);
    }

    fn close(&mut self) {
        self.level -= 1;
    }

    fn filler(&mut self, t: u8) {
        let filler = &self.fillers[t as usize];
        self.levels = self.levels.max(self.level + filler.height);
        self.length = self.length.saturating_add(filler.length);
        self.filler = self.filler.saturating_add(filler.elements);
    }
}

/// Writes the image at the start of an output that is long enough.
struct Writer<'a> {
    output: &'a mut [u8],
    length: usize,
    fillers: &'a [Filler],
}

impl Writer<'_> {
    /// Writes one byte.
    fn put(&mut self, byte: u8) {
        self.output[self.length] = byte;
        self.length += 1;
    }
}

impl Sink for Writer<'_> {
    fn open(&mut self, t: u8) {
        self.put(0x30);
        self.put(t);
    }

    fn characters(&mut self, characters: &[u8]) {
        for &character in characters {
            self.put(0x31);
            self.put(character);
        }
    }

    fn close(&mut self) {
        self.put(0x32);
    }

    fn filler(&mut self, t: u8) {
        self.open(t);
        let fillers = self.fillers;
        fillers[t as usize].children.iter().for_each(|&child| self.filler(child));
        self.close();
    }
}
