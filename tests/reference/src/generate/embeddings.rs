//! Random valid embeddings. The target table is derived from the source
//! table, then paths and maps are replaced by others found in the target.

use super::tables::{random_table, tower, TableSize};
use super::Rng;
use crate::embedding::{self, before_choice, left, walk, Embedding, Path, TypeMap};
use crate::table::{self, ContentModel, Table};
use crate::tree::Element;
use crate::{MOST_MEMBERS, MOST_STEPS, MOST_TYPES, TARGET};

/// Two tables and a valid embedding of the source in the target.
#[derive(Debug, Clone)]
pub struct Embedded {
    pub source: Table,
    pub target: Table,
    pub embedding: Embedding,
}

impl Embedded {
    /// Whether one of the tables has an optional choice.
    pub fn has_optional(&self) -> bool {
        let types = self.source.types.iter().chain(&self.target.types);
        types.into_iter().any(ContentModel::is_optional)
    }

    /// Whether a path of a choice of either kind leaves a list.
    pub fn has_list_on_choice(&self) -> bool {
        let maps = self.source.types.iter().zip(&self.embedding.maps);
        let mut choices = maps.filter(|(model, _)| model.is_choice());
        choices.any(|(_, map)| {
            let mut left = map.paths.iter().flat_map(|path| left(&self.target, map.target, &path.steps));
            left.any(ContentModel::is_list)
        })
    }

    /// The content model of a source element.
    pub fn model_of(&self, element: &Element) -> &ContentModel {
        &self.source.types[element.element_type as usize]
    }

    /// The target types left by the path that is built for a choice of either
    /// kind: that of the member it holds, or where it holds nothing the steps
    /// before the first choice.
    pub fn left_by(&self, choice: &Element) -> Vec<&ContentModel> {
        let map = &self.embedding.maps[choice.element_type as usize];
        let held = choice.children.first().map(|child| child.element_type);
        let edge = self.model_of(choice).named().iter().position(|&member| Some(member) == held);
        let steps = match edge {
            Some(edge) => &map.paths[edge].steps[..],
            None => before_choice(&self.target, map.target, &map.paths[0].steps).unwrap_or_default(),
        };
        left(&self.target, map.target, steps)
    }

    /// Whether the embedding is valid.
    fn is_valid(&self) -> bool {
        embedding::accept(&self.source, &self.target, &self.embedding.to_bytes()).is_ok()
    }
}

/// A target table and a valid embedding for a source table. The size says how
/// many choices of the target are optional, where the source leaves that open,
/// and how many lists are on the paths of choices.
pub fn random_embedded(rng: &mut Rng, source: &Table, size: TableSize) -> Embedded {
    let TableSize { optional, lists, .. } = size;
    let steps = if lists > 0 { Steps::Valid } else { Steps::WithoutLists };
    for _ in 0..8 {
        let wrap = rng.pick(&[0, 20, 40, 60, 85]);
        let extra = rng.pick(&[0, 15, 30, 50]);
        if let Some(mut embedded) = derive(rng, source, Chances { wrap, extra, optional, lists }) {
            vary(rng, &mut embedded, steps);
            return embedded;
        }
    }
    identity(source)
}

/// The embedding of a table in itself.
pub fn identity(source: &Table) -> Embedded {
    let maps = source.types.iter().enumerate().map(|(t, model)| {
        let path = |edge: usize| match model {
            ContentModel::Text => Vec::new(),
            _ => vec![edge as u8 + 1],
        };
        type_map(t as u8, (0..model.edges()).map(path).collect())
    });
    let embedding = Embedding { maps: maps.collect() };
    Embedded { source: source.clone(), target: source.clone(), embedding }
}

/// A map with the steps of its paths; the offsets are left 0.
pub(super) fn type_map(target: u8, paths: Vec<Vec<u8>>) -> TypeMap {
    let paths = paths.into_iter().map(|steps| Path { offset: 0, steps }).collect();
    TypeMap { offset: 0, target, paths }
}

/// How many of 100 paths are longer, members are filler, choices are optional
/// and types that the path of a choice leaves are lists.
#[derive(Debug, Clone, Copy)]
struct Chances {
    wrap: usize,
    extra: usize,
    optional: usize,
    lists: usize,
}

/// Builds a target table around the maps of a source table.
struct Derivation<'a> {
    rng: &'a mut Rng,
    source: &'a Table,
    chances: Chances,
    /// The target type of each source type.
    maps: Vec<u8>,
    /// The models of the target types; `None` while not yet decided.
    target: Vec<Option<ContentModel>>,
    /// The target types that filler members are drawn from.
    fillers: Vec<u8>,
}

/// The paths found for the edges of one source type.
type Paths = Vec<Vec<u8>>;

/// A derived target table and embedding; `None` where the limits are passed.
fn derive(rng: &mut Rng, source: &Table, chances: Chances) -> Option<Embedded> {
    let mut derivation =
        Derivation { rng, source, chances, maps: vec![0], target: vec![None], fillers: Vec::new() };
    derivation.add_fillers()?;
    derivation.choose_maps()?;
    let paths = derivation.define_types()?;
    let maps = derivation.maps.iter().zip(paths).map(|(&t, paths)| type_map(t, paths)).collect();
    let empty = ContentModel::Empty;
    let types = derivation.target.iter().map(|model| model.clone().unwrap_or(empty.clone())).collect();
    let mut embedded =
        Embedded { source: source.clone(), target: Table { types }, embedding: Embedding { maps } };
    if rng.chance(60) {
        renumber(rng, &mut embedded);
    }
    table::accept(&embedded.target.to_bytes(), TARGET).ok()?;
    embedded.is_valid().then_some(embedded)
}

impl Derivation<'_> {
    /// A new target type, not yet decided.
    fn new_type(&mut self) -> Option<u8> {
        let t = self.target.len();
        self.target.push(None);
        (t < MOST_TYPES).then_some(t as u8)
    }

    /// Adds types that no path needs: none, a random table or a tower.
    fn add_fillers(&mut self) -> Option<()> {
        let table = match self.rng.below(30) {
            0 => tower(self.rng.between(2, 40), self.rng.between(1, MOST_MEMBERS)),
            1..=5 => tower(self.rng.between(2, 7), self.rng.between(1, 8)),
            6..=12 => return Some(()),
            _ => {
                let Chances { optional, lists, .. } = self.chances;
                random_table(self.rng, TableSize { types: 4, members: 3, optional, lists })
            }
        };
        let first = self.target.len() as u8;
        for model in &table.types {
            self.new_type()?;
            let renamed = rename(model, |t| t + first);
            *self.target.last_mut()? = Some(renamed);
        }
        self.fillers = (first..self.target.len() as u8).collect();
        Some(())
    }

    /// A type for a filler member: mostly one of the filler types.
    fn filler_type(&mut self) -> u8 {
        if self.fillers.is_empty() || self.rng.chance(10) {
            return self.rng.below(self.target.len()) as u8;
        }
        self.rng.pick(&self.fillers)
    }

    /// Chooses the target type of each source type: a new one, or one that
    /// another source type has.
    fn choose_maps(&mut self) -> Option<()> {
        for t in 1..self.source.types.len() {
            let map = match self.source.types[t] {
                ContentModel::Empty if self.rng.chance(30) => self.rng.pick(&self.maps),
                ContentModel::Empty if self.rng.chance(30) => self.filler_type(),
                _ => self.new_type()?,
            };
            self.maps.push(map);
        }
        for t in 1..self.source.types.len() {
            if self.rng.chance(50) {
                self.share_map(t);
            }
        }
        Some(())
    }

    /// Maps a source type to the target type of an earlier one of the same
    /// kind whose members have the same maps.
    fn share_map(&mut self, t: usize) {
        let mapped = |model: &ContentModel| rename(model, |named| self.maps[named as usize]);
        let model = mapped(&self.source.types[t]);
        let earlier = (0..t).find(|&other| mapped(&self.source.types[other]) == model);
        if let Some(other) = earlier {
            self.maps[t] = self.maps[other];
        }
    }

    /// Decides the target types that source types are mapped to, and gives
    /// the paths of each source type.
    fn define_types(&mut self) -> Option<Vec<Paths>> {
        let mut found: Vec<Paths> = Vec::new();
        // Types with edges decide first which model their target type has.
        for t in 0..self.source.types.len() {
            let earlier = (0..t)
                .find(|&other| self.maps[other] == self.maps[t] && self.source.types[other].edges() > 0);
            let paths = match earlier {
                _ if self.source.types[t] == ContentModel::Empty => Vec::new(),
                Some(other) => found[other].clone(),
                None => self.define_type(t)?,
            };
            found.push(paths);
        }
        for t in 0..self.source.types.len() {
            let map = self.maps[t] as usize;
            if self.target[map].is_none() {
                self.target[map] = Some(self.any_model());
            }
        }
        Some(found)
    }

    /// A model of filler types, for the image of an empty type.
    fn any_model(&mut self) -> ContentModel {
        match self.rng.below(6) {
            0 => ContentModel::Text,
            1 => ContentModel::List(self.filler_type()),
            2 => ContentModel::Sequence(vec![self.filler_type(), self.filler_type()]),
            3 if !self.fillers.is_empty() && self.draws(self.chances.optional) => {
                ContentModel::OptionalChoice(self.distinct_fillers(&[], 3))
            }
            3 if self.fillers.len() > 1 => ContentModel::Choice(self.distinct_fillers(&[], 2)),
            _ => ContentModel::Empty,
        }
    }

    /// True in so many of 100 cases. Nothing is drawn for 0, so that tables
    /// without optional choices, or without lists on the paths of choices, stay
    /// the same for a seed.
    fn draws(&mut self, percent: usize) -> bool {
        percent > 0 && self.rng.chance(percent)
    }

    /// Some distinct filler types besides the given ones.
    fn distinct_fillers(&mut self, besides: &[u8], most: usize) -> Vec<u8> {
        let mut fillers: Vec<u8> = self.fillers.clone();
        fillers.retain(|t| !besides.contains(t));
        self.rng.shuffle(&mut fillers);
        fillers.truncate(most);
        fillers
    }

    /// Decides the target type of a source type and finds its paths.
    fn define_type(&mut self, t: usize) -> Option<Paths> {
        let model = self.source.types[t].clone();
        let at = self.maps[t];
        let mut route = Route { model: &model, paths: vec![Vec::new(); model.edges()] };
        let edges: Vec<usize> = (0..model.edges()).collect();
        match model {
            ContentModel::Text if !self.rng.chance(self.chances.wrap / 2) => {
                self.target[at as usize] = Some(ContentModel::Text);
            }
            ContentModel::Choice(_) | ContentModel::OptionalChoice(_) => {
                self.lay_choice(&mut route, at, Stretch { edges: &edges, prefix: Vec::new(), passed: false })?
            }
            ContentModel::List(_) => self.lay(&mut route, at, &edges, Vec::new(), true)?,
            _ => self.lay(&mut route, at, &edges, Vec::new(), false)?,
        }
        Some(route.paths)
    }

    /// The target type at which the path of an edge ends.
    fn end_type(&mut self, route: &Route, edge: usize) -> Option<u8> {
        if let Some(&named) = route.model.named().get(edge) {
            return Some(self.maps[named as usize]);
        }
        let is_text = |t: &u8| self.target[*t as usize] == Some(ContentModel::Text);
        let texts: Vec<u8> = (0..self.target.len() as u8).filter(is_text).collect();
        if !texts.is_empty() && self.rng.chance(50) {
            return Some(self.rng.pick(&texts));
        }
        let t = self.new_type()?;
        self.target[t as usize] = Some(ContentModel::Text);
        Some(t)
    }

    /// Makes `at` a sequence or list that the paths of some edges leave.
    /// `list` says that a list has still to be on the path.
    fn lay(&mut self, route: &mut Route, at: u8, edges: &[usize], prefix: Vec<u8>, list: bool) -> Option<()> {
        let last = prefix.len() + 1 >= MOST_STEPS;
        let as_list = if list { last || self.rng.chance(60) } else { self.rng.chance(15) };
        if as_list && (edges.len() == 1 || !last) {
            let item = self.next(route, edges, longer(&prefix, 0), false)?;
            self.target[at as usize] = Some(ContentModel::List(item));
            return Some(());
        }
        let groups = self.split(edges, last);
        let members = self.with_fillers(groups);
        let mut types = Vec::new();
        for (place, group) in members.iter().enumerate() {
            types.push(match group {
                Some(group) => self.next(route, group, longer(&prefix, place), list)?,
                None => self.filler_type(),
            });
        }
        self.target[at as usize] = Some(ContentModel::Sequence(types));
        Some(())
    }

    /// The type after the last step of `prefix`: the end of a path, or a new
    /// type that the paths go on from.
    fn next(&mut self, route: &mut Route, edges: &[usize], prefix: Vec<u8>, list: bool) -> Option<u8> {
        let full = prefix.len() >= MOST_STEPS;
        if edges.len() == 1 && !list && (full || !self.rng.chance(self.chances.wrap)) {
            route.paths[edges[0]] = prefix;
            return self.end_type(route, edges[0]);
        }
        if full {
            return None;
        }
        let t = self.new_type()?;
        self.lay(route, t, edges, prefix, list)?;
        Some(t)
    }

    /// Makes `at` a choice, sequence or list that the paths of some members of
    /// a choice leave.
    fn lay_choice(&mut self, route: &mut Route, at: u8, so_far: Stretch) -> Option<()> {
        let last = so_far.prefix.len() + 1 >= MOST_STEPS;
        let may_wait = !last || (so_far.passed && so_far.edges.len() == 1);
        if may_wait && self.draws(self.chances.lists) {
            let item = self.next_choice(route, so_far.onward(so_far.edges, 0, so_far.passed), &[])?;
            self.target[at as usize] = Some(ContentModel::List(item));
            return Some(());
        }
        if may_wait && self.rng.chance(30) {
            return self.lay_beside(route, at, so_far);
        }
        // The first choice on the paths of an optional choice is optional.
        let must = !so_far.passed && route.model.is_optional();
        let optional = must || self.draws(self.chances.optional);
        let groups = self.split(so_far.edges, last);
        let mut types: Vec<u8> = Vec::new();
        for (place, group) in groups.iter().enumerate() {
            let t = self.next_choice(route, so_far.onward(group, place, true), &types)?;
            types.push(t);
        }
        let alone = types.len() < 2 && !optional;
        let others = if alone { 1 } else { self.rng.below(3) * self.chances.extra / 50 };
        let others = self.distinct_fillers(&types, others.min(MOST_MEMBERS - types.len()));
        types.extend(others);
        self.target[at as usize] = match optional {
            true => Some(ContentModel::OptionalChoice(types)),
            false => (types.len() >= 2).then_some(ContentModel::Choice(types)),
        };
        self.target[at as usize].as_ref().map(|_| ())
    }

    /// Makes `at` a sequence that the paths of some members of a choice leave
    /// by one step. Where optional choices are drawn, sometimes another member
    /// is of the type that they go through.
    fn lay_beside(&mut self, route: &mut Route, at: u8, so_far: Stretch) -> Option<()> {
        let members = self.with_fillers(vec![so_far.edges.to_vec()]);
        let mut types = Vec::new();
        let mut through = None;
        for (place, group) in members.iter().enumerate() {
            types.push(match group {
                Some(group) => self.next_choice(route, so_far.onward(group, place, so_far.passed), &[])?,
                None => self.filler_type(),
            });
            through = through.or(group.as_ref().map(|_| types[place]));
        }
        if self.chances.optional > 0 && types.len() < MOST_MEMBERS && self.rng.chance(30) {
            types.extend(through);
        }
        self.target[at as usize] = Some(ContentModel::Sequence(types));
        Some(())
    }

    /// As `next`, for members of a choice; the type isn't one of `taken`.
    fn next_choice(&mut self, route: &mut Route, so_far: Stretch, taken: &[u8]) -> Option<u8> {
        let full = so_far.prefix.len() >= MOST_STEPS;
        if so_far.edges.len() == 1 && so_far.passed && (full || !self.rng.chance(self.chances.wrap)) {
            let edge = so_far.edges[0];
            let end = self.end_type(route, edge)?;
            if !taken.contains(&end) {
                route.paths[edge] = so_far.prefix;
                return Some(end);
            }
        }
        if full {
            return None;
        }
        let t = self.new_type()?;
        self.lay_choice(route, t, so_far)?;
        Some(t)
    }

    /// Splits edges into groups that go through one member each; groups of
    /// one where `single`.
    fn split(&mut self, edges: &[usize], single: bool) -> Vec<Vec<usize>> {
        let apart = single || self.rng.chance(100 - self.chances.wrap);
        let count = if apart { edges.len() } else { self.rng.between(1, edges.len()) };
        let mut groups = vec![Vec::new(); count];
        for (place, &edge) in edges.iter().enumerate() {
            let group = if place < count { place } else { self.rng.below(count) };
            groups[group].push(edge);
        }
        groups
    }

    /// Adds places for filler members and puts all in random order.
    fn with_fillers(&mut self, groups: Vec<Vec<usize>>) -> Vec<Option<Vec<usize>>> {
        let mut members: Vec<Option<Vec<usize>>> = groups.into_iter().map(Some).collect();
        while members.len() < MOST_MEMBERS && self.rng.chance(self.chances.extra) {
            members.push(None);
        }
        if self.rng.chance(50) {
            self.rng.shuffle(&mut members);
        }
        members
    }
}

/// The source type whose paths are being found, and the paths.
struct Route<'a> {
    model: &'a ContentModel,
    paths: Paths,
}

/// Members of a choice whose paths are the same so far: their edges, the steps
/// taken, and whether one of these left a choice.
struct Stretch<'a> {
    edges: &'a [usize],
    prefix: Vec<u8>,
    passed: bool,
}

impl Stretch<'_> {
    /// Those of some of the members after one more step.
    fn onward<'b>(&self, edges: &'b [usize], place: usize, passed: bool) -> Stretch<'b> {
        Stretch { edges, prefix: longer(&self.prefix, place), passed }
    }
}

/// A path with one more step, to the member at a place counted from 0.
fn longer(prefix: &[u8], place: usize) -> Vec<u8> {
    let mut steps = prefix.to_vec();
    steps.push(place as u8 + 1);
    steps
}

/// A content model with other type numbers.
pub(super) fn rename(model: &ContentModel, name: impl Fn(u8) -> u8) -> ContentModel {
    match model {
        ContentModel::Sequence(members) => ContentModel::Sequence(members.iter().map(|&t| name(t)).collect()),
        ContentModel::Choice(members) => ContentModel::Choice(members.iter().map(|&t| name(t)).collect()),
        ContentModel::OptionalChoice(members) => {
            ContentModel::OptionalChoice(members.iter().map(|&t| name(t)).collect())
        }
        ContentModel::List(item) => ContentModel::List(name(*item)),
        other => other.clone(),
    }
}

/// Puts the target types, but for the root, in another order.
pub(super) fn renumber(rng: &mut Rng, embedded: &mut Embedded) {
    let mut new: Vec<u8> = (0..embedded.target.types.len() as u8).collect();
    rng.shuffle(&mut new[1..]);
    let old = embedded.target.types.clone();
    for (t, model) in old.iter().enumerate() {
        embedded.target.types[new[t] as usize] = rename(model, |named| new[named as usize]);
    }
    for map in &mut embedded.embedding.maps {
        map.target = new[map.target as usize];
    }
}

/// Which steps a random path may have.
#[derive(Debug, Clone, Copy, PartialEq, Eq)]
pub enum Steps {
    /// Those that the source type asks for.
    Valid,
    /// The same, but for lists on the path of a choice.
    WithoutLists,
    /// Any that exist.
    Any,
}

/// Whether a path of an edge of `source` may leave a target type, and whether
/// that is the step it must have. `needs` says that this step is still to come.
fn may_leave(source: &ContentModel, target: &ContentModel, steps: Steps, needs: bool) -> Option<bool> {
    match (source, target) {
        (_, ContentModel::Text | ContentModel::Empty) => None,
        _ if steps == Steps::Any => Some(true),
        (ContentModel::OptionalChoice(_), ContentModel::Choice(_)) if needs => None,
        _ if target.is_choice() => source.is_choice().then_some(true),
        _ if source.is_choice() && target.is_list() && steps == Steps::WithoutLists => None,
        (ContentModel::List(_), ContentModel::List(_)) => Some(true),
        _ => Some(false),
    }
}

/// A random path from `start` to `end` (to a text type where it is `None`)
/// for an edge of a source type.
pub fn random_path(
    rng: &mut Rng,
    target: &Table,
    source: &ContentModel,
    start: u8,
    end: Option<u8>,
    steps: Steps,
) -> Option<Vec<u8>> {
    let needs = (source.is_choice() || source.is_list()) && steps != Steps::Any;
    let search = PathSearch::new(target, source, end, steps);
    let least = if *source == ContentModel::Text || steps == Steps::Any { 0 } else { 1 };
    let lengths: Vec<usize> =
        (least..=MOST_STEPS).filter(|&length| search.reaches(length, needs, start)).collect();
    if lengths.is_empty() {
        return None;
    }
    let length = if rng.chance(50) { lengths[0] } else { rng.pick(&lengths) };
    Some(search.path(rng, length, needs, start))
}

/// From which types an end is reached by so many steps, with or without
/// the step that must still come.
struct PathSearch<'a> {
    target: &'a Table,
    source: &'a ContentModel,
    steps: Steps,
    reached: Vec<[Vec<bool>; 2]>,
}

impl<'a> PathSearch<'a> {
    /// Computes the types for every number of steps.
    fn new(target: &'a Table, source: &'a ContentModel, end: Option<u8>, steps: Steps) -> PathSearch<'a> {
        let is_end = |t: usize| match end {
            Some(end) => t == end as usize,
            None => target.types[t] == ContentModel::Text,
        };
        let count = target.types.len();
        let first = [(0..count).map(is_end).collect(), vec![false; count]];
        let mut search = PathSearch { target, source, steps, reached: vec![first] };
        for length in 1..=MOST_STEPS {
            let row =
                |needs| (0..count).map(|t| !search.choices(length, needs, t as u8).is_empty()).collect();
            let rows = [row(false), row(true)];
            search.reached.push(rows);
        }
        search
    }

    /// Whether the end is reached from a type by just so many steps.
    fn reaches(&self, length: usize, needs: bool, t: u8) -> bool {
        self.reached[length][needs as usize][t as usize]
    }

    /// The first steps of such paths, each with the type it leads to and
    /// what is still needed after it.
    fn choices(&self, length: usize, needs: bool, t: u8) -> Vec<(u8, u8, bool)> {
        let model = &self.target.types[t as usize];
        let Some(satisfies) = may_leave(self.source, model, self.steps, needs) else {
            return Vec::new();
        };
        let needs = needs && !satisfies;
        let named = model.named().iter().enumerate();
        let reaching = named.filter(|(_, &next)| self.reaches(length - 1, needs, next));
        reaching.map(|(place, &next)| (place as u8 + 1, next, needs)).collect()
    }

    /// A random path of this length.
    fn path(&self, rng: &mut Rng, length: usize, mut needs: bool, mut t: u8) -> Vec<u8> {
        let mut steps = Vec::new();
        for left in (1..=length).rev() {
            let (step, next, still) = rng.pick(&self.choices(left, needs, t));
            steps.push(step);
            (t, needs) = (next, still);
        }
        steps
    }
}

/// Replaces some paths and maps by others that are valid too, with such steps.
fn vary(rng: &mut Rng, embedded: &mut Embedded, steps: Steps) {
    for _ in 0..rng.pick(&[0, 0, 1, 3, 6]) {
        let before = embedded.embedding.clone();
        let t = rng.below(embedded.source.types.len());
        if rng.chance(60) {
            let edge = rng.below(embedded.source.types[t].edges());
            reroute(rng, embedded, t, edge, steps);
        } else {
            remap(rng, embedded, t, steps);
        }
        if !embedded.is_valid() {
            embedded.embedding = before;
        }
    }
}

/// Replaces the path of an edge by a random one to the same end, if there is
/// such an edge. Where the steps are to be valid, paths of an optional choice
/// go on beginning alike.
pub fn reroute(rng: &mut Rng, embedded: &mut Embedded, t: usize, edge: usize, steps: Steps) {
    let model = &embedded.source.types[t];
    if edge >= model.edges() {
        return;
    }
    let target = &embedded.target;
    let maps = &mut embedded.embedding.maps;
    let end = model.named().get(edge).map(|&named| maps[named as usize].target);
    let begins_alike = model.is_optional() && model.edges() > 1;
    let first = &maps[t].paths[0].steps;
    let beginning = match before_choice(target, maps[t].target, first) {
        Some(beginning) if begins_alike && steps != Steps::Any => beginning.to_vec(),
        _ => Vec::new(),
    };
    let along = walk(target, maps[t].target, &beginning).unwrap_or_default();
    let start = along.last().copied().unwrap_or(maps[t].target);
    let path = random_path(rng, target, model, start, end, steps).map(|path| [beginning, path].concat());
    if let Some(path) = path.filter(|path| path.len() <= MOST_STEPS) {
        maps[t].paths[edge].steps = path;
    }
}

/// Maps a type to another target type and replaces all paths from and to it by
/// some with such steps.
fn remap(rng: &mut Rng, embedded: &mut Embedded, t: usize, steps: Steps) {
    if t == 0 {
        return;
    }
    embedded.embedding.maps[t].target = rng.below(embedded.target.types.len()) as u8;
    for other in 0..embedded.source.types.len() {
        for edge in 0..embedded.source.types[other].edges() {
            let named = embedded.source.types[other].named().get(edge).copied();
            if other == t || named == Some(t as u8) {
                reroute(rng, embedded, other, edge, steps);
            }
        }
    }
}
