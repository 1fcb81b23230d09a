//! Embeddings: the form of their documents, the checks, and the embedding in
//! memory.

use crate::reader::Reader;
use crate::table::{ContentModel, Table};
use crate::{check_length, refuse_at, Refusal, EMBEDDING, MOST_STEPS};

/// The path of one edge and the offset of its command 21.
#[derive(Debug, Clone, PartialEq, Eq)]
pub struct Path {
    pub offset: usize,
    pub steps: Vec<u8>,
}

impl Path {
    /// The offset of a step's command 22; steps are counted from 0 here.
    fn step_offset(&self, step: usize) -> usize {
        self.offset + 1 + 2 * step
    }
}

/// The target type of a source type, the offset of its command 20, and the
/// paths of its edges.
#[derive(Debug, Clone, PartialEq, Eq)]
pub struct TypeMap {
    pub offset: usize,
    pub target: u8,
    pub paths: Vec<Path>,
}

/// An embedding: a map for each source type.
#[derive(Debug, Clone, PartialEq, Eq)]
pub struct Embedding {
    pub maps: Vec<TypeMap>,
}

impl Embedding {
    /// The document of this embedding.
    pub fn to_bytes(&self) -> Vec<u8> {
        let mut bytes = Vec::new();
        for map in &self.maps {
            bytes.extend([0x20, map.target]);
            for path in &map.paths {
                bytes.push(0x21);
                path.steps.iter().for_each(|&step| bytes.extend([0x22, step]));
            }
        }
        bytes.push(0x2F);
        bytes
    }
}

/// Judges an embedding between accepted tables by refusals 1 to 10.
pub fn accept(source: &Table, target: &Table, bytes: &[u8]) -> Result<Embedding, Refusal> {
    check_length(bytes, EMBEDDING)?;
    let embedding = read(source, bytes).map_err(|mark| Refusal::new(2, EMBEDDING, mark))?;
    let judge = Judge { source, target, maps: &embedding.maps };
    refuse_at(judge.too_many_steps(), 3, EMBEDDING)?;
    refuse_at(judge.bad_operand(), 4, EMBEDDING)?;
    refuse_at(judge.root_elsewhere(), 7, EMBEDDING)?;
    refuse_at(judge.first_path(|model, map, edge| judge.ends_wrong(model, map, edge)), 8, EMBEDDING)?;
    refuse_at(judge.first_path(|model, map, edge| judge.wrong_steps(model, map, edge)), 9, EMBEDDING)?;
    refuse_at(judge.first_path(|model, map, edge| judge.clashes(model, map, edge)), 10, EMBEDDING)?;
    Ok(embedding)
}

/// Check 2: reads the maps, or gives the offset to be marked.
pub fn read(source: &Table, bytes: &[u8]) -> Result<Embedding, usize> {
    let mut reader = Reader::new(bytes);
    let mut maps = Vec::new();
    for model in &source.types {
        let map = reader.with_operand(0x20)?;
        let mut paths = Vec::new();
        for _ in 0..model.edges() {
            paths.push(read_path(&mut reader)?);
        }
        maps.push(TypeMap { offset: map.offset, target: map.value, paths });
    }
    reader.end(0x2F)?;
    Ok(Embedding { maps })
}

/// Reads a command 21 and the steps after it.
fn read_path(reader: &mut Reader) -> Result<Path, usize> {
    let offset = reader.bare(0x21)?;
    let mut steps = Vec::new();
    while reader.peek() == Some(0x22) {
        steps.push(reader.with_operand(0x22)?.value);
    }
    Ok(Path { offset, steps })
}

/// What the checks after the form look at.
struct Judge<'a> {
    source: &'a Table,
    target: &'a Table,
    maps: &'a [TypeMap],
}

impl Judge<'_> {
    /// The offset of the first path, in order, for which a test holds. The
    /// test is given the source type, its map and the edge.
    fn first_path(&self, test: impl Fn(&ContentModel, &TypeMap, usize) -> bool) -> Option<usize> {
        for (model, map) in self.source.types.iter().zip(self.maps) {
            if let Some(edge) = (0..map.paths.len()).find(|&edge| test(model, map, edge)) {
                return Some(map.paths[edge].offset);
            }
        }
        None
    }

    /// Check 3: the first 13th step.
    fn too_many_steps(&self) -> Option<usize> {
        let mut paths = self.maps.iter().flat_map(|map| &map.paths);
        let path = paths.find(|path| path.steps.len() > MOST_STEPS)?;
        Some(path.step_offset(MOST_STEPS))
    }

    /// Check 4: the first command 20 without such a target type or command 22
    /// without such a step.
    fn bad_operand(&self) -> Option<usize> {
        for map in self.maps {
            if map.target as usize >= self.target.types.len() {
                return Some(map.offset);
            }
            for path in &map.paths {
                if let Err(step) = walk(self.target, map.target, &path.steps) {
                    return Some(path.step_offset(step));
                }
            }
        }
        None
    }

    /// Check 7: the root isn't mapped to the root.
    fn root_elsewhere(&self) -> Option<usize> {
        (self.maps[0].target != 0).then_some(0)
    }

    /// The types along a path whose steps all exist, the start included.
    fn along(&self, map: &TypeMap, path: &Path) -> Vec<u8> {
        walk(self.target, map.target, &path.steps).unwrap_or_default()
    }

    /// Check 8: the path doesn't end at the type its edge is mapped to, or at
    /// a text type for characters.
    fn ends_wrong(&self, model: &ContentModel, map: &TypeMap, edge: usize) -> bool {
        let end = self.along(map, &map.paths[edge]).last().copied();
        match model.named().get(edge) {
            Some(&named) => end != Some(self.maps[named as usize].target),
            None => !end.is_some_and(|end| self.target.types[end as usize] == ContentModel::Text),
        }
    }

    /// The target types that the steps of a path leave.
    fn left(&self, map: &TypeMap, path: &Path) -> Vec<&ContentModel> {
        left(self.target, map.target, &path.steps)
    }

    /// Check 9: the path has wrong steps for its source type, or too few. Only
    /// from a choice of either kind may a step leave a choice; it may leave a
    /// list from every kind of type.
    fn wrong_steps(&self, model: &ContentModel, map: &TypeMap, edge: usize) -> bool {
        let left = self.left(map, &map.paths[edge]);
        let no_choice = !left.iter().any(|model| model.is_choice());
        let right = match model {
            ContentModel::Text => no_choice,
            ContentModel::Sequence(_) => no_choice && !left.is_empty(),
            ContentModel::Choice(_) => !no_choice,
            ContentModel::OptionalChoice(_) => self.may_hold_nothing(map, edge),
            ContentModel::List(_) => no_choice && left.iter().any(|model| model.is_list()),
            ContentModel::Empty => true,
        };
        !right
    }

    /// Whether the path of an edge has a step that leaves a choice, the first
    /// such step leaves an optional one, and the steps before it are those of
    /// the type's first path.
    fn may_hold_nothing(&self, map: &TypeMap, edge: usize) -> bool {
        let first_left = self.left(map, &map.paths[edge]).into_iter().find(|model| model.is_choice());
        let beginning = before_choice(self.target, map.target, &map.paths[edge].steps);
        let first_beginning = before_choice(self.target, map.target, &map.paths[0].steps);
        first_left.is_some_and(ContentModel::is_optional) && beginning == first_beginning
    }

    /// Check 10: the path of an edge clashes with an earlier one of its type.
    fn clashes(&self, model: &ContentModel, map: &TypeMap, edge: usize) -> bool {
        let path = &map.paths[edge];
        map.paths[..edge].iter().any(|earlier| {
            let pairs = path.steps.iter().zip(&earlier.steps);
            match pairs.clone().position(|(a, b)| a != b) {
                None => true,
                Some(place) => model.is_choice() && !self.left(map, path)[place].is_choice(),
            }
        })
    }
}

/// The types along a path, the start included, or the first step (from 0)
/// that doesn't exist.
pub fn walk(target: &Table, start: u8, steps: &[u8]) -> Result<Vec<u8>, usize> {
    let mut along = vec![start];
    let mut at = start;
    for (number, &step) in steps.iter().enumerate() {
        at = target.step(at, step).ok_or(number)?;
        along.push(at);
    }
    Ok(along)
}

/// The target types that the steps of a path leave. Where a step doesn't
/// exist, the last of them is the type without that step.
pub fn left<'a>(target: &'a Table, start: u8, steps: &[u8]) -> Vec<&'a ContentModel> {
    let mut at = Some(start);
    let models = steps.iter().map_while(|&step| {
        let from = at?;
        let model = target.types.get(from as usize)?;
        at = target.step(from, step);
        Some(model)
    });
    models.collect()
}

/// The steps of a path before its first that leaves a choice of either kind,
/// if there is such a step.
pub fn before_choice<'a>(target: &Table, start: u8, steps: &'a [u8]) -> Option<&'a [u8]> {
    let along = walk(target, start, steps).ok()?;
    let place = along.iter().take(steps.len()).position(|&t| target.types[t as usize].is_choice())?;
    Some(&steps[..place])
}
