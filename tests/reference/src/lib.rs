//! A reference for the five entries of paper 01, with the optional choices of
//! paper 02 (N3), its lists on the paths of choices (N6) and its accents (N5),
//! for its reading along the paths (N4), its count of what went across (N14), its
//! explanation of clashing paths (N9) and its operations on a table (N8), written
//! from these papers and the lists of readings alone, in plain Rust.
//!
//! | Entry | Function |
//! |---|---|
//! | judge a table | [`judge_table`] |
//! | judge an embedding | [`judge_embedding`] |
//! | judge a tree | [`judge_tree`] |
//! | carry | [`carry`] |
//! | bring back | [`bring_back`] |
//! | read along the paths | [`read_along`] |
//! | count what went across | [`count_across`] |
//! | explain a clash | [`explain_clash`] |
//! | extend a table | [`extend_table`] |
//!
//! Every function answers on arbitrary bytes. A refusal changes no byte of the
//! output; an answer changes none after those it writes.

pub mod along;
pub mod clauses;
pub mod counted;
pub mod embedding;
pub mod explanation;
pub mod extension;
pub mod generate;
pub mod image;
pub mod inverse;
pub mod places;
pub mod reader;
pub mod table;
pub mod tree;
pub mod vectors;

pub use counted::count_across;
pub use explanation::explain_clash;
pub use extension::extend_table;

use image::Mapping;

/// The greatest length of a document, in bytes.
pub const MOST_BYTES: usize = 60_000;
/// The greatest number of types of a table.
pub const MOST_TYPES: usize = 64;
/// The greatest number of members of a type.
pub const MOST_MEMBERS: usize = 16;
/// The greatest number of steps of a path.
pub const MOST_STEPS: usize = 12;
/// The greatest number of levels of a tree.
pub const MOST_LEVELS: usize = 128;

/// Document 1: the table, or the source table where there are two.
pub const SOURCE: u64 = 1;
/// Document 2: the target table.
pub const TARGET: u64 = 2;
/// Document 3: the embedding.
pub const EMBEDDING: u64 = 3;
/// Document 4: the tree.
pub const TREE: u64 = 4;
/// Document 5: the output.
pub const OUTPUT: u64 = 5;
/// Document 11: the operations on a table.
pub const OPERATIONS: u64 = 11;

/// An answer of refusal: number, document and mark, as paper 01 lists them.
#[derive(Debug, Clone, Copy, PartialEq, Eq)]
pub struct Refusal {
    pub number: u64,
    pub document: u64,
    pub mark: u64,
}

impl Refusal {
    /// A refusal of a document at a place.
    pub fn new(number: u64, document: u64, mark: usize) -> Refusal {
        Refusal { number, document, mark: mark as u64 }
    }
}

/// The answer of [`carry`]: length of the image, number of filler elements.
#[derive(Debug, Clone, Copy, PartialEq, Eq)]
pub struct Carried {
    pub length: u64,
    pub filler: u64,
}

/// The answer of [`read_along`]: length of the source document, number of target
/// elements, the root aside, on no followed path.
#[derive(Debug, Clone, Copy, PartialEq, Eq)]
pub struct ReadAlong {
    pub length: u64,
    pub aside: u64,
}

/// Judges a table and answers its number of types.
pub fn judge_table(table: &[u8]) -> Result<u64, Refusal> {
    Ok(table::accept(table, SOURCE)?.types.len() as u64)
}

/// Judges an embedding between two tables and answers its number of edges.
pub fn judge_embedding(source: &[u8], target: &[u8], embedding: &[u8]) -> Result<u64, Refusal> {
    let source = table::accept(source, SOURCE)?;
    let target = table::accept(target, TARGET)?;
    embedding::accept(&source, &target, embedding)?;
    Ok(source.edges() as u64)
}

/// Judges a tree by a table and answers its number of elements.
pub fn judge_tree(table: &[u8], tree: &[u8]) -> Result<u64, Refusal> {
    let table = table::accept(table, SOURCE)?;
    tree::judge(&table, tree)?;
    Ok(tree::count(tree) as u64)
}

/// Writes the image of a tree at the start of the output.
pub fn carry(
    source: &[u8],
    target: &[u8],
    embedding: &[u8],
    tree: &[u8],
    output: &mut [u8],
) -> Result<Carried, Refusal> {
    let source = table::accept(source, SOURCE)?;
    let target = table::accept(target, TARGET)?;
    let embedding = embedding::accept(&source, &target, embedding)?;
    tree::judge(&source, tree)?;
    let root = tree::build(tree);
    Mapping::new(&source, &target, &embedding).carry(&root, output)
}

/// Writes the source document of an image at the start of the output and
/// answers its length.
pub fn bring_back(
    source: &[u8],
    target: &[u8],
    embedding: &[u8],
    tree: &[u8],
    output: &mut [u8],
) -> Result<u64, Refusal> {
    let source = table::accept(source, SOURCE)?;
    let target = table::accept(target, TARGET)?;
    let embedding = embedding::accept(&source, &target, embedding)?;
    tree::judge(&target, tree)?;
    let root = tree::build(tree);
    let mapping = Mapping::new(&source, &target, &embedding);
    inverse::bring_back(&mapping, &root, output)
}

/// Writes the source document that the paths of a target document lead to at the
/// start of the output.
pub fn read_along(
    source: &[u8],
    target: &[u8],
    embedding: &[u8],
    tree: &[u8],
    output: &mut [u8],
) -> Result<ReadAlong, Refusal> {
    let source = table::accept(source, SOURCE)?;
    let target = table::accept(target, TARGET)?;
    let embedding = embedding::accept(&source, &target, embedding)?;
    tree::judge(&target, tree)?;
    along::read_along(&source, &target, &embedding, tree, output)
}

/// Refuses a document longer than 60,000 bytes.
fn check_length(bytes: &[u8], document: u64) -> Result<(), Refusal> {
    if bytes.len() > MOST_BYTES {
        return Err(Refusal::new(1, document, 0));
    }
    Ok(())
}

/// Turns the place a check found into a refusal.
fn refuse_at(place: Option<usize>, number: u64, document: u64) -> Result<(), Refusal> {
    match place {
        Some(mark) => Err(Refusal::new(number, document, mark)),
        None => Ok(()),
    }
}
