//! `docs/FORMATS.md` as a test reads it: lines of text, and code blocks of
//! four kinds.
//!
//! | Code block | Holds | Read by |
//! |---|---|---|
//! | `case` | one case: its documents and its answer | [`examples`] |
//! | `bytes` | a document, row by row, each with its offset | [`drawings`] |
//! | `characters` | the allowed characters, sixteen a row | [`drawings`] |
//! | `text` | any other drawing | [`spans`] |
//!
//! Any other code block is a fault of the page, so that none goes unread.

pub mod drawings;
pub mod examples;
pub mod spans;
pub mod terms;

use lafindry_entries::Failure;

/// Where the page stands, from the root of the repository.
pub const PAGE: &str = "docs/FORMATS.md";

/// A line of the page and its number, from 1.
#[derive(Clone, Copy)]
pub struct Line<'a> {
    pub number: usize,
    pub text: &'a str,
}

impl Line<'_> {
    /// A fault of the page at this line.
    pub fn fault(&self, message: impl AsRef<str>) -> Failure {
        Failure(format!("{PAGE}:{}: {}", self.number, message.as_ref()))
    }
}

/// A code block: its kind, the line that opens it and those inside.
pub struct Block<'a> {
    pub kind: &'a str,
    pub opening: Line<'a>,
    pub lines: Vec<Line<'a>>,
}

/// The page: its code blocks, and the lines outside them.
pub struct Page<'a> {
    pub blocks: Vec<Block<'a>>,
    pub prose: Vec<Line<'a>>,
}

/// The line that opens or closes a code block begins so.
const FENCE: &str = "```";
/// The kinds of code blocks.
const KINDS: [&str; 4] = ["case", "bytes", "characters", "text"];

impl<'a> Page<'a> {
    /// Parts the text of the page into code blocks and other lines.
    pub fn read(text: &'a str) -> Result<Page<'a>, Failure> {
        let mut page = Page { blocks: Vec::new(), prose: Vec::new() };
        let mut open: Option<Block> = None;
        for (at, text) in text.lines().enumerate() {
            let line = Line { number: at + 1, text };
            match (&mut open, text.strip_prefix(FENCE)) {
                (None, Some(kind)) => open = Some(Block::new(kind, line)?),
                (None, None) => page.prose.push(line.outside()?),
                (Some(block), None) => block.lines.push(line),
                (Some(_), Some("")) => page.blocks.extend(open.take()),
                (Some(_), Some(_)) => return Err(line.fault("a code block inside another")),
            }
        }
        match open {
            Some(block) => Err(block.opening.fault("a code block that does not end")),
            None => Ok(page),
        }
    }

    /// The code blocks of a kind.
    pub fn of_kind(&self, kind: &'static str) -> impl Iterator<Item = &Block<'a>> {
        self.blocks.iter().filter(move |block| block.kind == kind)
    }
}

impl<'a> Block<'a> {
    /// A block without lines.
    fn new(kind: &'a str, opening: Line<'a>) -> Result<Block<'a>, Failure> {
        match KINDS.contains(&kind) {
            true => Ok(Block { kind, opening, lines: Vec::new() }),
            false => Err(opening.fault(format!("no kind of code block: '{kind}'"))),
        }
    }
}

impl<'a> Line<'a> {
    /// This line, as one outside code blocks. A code block in another form than
    /// [`FENCE`] at the start of a line would not be read.
    fn outside(self) -> Result<Line<'a>, Failure> {
        let hidden = self.text.contains(FENCE) || self.text.contains("~~~");
        match hidden || self.text.starts_with("    ") || self.text.starts_with('\t') {
            true => Err(self.fault("code that the test would not read: begin the line with ``` and a kind")),
            false => Ok(self),
        }
    }
}
