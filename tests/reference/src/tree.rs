//! Trees: the form of their documents, the checks, and trees in memory.

use crate::reader::Reader;
use crate::table::{ContentModel, Table};
use crate::{check_length, refuse_at, Refusal, MOST_LEVELS, TREE};

/// An element: its type, and its child elements or characters.
#[derive(Debug, Clone, PartialEq, Eq)]
pub struct Element {
    pub element_type: u8,
    pub children: Vec<Element>,
    pub characters: Vec<u8>,
}

impl Element {
    /// An element that holds nothing yet.
    pub fn new(element_type: u8) -> Element {
        Element { element_type, children: Vec::new(), characters: Vec::new() }
    }

    /// The document with this element as root.
    pub fn to_bytes(&self) -> Vec<u8> {
        let mut bytes = Vec::new();
        self.write(&mut bytes);
        bytes.push(0x3F);
        bytes
    }

    /// Writes the commands of this element.
    fn write(&self, bytes: &mut Vec<u8>) {
        bytes.extend([0x30, self.element_type]);
        self.characters.iter().for_each(|&c| bytes.extend([0x31, c]));
        self.children.iter().for_each(|child| child.write(bytes));
        bytes.push(0x32);
    }
}

/// A command of a tree document.
#[derive(Debug, Clone, Copy, PartialEq, Eq)]
pub enum Command {
    Open(u8),
    Character(u8),
    Close,
    End,
}

/// The number of levels of a tree document of the right form.
pub fn levels(document: &[u8]) -> usize {
    let (mut level, mut most) = (0, 0);
    for (_, command) in commands(document) {
        match command {
            Command::Open(_) => level += 1,
            Command::Close => level -= 1,
            _ => {}
        }
        most = most.max(level);
    }
    most
}

/// The commands of a tree of right form, with their offsets.
pub fn commands(bytes: &[u8]) -> impl Iterator<Item = (usize, Command)> + '_ {
    let mut offset = 0;
    std::iter::from_fn(move || {
        let start = offset;
        let code = *bytes.get(start)?;
        let operand = bytes.get(start + 1).copied().unwrap_or(0);
        let (command, length) = match code {
            0x30 => (Command::Open(operand), 2),
            0x31 => (Command::Character(operand), 2),
            0x32 => (Command::Close, 1),
            _ => (Command::End, 1),
        };
        offset += length;
        Some((start, command))
    })
}

/// The elements that a beginning of a tree leaves open, the root first: the
/// type of each and its number of children so far.
pub fn open_elements(beginning: &[u8]) -> Vec<(u8, usize)> {
    let mut open: Vec<(u8, usize)> = Vec::new();
    for (_, command) in commands(beginning) {
        match command {
            Command::Open(t) => {
                open.iter_mut().last().into_iter().for_each(|(_, children)| *children += 1);
                open.push((t, 0));
            }
            Command::Close => {
                open.pop();
            }
            _ => {}
        }
    }
    open
}

/// Whether a byte is an allowed character: of ISO 8859-1 the tab, the line feed
/// and all but the controls.
pub fn is_character(byte: u8) -> bool {
    matches!(byte, 0x09 | 0x0A | 0x20..=0x7E) || is_accent(byte)
}

/// Whether a byte is one of the characters that paper 02 (N5) allowed.
pub fn is_accent(byte: u8) -> bool {
    matches!(byte, 0xA0..=0xFF)
}

/// Judges a tree by an accepted table, by refusals 1 to 4 and 11.
pub fn judge(table: &Table, bytes: &[u8]) -> Result<(), Refusal> {
    check_length(bytes, TREE)?;
    check_form(bytes).map_err(|mark| Refusal::new(2, TREE, mark))?;
    refuse_at(too_deep(bytes), 3, TREE)?;
    refuse_at(bad_operand(table, bytes), 4, TREE)?;
    refuse_at(nonconforming(table, bytes), 11, TREE)
}

/// Check 2: one root element, then the end.
fn check_form(bytes: &[u8]) -> Result<(), usize> {
    let mut reader = Reader::new(bytes);
    reader.with_operand(0x30)?;
    let mut open = 1_usize;
    while open > 0 {
        match reader.peek() {
            Some(0x30) => {
                reader.with_operand(0x30)?;
                open += 1;
            }
            Some(0x31) => {
                reader.with_operand(0x31)?;
            }
            _ => {
                reader.bare(0x32)?;
                open -= 1;
            }
        }
    }
    reader.end(0x3F)
}

/// Check 3: the first element on a 129th level.
fn too_deep(bytes: &[u8]) -> Option<usize> {
    let mut level = 0;
    for (offset, command) in commands(bytes) {
        match command {
            Command::Open(_) if level == MOST_LEVELS => return Some(offset),
            Command::Open(_) => level += 1,
            Command::Close => level -= 1,
            _ => {}
        }
    }
    None
}

/// Check 4: the first type that isn't in the table or character that isn't
/// allowed.
fn bad_operand(table: &Table, bytes: &[u8]) -> Option<usize> {
    let mut all = commands(bytes);
    let bad = all.find(|&(_, command)| match command {
        Command::Open(t) => t as usize >= table.types.len(),
        Command::Character(c) => !is_character(c),
        _ => false,
    });
    bad.map(|(offset, _)| offset)
}

/// Check 11: the first command that can't follow under the content models.
/// Every type has a finite instance, so every other beginning can be completed.
fn nonconforming(table: &Table, bytes: &[u8]) -> Option<usize> {
    // The open elements: the model of each and its number of children so far.
    let mut open: Vec<(&ContentModel, usize)> = Vec::new();
    for (offset, command) in commands(bytes) {
        let fits = match (open.last(), command) {
            (None, Command::Open(t)) => t == 0,
            (None, _) => true,
            (Some((model, children)), Command::Open(t)) => may_open(model, *children, t),
            (Some((model, _)), Command::Character(_)) => **model == ContentModel::Text,
            (Some((model, children)), _) => may_close(model, *children),
        };
        if !fits {
            return Some(offset);
        }
        match command {
            Command::Open(t) => {
                if let Some((_, children)) = open.last_mut() {
                    *children += 1;
                }
                open.push((&table.types[t as usize], 0));
            }
            Command::Close => {
                open.pop();
            }
            _ => {}
        }
    }
    None
}

/// Whether an element with some children may go on with one of type `t`.
fn may_open(model: &ContentModel, children: usize, t: u8) -> bool {
    match model {
        ContentModel::Text | ContentModel::Empty => false,
        ContentModel::Sequence(members) => members.get(children) == Some(&t),
        ContentModel::Choice(members) | ContentModel::OptionalChoice(members) => {
            children == 0 && members.contains(&t)
        }
        ContentModel::List(item) => *item == t,
    }
}

/// Whether an element is complete with so many children, all of which it may
/// hold.
fn may_close(model: &ContentModel, children: usize) -> bool {
    match model {
        ContentModel::Sequence(members) => children == members.len(),
        ContentModel::Choice(_) => children == 1,
        _ => true,
    }
}

/// The number of elements of a tree of right form.
pub fn count(bytes: &[u8]) -> usize {
    commands(bytes).filter(|(_, command)| matches!(command, Command::Open(_))).count()
}

/// Builds the root element of a tree of right form.
pub fn build(bytes: &[u8]) -> Element {
    // The last of these is the element that is open; the first one only holds
    // the root.
    let mut open = vec![Element::new(0)];
    for (_, command) in commands(bytes) {
        let last = open.len() - 1;
        match command {
            Command::Open(t) => open.push(Element::new(t)),
            Command::Character(c) => open[last].characters.push(c),
            Command::Close => {
                let closed = open.swap_remove(last);
                open[last - 1].children.push(closed);
            }
            Command::End => {}
        }
    }
    open.swap_remove(0).children.swap_remove(0)
}

/// An element by its number, in document order from 0: where it is opened, its
/// type, the numbers of its children, and its characters.
#[derive(Debug, Clone, PartialEq, Eq)]
pub struct Node {
    pub offset: usize,
    pub element_type: u8,
    pub children: Vec<usize>,
    pub characters: Vec<u8>,
}

/// The elements of a tree of right form.
pub fn nodes(bytes: &[u8]) -> Vec<Node> {
    let mut nodes: Vec<Node> = Vec::new();
    let mut open: Vec<usize> = Vec::new();
    for (offset, command) in commands(bytes) {
        match command {
            Command::Open(element_type) => {
                let number = nodes.len();
                if let Some(&parent) = open.last() {
                    nodes[parent].children.push(number);
                }
                open.push(number);
                nodes.push(Node { offset, element_type, children: Vec::new(), characters: Vec::new() });
            }
            Command::Character(character) => {
                if let Some(&text) = open.last() {
                    nodes[text].characters.push(character);
                }
            }
            Command::Close => {
                open.pop();
            }
            Command::End => {}
        }
    }
    nodes
}
