//! Documents as the page writes them.
//!
//! A document is `none`, or a row of terms with blanks between them:
//!
//! | Term | Stands for |
//! |---|---|
//! | `3F` | a byte |
//! | `patch.tree` | a document of an earlier case |
//! | `patch.tree[4..9]` | its bytes from offset 4 up to before offset 9 |
//! | `patch.tree[4..]` | its bytes from offset 4 on |
//! | `( 30 00 ) x128` | what stands in the parentheses, 128 times |

use std::collections::BTreeMap;

/// The documents of earlier cases, by name.
pub type Named = BTreeMap<String, Vec<u8>>;

/// The most bytes that a repetition may give.
const MOST_REPEATED: usize = 100_000;

/// The bytes that a text stands for.
pub fn bytes_of(text: &str, named: &Named) -> Result<Vec<u8>, String> {
    if text == "none" {
        return Ok(Vec::new());
    }
    let spaced = text.replace('(', " ( ").replace(')', " ) ");
    let words: Vec<&str> = spaced.split_whitespace().collect();
    if words.is_empty() {
        return Err("nothing stands here; an empty document is written 'none'".to_string());
    }
    Terms { words: words.into_iter(), named }.row(false)
}

/// The byte that a word stands for: two digits, letters in upper case.
pub fn byte_of(word: &str) -> Option<u8> {
    let digits = word.len() == 2 && word.bytes().all(|digit| matches!(digit, b'0'..=b'9' | b'A'..=b'F'));
    if digits {
        u8::from_str_radix(word, 16).ok()
    } else {
        None
    }
}

/// The words still to be read.
struct Terms<'a> {
    words: std::vec::IntoIter<&'a str>,
    named: &'a Named,
}

impl Terms<'_> {
    /// Reads terms to the end of the words, or inside parentheses to the `)`.
    fn row(&mut self, inside: bool) -> Result<Vec<u8>, String> {
        let mut bytes = Vec::new();
        while let Some(word) = self.words.next() {
            match word {
                ")" if inside => return Ok(bytes),
                "(" => bytes.extend(self.repeated()?),
                _ => bytes.extend(self.single(word)?),
            }
        }
        match inside {
            true => Err("a ( without its )".to_string()),
            false => Ok(bytes),
        }
    }

    /// Reads what stands behind a `(`, and how many times it is meant.
    fn repeated(&mut self) -> Result<Vec<u8>, String> {
        let once = self.row(true)?;
        let times = self.words.next().and_then(|word| word.strip_prefix('x')?.parse::<usize>().ok());
        let times = times.ok_or("behind a ) stands how many times, such as x12")?;
        match once.len().checked_mul(times) {
            Some(length) if length <= MOST_REPEATED => Ok(once.repeat(times)),
            _ => Err(format!("more than {MOST_REPEATED} bytes")),
        }
    }

    /// The bytes of a word: one byte, a named document or a part of one.
    fn single(&self, word: &str) -> Result<Vec<u8>, String> {
        if let Some(byte) = byte_of(word) {
            return Ok(vec![byte]);
        }
        let (name, part) = word.split_once('[').unwrap_or((word, "0..]"));
        let document = self.named.get(name).ok_or(format!("'{name}' is no byte and no earlier document"))?;
        let bytes = part_of(document, part);
        Ok(bytes.ok_or(format!("{word}: no such part of {} bytes", document.len()))?.to_vec())
    }
}

/// The part of a document that `4..9]` or `4..]` says.
fn part_of<'a>(document: &'a [u8], part: &str) -> Option<&'a [u8]> {
    let (start, end) = part.strip_suffix(']')?.split_once("..")?;
    let end = if end.is_empty() { document.len() } else { end.parse().ok()? };
    document.get(start.parse().ok()?..end)
}
