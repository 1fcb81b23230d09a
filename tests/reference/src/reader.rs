//! Reading commands one after the other, for the form check (refusal 2).
//!
//! A reading that fails gives the offset to be marked: that of a command that
//! can't stand there or whose operand is missing, or the length where the
//! bytes run out between commands.

/// An operand with the offset of its command.
#[derive(Debug, Clone, Copy, PartialEq, Eq)]
pub struct Operand {
    pub offset: usize,
    pub value: u8,
}

/// The bytes of a document and the offset of the next command.
pub struct Reader<'a> {
    bytes: &'a [u8],
    pub offset: usize,
}

impl<'a> Reader<'a> {
    /// Starts at offset 0.
    pub fn new(bytes: &'a [u8]) -> Reader<'a> {
        Reader { bytes, offset: 0 }
    }

    /// The byte of the next command, if any byte is left.
    pub fn peek(&self) -> Option<u8> {
        self.bytes.get(self.offset).copied()
    }

    /// Reads a command without operand and gives its offset.
    pub fn bare(&mut self, code: u8) -> Result<usize, usize> {
        if self.peek() != Some(code) {
            return Err(self.offset);
        }
        self.offset += 1;
        Ok(self.offset - 1)
    }

    /// Reads a command with an operand of any value.
    pub fn with_operand(&mut self, code: u8) -> Result<Operand, usize> {
        let offset = self.offset;
        match (self.peek(), self.bytes.get(offset + 1)) {
            (Some(byte), Some(&value)) if byte == code => {
                self.offset += 2;
                Ok(Operand { offset, value })
            }
            _ => Err(offset),
        }
    }

    /// Reads the last command; no byte may follow it.
    pub fn end(&mut self, code: u8) -> Result<(), usize> {
        self.bare(code)?;
        if self.offset < self.bytes.len() {
            return Err(self.offset);
        }
        Ok(())
    }
}
