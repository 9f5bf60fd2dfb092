//! Document 01's reading of images and sessions; instructions are decoded by the Rust.
use std::ops::Range;

use crate::vm::opcode::Opcode;

const MAX_CODE: usize = 32_768;
const MAX_POOL: usize = 28_672;
const MAX_CONSTANTS: usize = 4_096;
const MAX_NAMES: usize = 1_024;
const MAX_WORDS: usize = 24;

/// The offset of the first wrong field or instruction.
pub struct Wrong(pub usize);

struct Reader<'a> {
    bytes: &'a [u8],
    at: usize,
    /// Offsets of the literal bytes.
    literals: Vec<usize>,
}

impl Reader<'_> {
    /// The content's end of the field that stands here with one of these tags and at most this length.
    fn head(&self, tags: &[u8], end: usize, limit: usize) -> Result<usize, Wrong> {
        let [tag, high, low, ..] = self.bytes[self.at..end] else { return Err(Wrong(self.at)) };
        let length = usize::from(u16::from_be_bytes([high, low]));
        let stop = self.at + 3 + length;
        if tags.contains(&tag) && length <= limit && stop <= end {
            Ok(stop)
        } else {
            Err(Wrong(self.at))
        }
    }

    fn code(&mut self, start: usize, end: usize) -> Result<(), Wrong> {
        let mut at = start;
        while at < end {
            let Ok(opcode) = Opcode::try_from(&self.bytes[at..end]) else { return Err(Wrong(at)) };
            if matches!(opcode, Opcode::True(_) | Opcode::False(_)) {
                self.literals.push(at);
            }
            at += 1 + opcode.readsize();
        }
        Ok(())
    }

    /// Name fields up to an end, at most so many.
    fn names(&mut self, end: usize, most: usize) -> Option<Vec<&[u8]>> {
        let mut list = Vec::new();
        while self.at < end {
            let stop = self.head(&[0x30], end, 32).ok()?;
            list.push(&self.bytes[self.at + 3..stop]);
            if stop == self.at + 3 || list.len() > most {
                return None;
            }
            self.at = stop;
        }
        Some(list)
    }

    /// Words up to an end: names of which none stands twice.
    fn words(&mut self, end: usize) -> Option<()> {
        let list = self.names(end, MAX_WORDS)?;
        let repeated = (0..list.len()).any(|k| list[..k].contains(&list[k]));
        (!repeated).then_some(())
    }

    fn pool(&mut self) -> Result<(), Wrong> {
        let end = self.head(&[0x51], self.bytes.len(), MAX_POOL)?;
        self.at += 3;
        let mut count = 0;
        while self.at < end {
            let stop = self.head(&[0x60, 0x61, 0x62], end, MAX_POOL)?;
            let (tag, start) = (self.bytes[self.at], self.at + 3);
            count += 1;
            let length_good = match tag {
                0x60 => stop - start == 8,
                0x62 => stop - start >= 3,
                _ => true,
            };
            if !length_good || count > MAX_CONSTANTS {
                return Err(Wrong(self.at));
            }
            if tag == 0x62 {
                self.code(start + 3, stop)?;
            } else {
                self.literals.extend(start..stop);
            }
            self.at = stop;
        }
        Ok(())
    }
}

/// Checks an image; the offsets of its literal bytes.
pub fn check(image: &[u8]) -> Result<Vec<usize>, Wrong> {
    let mut reader = Reader { bytes: image, at: 0, literals: Vec::new() };
    let end = reader.head(&[0x50], image.len(), MAX_CODE)?;
    reader.code(3, end)?;
    reader.at = end;
    reader.pool()?;
    if reader.at < image.len() {
        Err(Wrong(reader.at))
    } else {
        Ok(reader.literals)
    }
}

/// Reads bytes that are handed over as words: nothing where they are none.
pub fn handed(bytes: &[u8]) -> Option<()> {
    Reader { bytes, at: 0, literals: Vec::new() }.words(bytes.len())
}

/// Reads a session's 65,536 bytes: the pool's field, and the offsets of the literal bytes; or nothing where the layout is broken.
pub fn session(bytes: &[u8]) -> Option<(Range<usize>, Vec<usize>)> {
    let mut reader = Reader { bytes, at: 0, literals: Vec::new() };
    if bytes.first() == Some(&0x42) {
        let end = reader.head(&[0x42], bytes.len(), usize::MAX).ok()?;
        reader.at = 3;
        reader.words(end)?;
    }
    let end = reader.head(&[0x40], bytes.len(), usize::MAX).ok()?;
    reader.at += 3;
    reader.names(end, MAX_NAMES)?;
    reader.pool().ok()?;
    let zeros = bytes[reader.at..].iter().all(|b| *b == 0);
    zeros.then_some((end..reader.at, reader.literals))
}
