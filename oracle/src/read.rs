//! Document 01's depth-first reading of a tree, with places: a second reading beside the one in tree.rs.
use std::ops::Range;

use crate::tree::MAX_TREE;

const MAX_LEVEL: usize = 64;

/// What reading a tree tells.
#[derive(Default)]
pub struct Reading {
    /// Place of number 3, with number 4 set aside.
    pub bad: Option<usize>,
    /// Place of the first field at level 65.
    pub deep: Option<usize>,
    /// Contents of the literals that reading gets past, with number 4 set aside.
    pub literals: Vec<Range<usize>>,
    /// Most functions that stand in one another.
    pub nesting: usize,
    /// No walk emits more bytes than this.
    pub emission: usize,
}

impl Reading {
    /// Number and place of the refusal, if reading refuses.
    pub fn refused(&self) -> Option<(usize, usize)> {
        self.deep.map(|place| (4, place)).or(self.bad.map(|place| (3, place)))
    }
}

/// What a position asks for.
#[derive(Clone, Copy)]
enum Kind {
    Statement,
    Expression,
    Name,
    FunctionName,
    Tag(u8),
}

/// Where the fields of one content lie, and the field that they belong to.
struct Content {
    parent: usize,
    at: usize,
    end: usize,
    level: usize,
}

struct Reader<'a> {
    bytes: &'a [u8],
    open: usize,
    reading: Reading,
}

/// The offset at which reading refuses with number 3.
struct Bad(usize);

fn fits(kind: Kind, tag: u8) -> bool {
    match kind {
        Kind::Statement => (0x11..=0x14).contains(&tag),
        Kind::Expression => (0x20..=0x2C).contains(&tag),
        Kind::Name | Kind::FunctionName => tag == 0x30,
        Kind::Tag(t) => tag == t,
    }
}

fn own_bytes_good(kind: Kind, tag: u8, content: &[u8]) -> bool {
    match tag {
        0x20 => (1..=32).contains(&content.len()),
        0x30 => content.len() <= 32 && (matches!(kind, Kind::FunctionName) || !content.is_empty()),
        0x26 => content.len() == 8,
        0x27 => matches!(content, [0 | 1]),
        0x32 => matches!(content, [0..=9]),
        _ => true,
    }
}

impl Reader<'_> {
    /// Reads a list: fields of one kind up to the end; how many.
    fn list(&mut self, mut c: Content, kind: Kind) -> Result<usize, Bad> {
        let mut count = 0;
        while c.at < c.end {
            self.child(&mut c, kind)?;
            count += 1;
        }
        Ok(count)
    }

    /// Reads the fields that must stand here in this order, and no more.
    fn fixed(&mut self, mut c: Content, kinds: &[Kind]) -> Result<(), Bad> {
        for kind in kinds {
            self.child(&mut c, *kind)?;
        }
        self.end(&c)
    }

    fn end(&self, c: &Content) -> Result<(), Bad> {
        if c.at < c.end {
            Err(Bad(c.at))
        } else {
            Ok(())
        }
    }

    fn child(&mut self, c: &mut Content, kind: Kind) -> Result<(), Bad> {
        if c.at == c.end {
            return Err(Bad(c.parent));
        }
        c.at = self.field(c.at, c.end, kind, c.level)?;
        Ok(())
    }

    /// Reads one field whole; where the next begins.
    fn field(&mut self, at: usize, end: usize, kind: Kind, level: usize) -> Result<usize, Bad> {
        if end - at < 3 || !fits(kind, self.bytes[at]) {
            return Err(Bad(at));
        }
        let tag = self.bytes[at];
        let length = usize::from(u16::from_be_bytes([self.bytes[at + 1], self.bytes[at + 2]]));
        let (start, stop) = (at + 3, at + 3 + length);
        if stop > end || !own_bytes_good(kind, tag, &self.bytes[start..stop]) {
            return Err(Bad(at));
        }
        if matches!(tag, 0x26..=0x28) {
            self.reading.literals.push(start..stop);
        }
        if level > MAX_LEVEL && self.reading.deep.is_none() {
            self.reading.deep = Some(at);
        }
        self.reading.emission += if tag == 0x20 { 3 + 2 * self.open } else { 7 };
        self.children(tag, Content { parent: at, at: start, end: stop, level: level + 1 })?;
        Ok(stop)
    }

    fn children(&mut self, tag: u8, c: Content) -> Result<(), Bad> {
        use Kind::{Expression, FunctionName, Name, Statement, Tag};
        match tag {
            0x10 | 0x12 => self.list(c, Statement).map(|_| ()),
            0x11 | 0x14 => self.fixed(c, &[Expression]),
            0x13 => self.fixed(c, &[Name, Expression]),
            0x21 => self.fixed(c, &[Tag(0x32), Expression]),
            0x22 => self.fixed(c, &[Expression, Tag(0x32), Expression]),
            0x23 => self.branches(c),
            0x24 => {
                self.open += 1;
                self.reading.nesting = self.reading.nesting.max(self.open);
                self.fixed(c, &[FunctionName, Tag(0x31), Tag(0x12)])?;
                self.open -= 1;
                Ok(())
            }
            0x25 => {
                let mut c = c;
                self.child(&mut c, Expression)?;
                self.list(c, Expression).map(|_| ())
            }
            0x29 => self.list(c, Expression).map(|_| ()),
            0x2A => self.fixed(c, &[Expression, Expression]),
            0x2B => {
                let parent = c.parent;
                let count = self.list(c, Expression)?;
                if count % 2 == 0 {
                    Ok(())
                } else {
                    Err(Bad(parent))
                }
            }
            0x2C => self.fixed(c, &[Tag(0x31), Tag(0x12)]),
            0x31 => self.list(c, Name).map(|_| ()),
            _ => Ok(()),
        }
    }

    fn branches(&mut self, mut c: Content) -> Result<(), Bad> {
        self.child(&mut c, Kind::Expression)?;
        self.child(&mut c, Kind::Tag(0x12))?;
        if c.at < c.end {
            self.child(&mut c, Kind::Tag(0x12))?;
        }
        self.end(&c)
    }
}

/// Reads a tree.
pub fn tree(bytes: &[u8]) -> Reading {
    let mut reader = Reader { bytes, open: 0, reading: Reading::default() };
    let whole = match bytes {
        [0x10, high, low, rest @ ..] if bytes.len() <= MAX_TREE => {
            rest.len() == usize::from(u16::from_be_bytes([*high, *low]))
        }
        _ => false,
    };
    let read = if whole { reader.field(0, bytes.len(), Kind::Tag(0x10), 1).map(|_| ()) } else { Err(Bad(0)) };
    reader.reading.bad = read.err().map(|Bad(place)| place);
    reader.reading
}

/// The tree's shape: 00 for the content of each literal that reading gets past.
pub fn shape(bytes: &[u8]) -> Vec<u8> {
    let mut out = bytes.to_vec();
    for literal in tree(bytes).literals {
        out[literal].fill(0);
    }
    out
}
