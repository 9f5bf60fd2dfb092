//! Stack heights by a small machine: it goes every way from a chunk's start, by what the book's machine takes and gives; images to try it on.
use crate::image;
use crate::random::Random;
use crate::vm::opcode::Opcode;

/// An instruction: its offset in the chunk, its byte, its operands.
struct Instruction {
    at: usize,
    op: u8,
    operand: usize,
    captures: usize,
    next: usize,
}

/// What an instruction takes and gives.
fn effect(i: &Instruction) -> (usize, usize) {
    match i.op {
        0x00 | 0x06 | 0x07 | 0x0F | 0x10 | 0x18 | 0x1A | 0x1C | 0x1D => (0, 1),
        0x01 | 0x03 | 0x04 | 0x05 | 0x08 | 0x09 | 0x0A | 0x14 => (2, 1),
        0x0B | 0x0C => (1, 1),
        0x02 | 0x0D | 0x11 | 0x19 | 0x16 => (1, 0),
        0x12 | 0x13 => (i.operand, 1),
        0x15 => (i.operand + 1, 1),
        0x1B => (i.captures, 1),
        _ => (0, 0),
    }
}

/// Where it goes on: at the next instruction, at its target.
fn flow(op: u8) -> (bool, bool) {
    match op {
        0x0D => (true, true),
        0x0E => (false, true),
        0x16 | 0x17 => (false, false),
        _ => (true, false),
    }
}

fn decode(code: &[u8]) -> Vec<Instruction> {
    let mut all = Vec::new();
    let mut at = 0;
    while at < code.len() {
        let size = Opcode::try_from(&code[at..]).expect("a sound image").readsize();
        let byte = |k: usize| if k <= size { usize::from(code[at + k]) } else { 0 };
        let operand = if size >= 2 { byte(1) * 256 + byte(2) } else { byte(1) };
        all.push(Instruction { at, op: code[at], operand, captures: byte(3), next: at + 1 + size });
        at += 1 + size;
    }
    all
}

/// A chunk: its place, its instructions, how many come before it, its length in bytes.
struct Chunk {
    place: usize,
    code: Vec<Instruction>,
    first: usize,
    length: usize,
}

fn chunks(image: &[u8]) -> Vec<Chunk> {
    let length = |at: usize| usize::from(u16::from_be_bytes([image[at + 1], image[at + 2]]));
    let mut parts = vec![(0, &image[3..3 + length(0)])];
    let (mut at, mut index) = (6 + length(0), 0);
    while at < image.len() {
        let end = at + 3 + length(at);
        if image[at] == 0x62 {
            parts.push((index + 1, &image[at + 6..end]));
        }
        (at, index) = (end, index + 1);
    }
    let mut first = 0;
    let mut all = Vec::new();
    for (place, bytes) in parts {
        let code = decode(bytes);
        let count = code.len();
        all.push(Chunk { place, code, first, length: bytes.len() });
        first += count;
    }
    all
}

impl Chunk {
    fn index(&self, at: usize) -> Option<usize> {
        self.code.binary_search_by_key(&at, |i| i.at).ok()
    }

    /// Every jump goes to a later instruction.
    fn jumps_land(&self) -> bool {
        self.code.iter().all(|i| !flow(i.op).1 || i.operand > i.at && self.index(i.operand).is_some())
    }

    /// The height of each instruction that is reached; nothing if two meet, one takes too much, or the end is reached as it must not be.
    fn heights(&self) -> Option<Vec<Option<usize>>> {
        if !self.jumps_land() {
            return None;
        }
        let mut found = vec![None; self.code.len()];
        let mut ways = vec![(0_usize, 0_usize)];
        while let Some((at, height)) = ways.pop() {
            if at == self.length {
                if self.place > 0 || height > 0 {
                    return None;
                }
                continue;
            }
            let k = self.index(at)?;
            match found[k] {
                Some(other) if other == height => continue,
                Some(_) => return None,
                None => found[k] = Some(height),
            }
            let i = &self.code[k];
            let (takes, gives) = effect(i);
            let after = height.checked_sub(takes)? + gives;
            let (falls, leaps) = flow(i.op);
            if falls {
                ways.push((i.next, after));
            }
            if leaps {
                ways.push((i.operand, after));
            }
        }
        Some(found)
    }
}

/// What an image and a list of heights answer: the greatest heights, or the number and place of a refusal before 15.
pub fn check(image: &[u8], offered: &[u32]) -> Result<Vec<u32>, (usize, usize)> {
    image::check(image).map_err(|image::Wrong(place)| (17, place))?;
    let mut tops = Vec::new();
    for chunk in chunks(image) {
        let bad = (25, chunk.place);
        let numbers = offered.get(chunk.first..chunk.first + chunk.code.len());
        let numbers = if chunk.code.is_empty() { &[][..] } else { numbers.ok_or(bad)? };
        let heights = chunk.heights().ok_or(bad)?;
        let pairs = || heights.iter().zip(numbers);
        if pairs().any(|(h, n)| h.is_some_and(|h| h as u64 != u64::from(*n))) {
            return Err(bad);
        }
        tops.push(heights.iter().flatten().max().map_or(0, |h| *h as u32));
    }
    Ok(tops)
}

/// The heights of a sound image, nothing where an instruction is not reached; `true` if all chunks pass with them.
pub fn all(image: &[u8]) -> (Vec<Option<u32>>, bool) {
    let mut list = Vec::new();
    let mut pass = true;
    for chunk in chunks(image) {
        let heights = chunk.heights();
        pass &= heights.is_some();
        let heights = heights.unwrap_or_else(|| vec![None; chunk.code.len()]);
        list.extend(heights.into_iter().map(|h| h.map(|h| h as u32)));
    }
    (list, pass)
}

/// One instruction, most often one that takes no more than is there; the target of a jump comes later.
fn instruction(random: &mut Random, height: usize) -> Vec<u8> {
    let n = random.below(height.min(255) + 1) as u8;
    match random.below(if height < 2 { 6 } else { 12 }) {
        0 => vec![0x00, 0, random.below(3) as u8],
        1 | 2 => vec![*random.pick(&[0x06, 0x07, 0x0F, 0x1D])],
        3 => vec![*random.pick(&[0x18, 0x1A, 0x1C]), random.below(4) as u8],
        4 => vec![0x10, 0, random.below(4) as u8],
        5 => vec![*random.pick(&[0x02, 0x0B, 0x0C])],
        6 => vec![*random.pick(&[0x01, 0x03, 0x04, 0x05, 0x08, 0x09, 0x0A, 0x14])],
        7 => vec![*random.pick(&[0x12, 0x13]), 0, n],
        8 => vec![0x1B, 0, 0, n],
        9 => vec![0x15, n.saturating_sub(1)],
        10 => random.pick(&[vec![0x11, 0, 0], vec![0x19, 0], vec![0x16], vec![0x17]]).clone(),
        _ => vec![*random.pick(&[0x0D, 0x0D, 0x0E]), 0xFF, 0xFF],
    }
}

/// Appends it, if it takes no more than is there, or now and then all the same.
fn push(code: &mut Vec<u8>, random: &mut Random, height: &mut usize) {
    let bytes = instruction(random, *height);
    let i = &decode(&bytes)[0];
    let (takes, gives) = effect(i);
    if takes <= *height || random.often(20) {
        if flow(i.op) != (false, false) {
            *height = height.saturating_sub(takes) + gives;
        }
        code.extend(bytes);
    }
}

/// Code of some instructions, most often level, whose jumps go to a later one, most often.
fn code(random: &mut Random, function: bool) -> Vec<u8> {
    let mut code = Vec::new();
    let mut height = 0;
    for _ in 0..random.below(12) {
        push(&mut code, random, &mut height);
    }
    while height > 0 && random.often(950) {
        code.push(0x02);
        height -= 1;
    }
    if function && random.often(900) {
        code.push(0x17);
    }
    let starts: Vec<_> = decode(&code).iter().map(|i| (i.at, i.op)).collect();
    for (at, op) in &starts {
        if matches!(op, 0x0D | 0x0E) {
            let later: Vec<_> = starts.iter().map(|(to, _)| *to).filter(|to| to > at).collect();
            let to = match random.below(40) {
                0 => random.below(code.len() + 2),
                _ if later.is_empty() => code.len(),
                _ => *random.pick(&later),
            };
            code[at + 1..at + 3].copy_from_slice(&(to as u16).to_be_bytes());
        }
    }
    code
}

fn field(tag: u8, content: &[u8]) -> Vec<u8> {
    let mut bytes = vec![tag];
    bytes.extend((content.len() as u16).to_be_bytes());
    bytes.extend(content);
    bytes
}

/// A random image: main, and up to three constants.
pub fn random_image(random: &mut Random) -> Vec<u8> {
    let main = field(0x50, &code(random, false));
    let mut pool = Vec::new();
    for _ in 0..random.below(4) {
        pool.extend(match random.below(4) {
            0 => field(0x60, &[0, 0, 0, 0, 0, 0, 0, 5]),
            1 => field(0x61, b"s"),
            _ => field(0x62, &[&[0, 1, 0][..], &code(random, true)].concat()),
        });
    }
    [main, field(0x51, &pool)].concat()
}

/// A list to offer: the heights, something where nothing is reached; now and then one changed, one too few, some more.
pub fn list(heights: &[Option<u32>], random: &mut Random) -> Vec<u32> {
    let other = |random: &mut Random| *random.pick(&[0, 1, 2, 7, u32::MAX]);
    let mut list: Vec<_> = heights.iter().map(|h| h.unwrap_or_else(|| other(random))).collect();
    match random.below(5) {
        0 if !list.is_empty() => {
            let at = random.below(list.len());
            list[at] = other(random);
        }
        1 if !list.is_empty() => list.truncate(random.below(list.len())),
        2 => list.extend([3, u32::MAX]),
        _ => {}
    }
    list
}
