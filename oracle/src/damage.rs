//! Damaged copies of trees: bytes and fields changed, cut, inserted, exchanged.
use crate::node::{self, Body, Node};
use crate::random::Random;

const TAGS: [u8; 26] = [
    0x10, 0x11, 0x12, 0x13, 0x14, 0x20, 0x21, 0x22, 0x23, 0x24, 0x25, 0x26, 0x27, 0x28, 0x29, 0x2A, 0x2B, 0x2C, 0x2D,
    0x30, 0x31, 0x32, 0x33, 0x00, 0x40, 0xFF,
];

/// A damaged copy of a tree.
pub fn damaged(tree: &Node, random: &mut Random) -> Vec<u8> {
    if random.often(500) {
        let mut copy = tree.clone();
        for _ in 0..random.between(1, 2) {
            change_field(&mut copy, random);
        }
        return copy.bytes();
    }
    let mut bytes = tree.bytes();
    for _ in 0..random.between(1, 3) {
        change_bytes(&mut bytes, random);
    }
    bytes
}

/// Offsets of the fields' heads, as far as the bytes can be read.
fn heads(bytes: &[u8]) -> Vec<usize> {
    let mut found = Vec::new();
    let mut at = 0;
    while at + 3 <= bytes.len() {
        found.push(at);
        let length = usize::from(u16::from_be_bytes([bytes[at + 1], bytes[at + 2]]));
        let has_bytes = matches!(bytes[at], 0x20 | 0x26..=0x28 | 0x30 | 0x32);
        at += if has_bytes { 3 + length } else { 3 };
    }
    found
}

fn change_bytes(bytes: &mut Vec<u8>, random: &mut Random) {
    if bytes.is_empty() {
        return;
    }
    let at = random.below(bytes.len());
    let heads = heads(bytes);
    match (random.below(9), heads.is_empty()) {
        (0, _) => bytes[at] = random.next() as u8,
        (1, _) => bytes[at] = *random.pick(&TAGS),
        (2, _) => bytes[at] = bytes[at].wrapping_add(*random.pick(&[1, 255])),
        (3, _) => bytes.truncate(at),
        (4, _) => bytes.insert(at, *random.pick(&TAGS)),
        (5, _) => drop(bytes.remove(at)),
        (6, false) => {
            let (a, b) = (*random.pick(&heads), *random.pick(&heads));
            bytes.swap(a + 1, b + 1);
            bytes.swap(a + 2, b + 2);
        }
        (7, false) => {
            let low = *random.pick(&heads) + 2;
            bytes[low] = bytes[low].wrapping_add(*random.pick(&[1, 2, 3, 253, 254, 255]));
        }
        _ => bytes.extend(random.bytes(2)),
    }
}

/// A field of any tag, most often a sound one.
fn any_field(random: &mut Random) -> Node {
    match random.below(8) {
        0 => node::integer(5),
        1 => node::string(b"s"),
        2 => node::block(Vec::new()),
        3 => node::identifier(b"a"),
        4 => node::leaf(0x30, b"a"),
        5 => node::leaf(0x32, &[random.below(12) as u8]),
        6 => node::params(&[b"a".to_vec()]),
        _ => node::leaf(*random.pick(&TAGS), &random.bytes(2)),
    }
}

fn change_leaf(bytes: &mut Vec<u8>, random: &mut Random) {
    match random.below(5) {
        0 => bytes.clear(),
        1 => drop(bytes.pop()),
        2 => bytes.push(random.next() as u8),
        3 => bytes.resize(*random.pick(&[1, 32, 33, 8, 7]), 0x61),
        _ => bytes.iter_mut().for_each(|b| *b = random.next() as u8),
    }
}

fn change_children(children: &mut Vec<Node>, random: &mut Random) {
    let count = children.len();
    let at = random.below(count + 1);
    match random.below(5) {
        0 => children.insert(at, any_field(random)),
        _ if at == count => children.push(any_field(random)),
        1 => drop(children.remove(at)),
        2 => children.insert(at, children[at].clone()),
        3 => children.swap(at, count - 1),
        _ => children[at] = any_field(random),
    }
}

/// Changes one field; the lengths around it are made to fit.
fn change_field(tree: &mut Node, random: &mut Random) {
    let at = random.below(tree.count());
    let Some(field) = tree.nth(at) else { return };
    match (&mut field.body, random.below(6)) {
        (_, 0) => field.tag = *random.pick(&TAGS),
        (_, 1) => field.tag = field.tag.wrapping_add(1),
        (Body::Bytes(bytes), _) => change_leaf(bytes, random),
        (Body::Children(children), _) => change_children(children, random),
    }
}
