//! Short trees, all of them: byte strings over a small alphabet, and sound trees of few fields.
use crate::node::{self, Node};

/// Tags and small lengths.
const ALPHABET: [u8; 24] = [
    0x00, 0x01, 0x02, 0x03, 0x04, 0x05, 0x06, 0x07, 0x09, 0x10, 0x11, 0x12, 0x13, 0x14, 0x20, 0x21, 0x23, 0x27, 0x28,
    0x29, 0x2B, 0x30, 0x31, 0x32,
];

/// The heads in front of the enumerated bytes; each one's lengths are made to fit.
const HEADS: [&[u8]; 5] = [&[], &[0x10], &[0x10, 0x11], &[0x10, 0x11, 0x29], &[0x10, 0x11, 0x24]];

const LONGEST: usize = 4;

fn with_heads(heads: &[u8], content: &[u8]) -> Vec<u8> {
    let mut bytes = content.to_vec();
    for head in heads.iter().rev() {
        let length = bytes.len() as u16;
        let [high, low] = length.to_be_bytes();
        bytes.splice(0..0, [*head, high, low]);
    }
    bytes
}

/// All strings up to four bytes over the alphabet, behind each of the heads; every `step`th of them.
pub fn strings(step: usize) -> impl Iterator<Item = Vec<u8>> {
    let of_length = |length: u32| (0..ALPHABET.len().pow(length)).map(move |number| (length, number));
    let all = (0..=LONGEST as u32).flat_map(of_length);
    let placed = HEADS.iter().flat_map(move |heads| all.clone().map(move |(length, number)| (*heads, length, number)));
    placed.step_by(step).map(|(heads, length, mut number)| {
        let mut content = Vec::new();
        for _ in 0..length {
            content.push(ALPHABET[number % ALPHABET.len()]);
            number /= ALPHABET.len();
        }
        with_heads(heads, &content)
    })
}

/// A branch that yields a value; it is not counted, and neither is a condition that is a literal.
fn value() -> Vec<Node> {
    vec![node::expr_stmt(node::boolean(true))]
}

/// All expressions of just this many statements and expressions.
fn expressions(size: usize) -> Vec<Node> {
    if size == 0 {
        return Vec::new();
    }
    if size == 1 {
        let leaves = [node::identifier(b"a"), node::identifier(b"b"), node::boolean(true), node::integer(1)];
        let empty =
            [node::array(Vec::new()), node::function(b"", &[], Vec::new()), node::function(b"a", &[], Vec::new())];
        return leaves.into_iter().chain(empty).collect();
    }
    let mut all = Vec::new();
    for inner in expressions(size - 1) {
        all.push(node::prefix(2, inner.clone()));
        all.push(node::call(inner.clone(), Vec::new()));
        all.push(node::if_expr(inner.clone(), Vec::new(), None));
        all.push(node::if_expr(inner, value(), Some(value())));
    }
    for body in lists(size - 1) {
        all.push(node::function(b"", &[], body.clone()));
        all.push(node::function(b"a", &[b"b".to_vec()], body.clone()));
        all.push(node::if_expr(node::boolean(true), body.clone(), None));
        all.push(node::if_expr(node::boolean(false), value(), Some(body)));
    }
    for left in 1..size - 1 {
        for (a, b) in
            expressions(left).iter().flat_map(|a| expressions(size - 1 - left).into_iter().map(move |b| (a, b)))
        {
            all.push(node::infix(a.clone(), 1, b.clone()));
            all.push(node::infix(a.clone(), 8, b.clone()));
            all.push(node::call(a.clone(), vec![b]));
        }
    }
    all
}

fn statements(size: usize) -> Vec<Node> {
    if size == 0 {
        return Vec::new();
    }
    let mut all = Vec::new();
    if size == 1 {
        all.push(node::block(Vec::new()));
    }
    for e in expressions(size - 1) {
        all.push(node::expr_stmt(e.clone()));
        all.push(node::let_stmt(b"a", e.clone()));
        all.push(node::return_stmt(e));
    }
    all
}

/// All lists of statements of just this many statements and expressions.
fn lists(size: usize) -> Vec<Vec<Node>> {
    if size == 0 {
        return vec![Vec::new()];
    }
    let mut all = Vec::new();
    for first in 1..=size {
        let rests = lists(size - first);
        for statement in statements(first) {
            all.extend(rests.iter().map(|rest| [vec![statement.clone()], rest.clone()].concat()));
        }
    }
    all
}

/// All sound trees of up to this many statements and expressions, over a few names, literals and operators.
pub fn trees(size: usize) -> impl Iterator<Item = Vec<u8>> {
    (0..=size).flat_map(lists).map(|statements| node::program(statements).bytes())
}
