//! A smaller series that still differs.
use std::time::{Duration, Instant};

use crate::node::{Body, Node};
use crate::series::Call;

/// How long fields are dropped.
const PATIENCE: Duration = Duration::from_secs(5);

/// Drops calls, then fields of the trees, as long as `differs` holds.
pub fn reduce(calls: &[Call], differs: &mut dyn FnMut(&[Call]) -> bool) -> Vec<Call> {
    let end = Instant::now() + PATIENCE;
    let mut best = calls.to_vec();
    let mut at = 0;
    while at + 1 < best.len() {
        let mut fewer = best.clone();
        fewer.remove(at);
        if differs(&fewer) {
            best = fewer;
        } else {
            at += 1;
        }
    }
    for at in (0..best.len()).rev() {
        shrink(&mut best, at, end, differs);
    }
    best
}

/// All trees that lack one field of this one.
fn smaller(tree: &Node) -> impl Iterator<Item = Node> + '_ {
    let pairs = (0..tree.count()).flat_map(move |n| (0..children(tree.clone().nth(n))).map(move |child| (n, child)));
    pairs.map(move |(n, child)| {
        let mut copy = tree.clone();
        if let Some(Node { body: Body::Children(list), .. }) = copy.nth(n) {
            list.remove(child);
        }
        copy
    })
}

fn children(node: Option<&mut Node>) -> usize {
    match node {
        Some(Node { body: Body::Children(list), .. }) => list.len(),
        _ => 0,
    }
}

fn shrink(best: &mut Vec<Call>, at: usize, end: Instant, differs: &mut dyn FnMut(&[Call]) -> bool) {
    'again: while let Some(tree) = Node::parse(&best[at].tree) {
        for candidate in smaller(&tree) {
            let mut fewer = best.clone();
            fewer[at].tree = candidate.bytes();
            if differs(&fewer) {
                *best = fewer;
                continue 'again;
            }
            if Instant::now() > end {
                return;
            }
        }
        return;
    }
}
