//! Random series: how many trees, which of them damaged, what is lent.
use crate::damage;
use crate::edges;
use crate::generate::{name, Grammar, Style};
use crate::node::{Body, Node};
use crate::port::{CODE_SIZE, SESSION_SIZE, TABLE_SIZE};
use crate::random::Random;
use crate::reference::{listed, six, Words};
use crate::series::{Call, Lending, Series};

/// The random numbers of the series with this number.
pub fn numbered(seed: u64, number: u64) -> Random {
    let mut random = Random::new(seed);
    let mixed = random.next() ^ number.wrapping_mul(0x2545_f491_4f6c_dd1d);
    Random::new(mixed)
}

fn lending(random: &mut Random) -> Lending {
    let mut lending = Lending { fill: random.next() as u8, ..Lending::FULL };
    if random.often(300) {
        lending.dirt = random.next() as u8;
    }
    match random.below(60) {
        0 => lending.output = random.below(200),
        1 => lending.output = random.below(5),
        2 => lending.session = SESSION_SIZE + random.below(64),
        3 => lending.code = CODE_SIZE + random.below(64),
        4 => lending.table = TABLE_SIZE + random.below(64),
        5 if random.often(100) => lending.session = SESSION_SIZE - random.between(1, 9),
        5 if random.often(100) => lending.code = CODE_SIZE - random.between(1, 9),
        5 if random.often(100) => lending.table = TABLE_SIZE - random.between(1, 9),
        _ => {}
    }
    lending
}

/// Puts a statement near a boundary somewhere among a program's.
fn insert_edge(tree: &mut Node, random: &mut Random) {
    if let Body::Children(statements) = &mut tree.body {
        let at = random.below(statements.len() + 1);
        statements.insert(at, edges::near(random));
    }
}

/// The words of a session: document 01's, in two fields or in three; or up to 24 that trees use as names, or of any bytes.
pub fn words(random: &mut Random) -> Words {
    match random.below(10) {
        0..=4 => return None,
        5 => return Some(six()),
        _ => {}
    }
    let count = *random.pick(&[0, 1, 2, 3, 6, 12, 24]);
    let mut list = Vec::new();
    while list.len() < count {
        let length = *random.pick(&[1, 2, 31, 32]);
        let word = if random.often(150) { random.bytes(length) } else { name(random.below(40)) };
        if !list.contains(&word) {
            list.push(word);
        }
    }
    Some(list)
}

/// A series of sound and damaged trees over one session of these words.
pub fn series(random: &mut Random, words: &Words) -> Series {
    let count = if random.often(20) { random.between(10, 60) } else { random.between(1, 6) };
    let damaged = *random.pick(&[0, 0, 150, 400]);
    let mut globals = Vec::new();
    let mut calls = Vec::new();
    let mut last: Option<Node> = None;
    for _ in 0..count {
        let repeated = last.take().filter(|_| random.often(damaged));
        let tree = repeated.unwrap_or_else(|| {
            let style = Style::random(random);
            let (mut tree, names) = Grammar::new(random, style, std::mem::take(&mut globals), listed(words)).program();
            globals = names;
            if random.often(20) {
                insert_edge(&mut tree, random);
            }
            tree
        });
        let bytes = if random.often(damaged) { damage::damaged(&tree, random) } else { tree.bytes() };
        calls.push(Call { tree: bytes, lending: lending(random) });
        last = Some(tree);
    }
    Series { words: words.clone(), calls }
}
