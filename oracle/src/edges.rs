//! The boundaries of document 01: series whose last tree is just inside or just outside a limit.
use crate::node::{self, Node};
use crate::random::Random;

/// What the last call of a series must answer: `Some(number)` for a refusal.
#[derive(Clone)]
pub struct Edge {
    pub name: String,
    pub trees: Vec<Vec<u8>>,
    pub number: Option<usize>,
    /// Just inside or just outside.
    pub sharp: bool,
}

fn edge(name: String, trees: Vec<Node>, number: Option<usize>) -> Edge {
    Edge { name, trees: trees.iter().map(Node::bytes).collect(), number, sharp: true }
}

/// One tree, refused with the number where `count` passes `most`.
fn counted(name: &str, count: usize, most: usize, number: usize, statements: Vec<Node>) -> Edge {
    let refused = (count > most).then_some(number);
    let sharp = count == most || count == most + 1;
    Edge { sharp, ..edge(format!("{name} {count}"), vec![node::program(statements)], refused) }
}

/// Names of two letters.
fn names(count: usize) -> Vec<Vec<u8>> {
    (0..count).map(|n| vec![b'a' + (n / 26) as u8 % 26, b'a' + (n % 26) as u8]).collect()
}

fn empty() -> Node {
    node::array(Vec::new())
}

fn lets(names: &[Vec<u8>]) -> Vec<Node> {
    names.iter().map(|n| node::let_stmt(n, empty())).collect()
}

/// A branch that yields a value.
fn value() -> Vec<Node> {
    vec![node::expr_stmt(node::boolean(true))]
}

fn uses(names: &[Vec<u8>]) -> Node {
    node::expr_stmt(node::array(names.iter().map(|n| node::identifier(n)).collect()))
}

fn function(params: &[Vec<u8>], body: Vec<Node>) -> Node {
    node::expr_stmt(node::function(b"", params, body))
}

fn locals() -> Vec<Edge> {
    let mut all = Vec::new();
    for count in [255, 256, 257, 258] {
        let body = lets(&names(count));
        all.push(counted("locals", count, 256, 9, vec![function(&[], body)]));
        let body = lets(&vec![b"a".to_vec(); count]);
        all.push(counted("locals of one name", count, 256, 9, vec![function(&[], body)]));
        let body = lets(&names(count - 200));
        all.push(counted("parameters and locals", count, 256, 9, vec![function(&names(200), body)]));
    }
    all
}

/// A function that captures so many names, from two functions around it.
fn capturing(count: usize) -> Node {
    let own = names(count);
    let (low, high) = own.split_at(130);
    function(low, vec![function(high, vec![function(&[], vec![uses(&own)])])])
}

fn captures() -> Vec<Edge> {
    let mut all = Vec::new();
    for count in [254, 255, 256, 257] {
        all.push(counted("captures from two levels", count, 255, 10, vec![capturing(count)]));
        let own = names(count);
        let (low, high) = own.split_at(130);
        let inner = function(&[], vec![uses(low), function(&[], vec![uses(high)])]);
        let body = lets(&own).into_iter().chain([inner]).collect();
        let number = if count > 256 { 9 } else { 10 };
        all.push(counted("captures of a table crossed", count, 255, number, vec![function(&[], body)]));
    }
    all
}

fn arguments() -> Vec<Edge> {
    let mut all = Vec::new();
    for count in [254, 255, 256, 257] {
        let call = node::call(empty(), vec![empty(); count]);
        all.push(counted("arguments", count, 255, 8, vec![node::expr_stmt(call)]));
        all.push(counted("parameters", count, 255, 8, vec![function(&names(count), Vec::new())]));
    }
    all
}

/// An array, a prefix, a block or a branch around the next, up to a leaf at this level.
fn nested(kind: usize, levels: usize) -> Node {
    let mut inner = node::expr_stmt(node::boolean(true));
    let mut level = 3;
    while level < levels {
        let expr = match inner.body {
            node::Body::Children(ref mut c) => c.remove(0),
            node::Body::Bytes(_) => unreachable!("a statement has a child"),
        };
        let (expr, added) = match kind {
            0 => (node::array(vec![expr]), 1),
            1 => (node::prefix(3, expr), 1),
            2 => (node::index(expr, node::integer(1)), 1),
            3 if level > 4 => (node::if_expr(expr, value(), None), 1),
            4 if level + 3 <= levels => (node::if_expr(empty(), vec![node::expr_stmt(expr)], None), 3),
            _ => (node::call(expr, Vec::new()), 1),
        };
        (inner, level) = (node::expr_stmt(expr), level + added);
    }
    inner
}

fn levels() -> Vec<Edge> {
    let mut all = Vec::new();
    for count in [62, 63, 64, 65, 66, 200, 2000] {
        for kind in 0..5 {
            all.push(counted(&format!("levels of kind {kind}"), count, 64, 4, vec![nested(kind, count)]));
        }
    }
    all
}

fn constants() -> Vec<Edge> {
    let strings = |count| vec![node::expr_stmt(node::array(vec![node::string(b""); count]))];
    let mut all = Vec::new();
    for count in [4095, 4096, 4097] {
        all.push(counted("empty strings", count, 4096, 12, strings(count)));
        let series = [4000, count - 4000].map(|n| node::program(strings(n))).to_vec();
        all.push(edge(format!("empty strings over a series {count}"), series.clone(), (count > 4096).then_some(12)));
        let then_none = [series, vec![node::program(strings(0))]].concat();
        all.push(edge(format!("empty strings over a series, then none {count}"), then_none, None));
    }
    for bytes in [28_671, 28_672, 28_673] {
        let content = vec![0xAA; bytes - 3];
        all.push(counted("pool bytes", bytes, 28_672, 12, vec![node::expr_stmt(node::string(&content))]));
        let body = vec![node::expr_stmt(node::string(&vec![0xAA; bytes - 3 - 3 - 3 - 4]))];
        all.push(counted("pool bytes with a function", bytes, 28_672, 12, vec![function(&[], body)]));
        let body = vec![node::expr_stmt(node::string(&vec![0xAA; bytes - 3 - 11]))];
        let whole = [body, vec![node::expr_stmt(node::integer(1))]].concat();
        all.push(counted("pool bytes with an integer", bytes, 28_672, 12, whole));
    }
    all
}

/// The trees with the most code: arrays in an array. No tree has more than 32,761 bytes of code, so 13 is not reached.
fn code() -> Vec<Edge> {
    let arrays = |count| vec![node::expr_stmt(node::array(vec![empty(); count]))];
    [10_918, 10_919, 10_920].map(|count| counted("arrays in an array", count, 10_919, 3, arrays(count))).to_vec()
}

/// What a branch may be: empty, a definition, a value, a result, each alone or behind another, or in a block.
fn branches() -> Vec<Edge> {
    let definition = || node::let_stmt(b"a", empty());
    let result = || node::return_stmt(empty());
    let bodies = [
        (Vec::new(), false),
        (vec![definition()], false),
        (value(), true),
        (vec![result()], true),
        ([value(), vec![definition()]].concat(), false),
        (vec![result(), definition()], false),
        ([vec![definition()], value()].concat(), true),
        (vec![node::block(Vec::new())], false),
        (vec![node::block(vec![definition()])], false),
        (vec![node::block(value())], true),
        ([value(), vec![node::block(Vec::new())]].concat(), true),
        (vec![function(&[], vec![definition()])], true),
    ];
    let mut all = Vec::new();
    for (n, (body, yields)) in bodies.into_iter().enumerate() {
        let refused = (!yields).then_some(22);
        let tree = |e| vec![node::program(vec![node::expr_stmt(node::boolean(true)), node::expr_stmt(e)])];
        let consequence = node::if_expr(empty(), body.clone(), None);
        all.push(edge(format!("a consequence of kind {n}"), tree(consequence), refused));
        let alternative = node::if_expr(empty(), value(), Some(body));
        all.push(edge(format!("an alternative of kind {n}"), tree(alternative), refused));
    }
    all
}

fn globals() -> Vec<Edge> {
    let mut all = Vec::new();
    for count in [1023, 1024, 1025] {
        let names: Vec<_> = (0..count).map(|n| format!("g{n}").into_bytes()).collect();
        all.push(counted("globals", count, 1024, 11, lets(&names)));
        all.push(counted("globals of one name", count, 1024, 11, lets(&vec![b"a".to_vec(); count])));
        let trees = [&names[..600], &names[600..]].map(|part| node::program(lets(part)));
        all.push(edge(format!("globals over a series {count}"), trees.to_vec(), (count > 1024).then_some(11)));
        let last = node::program(vec![uses(&names[count - 3..]), uses(&names[..3])]);
        let trees = [trees.to_vec(), vec![last]].concat();
        all.push(edge(format!("globals used after a series {count}"), trees, (count > 1024).then_some(5)));
    }
    all
}

fn nesting() -> Vec<Edge> {
    let mut all = Vec::new();
    for count in [15, 16, 17, 18] {
        let named = |name: &[u8], inner| node::expr_stmt(node::function(name, &[], inner));
        let plain = (0..count).fold(Vec::new(), |inner, _| vec![named(b"", inner)]);
        all.push(counted("functions in one another", count, 16, 14, plain));
        let use_a = vec![node::expr_stmt(node::identifier(b"a"))];
        let chain = (1..count).fold(use_a.clone(), |inner, _| vec![named(b"", inner)]);
        let outer = vec![function(&[b"a".to_vec()], chain)];
        all.push(counted("a capture through functions", count, 16, 14, outer));
        let chain = (1..count).fold(use_a, |inner, _| vec![named(b"", inner)]);
        all.push(counted("an outer function's name", count, 16, 14, vec![named(b"a", chain)]));
    }
    all
}

fn sizes() -> Vec<Edge> {
    let mut all = Vec::new();
    for size in [32_767, 32_768, 32_769, 40_000] {
        let string = node::string(&vec![0x55; size - 9 - 12_000]);
        let elements = [vec![string], vec![empty(); 3999]].concat();
        let array = node::expr_stmt(node::array(elements));
        all.push(counted("tree bytes", size, 32_768, 3, vec![array]));
    }
    for length in [0, 1, 31, 32, 33] {
        let name = vec![b'n'; length];
        let number = (!(1..=32).contains(&length)).then_some(3);
        let program = node::program(vec![node::let_stmt(&name, empty()), node::expr_stmt(node::identifier(&name))]);
        all.push(edge(format!("a name of {length}"), vec![program], number));
        let program = node::program(vec![node::expr_stmt(node::function(&name, &[], Vec::new()))]);
        all.push(edge(format!("a function's name of {length}"), vec![program], number.filter(|_| length > 0)));
    }
    all
}

/// A statement near a boundary, at random.
pub fn near(random: &mut Random) -> Node {
    let byte = random.between(252, 258);
    match random.below(11) {
        0 => function(&[], lets(&names(byte))),
        1 => function(&names(200), lets(&names(byte - 200))),
        2 => capturing(byte),
        3 => node::expr_stmt(node::call(empty(), vec![empty(); byte])),
        4 => function(&names(byte), vec![uses(&names(3))]),
        5 => nested(random.below(5), random.between(55, 68)),
        6 => {
            let chain = |inner, _| vec![function(&[b"a".to_vec()], inner)];
            (0..random.between(14, 18)).fold(vec![uses(&names(1))], chain).remove(0)
        }
        7 => node::block(lets(&names(random.between(1000, 1030)))),
        8 => node::expr_stmt(node::string(&vec![0x61; random.between(28_000, 28_700)])),
        9 => node::expr_stmt(node::array(vec![node::string(b""); random.between(4000, 4100)])),
        _ => node::expr_stmt(node::array(vec![empty(); random.between(10_800, 10_920)])),
    }
}

/// All edges.
pub fn all() -> Vec<Edge> {
    [locals(), captures(), arguments(), levels(), constants(), code(), branches(), globals(), nesting(), sizes()]
        .concat()
}
