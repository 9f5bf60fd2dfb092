//! The benchmark's inputs: a tree, and the trees that filled its session before.
use crate::chosen;
use crate::node::{self, Body, Node};
use crate::reference::Words;
use crate::tree::to_string;

/// The input whose identifiers are all globals, looked up from main.
pub const GLOBALS: &str = "1,024 globals, 2,100 identifiers";

pub struct Input {
    pub name: String,
    pub words: Words,
    pub before: Vec<Vec<u8>>,
    pub tree: Vec<u8>,
}

fn input(name: String, before: Vec<Vec<u8>>, statements: Vec<Node>) -> Input {
    Input { name, words: None, before, tree: node::program(statements).bytes() }
}

fn id(name: &str) -> Node {
    node::identifier(name.as_bytes())
}

fn infix(left: Node, operator: u8, right: Node) -> Node {
    node::infix(left, operator, right)
}

fn names(list: &[&str]) -> Vec<Vec<u8>> {
    list.iter().map(|n| n.as_bytes().to_vec()).collect()
}

/// A profile as makers write them: a dead zone, a gain, a limit, and their use.
fn profile() -> Vec<Node> {
    let (plus, minus, times, over, less, more) = (1, 2, 4, 5, 8, 9);
    let limit = node::if_expr(
        infix(id("v"), more, id("m")),
        vec![node::expr_stmt(id("m"))],
        Some(vec![node::expr_stmt(id("v"))]),
    );
    let scaled = infix(infix(infix(id("x"), minus, id("dead")), times, id("gain")), over, node::integer(100));
    let speed = node::if_expr(
        infix(id("x"), less, id("dead")),
        vec![node::expr_stmt(node::integer(0))],
        Some(vec![node::expr_stmt(node::call(id("limit"), vec![scaled, node::integer(60)]))]),
    );
    vec![
        node::let_stmt(b"dead", node::integer(5)),
        node::let_stmt(b"gain", node::integer(80)),
        node::let_stmt(b"limit", node::function(b"limit", &names(&["v", "m"]), vec![node::expr_stmt(limit)])),
        node::let_stmt(b"speed", node::function(b"speed", &names(&["x"]), vec![node::expr_stmt(speed)])),
        node::expr_stmt(infix(node::call(id("speed"), vec![node::integer(40)]), plus, node::integer(1))),
    ]
}

/// Four functions in one another; the innermost adds a name of each.
fn closure(number: usize) -> Node {
    let sum = ["b", "c", "d"].iter().fold(id("a"), |left, name| infix(left, 1, id(name)));
    let inner = ["d", "c", "b"]
        .iter()
        .fold(node::expr_stmt(sum), |body, name| node::expr_stmt(node::function(b"", &names(&[name]), vec![body])));
    let name = format!("f{}", number % 100);
    node::let_stmt(name.as_bytes(), node::function(name.as_bytes(), &names(&["a"]), vec![inner]))
}

/// An array of 32 integers and some booleans.
fn numbers(number: usize) -> Node {
    let integers = (0..32).map(|n| node::integer((number * 32 + n) as i64));
    node::expr_stmt(node::array(integers.chain((0..12).map(|n| node::boolean(n % 2 == 0))).collect()))
}

/// A global whose value adds two globals.
fn global(number: usize) -> Node {
    let (a, b) = (number / 2, number / 3);
    node::let_stmt(format!("v{number}").as_bytes(), infix(id(&format!("v{a}")), 1, id(&format!("v{b}"))))
}

fn long_string(number: usize) -> Node {
    node::expr_stmt(node::string(&vec![b'a' + (number % 26) as u8; 1000]))
}

fn decision(number: usize) -> Node {
    let then = vec![node::expr_stmt(node::boolean(true))];
    let other = node::if_expr(node::boolean(false), then.clone(), None);
    let value =
        node::if_expr(node::prefix(3, node::boolean(number % 2 == 0)), then, Some(vec![node::expr_stmt(other)]));
    node::expr_stmt(value)
}

/// As many of these statements as the tree has room for, and of strings the pool.
fn filled(bytes: usize, statement: fn(usize) -> Node) -> Vec<Node> {
    let mut length = 3;
    let fits = |s: &Node| {
        length += s.bytes().len();
        length <= bytes
    };
    (0..).map(statement).take_while(fits).collect()
}

fn global_names(count: usize) -> Vec<Vec<u8>> {
    (0..count).map(|n| format!("global_{n}").into_bytes()).collect()
}

fn defining(names: &[Vec<u8>]) -> Vec<u8> {
    node::program(names.iter().map(|n| node::let_stmt(n, node::array(Vec::new()))).collect()).bytes()
}

/// A function of 8,400 instructions of one byte.
fn much_code() -> Vec<u8> {
    let body = vec![node::expr_stmt(node::boolean(true)); 4200];
    node::program(vec![node::expr_stmt(node::function(b"", &[], body))]).bytes()
}

/// Sessions that are full: names, and a pool of 28,672 bytes; or hold much code.
fn full_session() -> Vec<Input> {
    let strings = (0..28).map(|_| node::expr_stmt(node::string(&[0x61; 1021]))).collect();
    let before = vec![defining(&global_names(1000)), node::program(strings).bytes()];
    let uses = |step: usize| (0..1000).step_by(step).map(|n| node::expr_stmt(id(&format!("global_{n}")))).collect();
    vec![
        input("full session, 20 identifiers".into(), before.clone(), uses(50)),
        input("full session, empty tree".into(), before, Vec::new()),
        input(
            "session of 960 functions, empty tree".into(),
            vec![node::program(filled(30_000, closure)).bytes()],
            Vec::new(),
        ),
        input("session of 25,200 instructions, empty tree".into(), vec![much_code(); 3], Vec::new()),
    ]
}

/// Lookups of 1,024 globals, from main and below 16 functions of 255 parameters each.
fn lookups() -> Vec<Input> {
    let globals = global_names(1024);
    let all = |count: usize| {
        node::expr_stmt(node::array((0..count).map(|n| node::identifier(&globals[n * 7 % 1024])).collect()))
    };
    let params: Vec<_> = (0..255u8).map(|n| vec![b'p', n]).collect();
    let nested = |inner, _| vec![node::expr_stmt(node::function(b"", &params, inner))];
    vec![
        input(GLOBALS.into(), vec![defining(&globals)], vec![all(2100)]),
        input(
            "1,024 globals, 16 functions of 255 parameters open, 700 identifiers".into(),
            vec![defining(&globals)],
            (0..16).fold(vec![all(700)], nested),
        ),
    ]
}

/// Lookups of the most and longest words, which differ in their last byte, beside 1,024 globals.
fn word_lookups() -> Input {
    let words: Vec<_> = (0..24u8).map(|n| [vec![b'w'; 31], vec![b'a' + n]].concat()).collect();
    let uses = (0..900).map(|n| node::identifier(&words[n * 7 % 24])).collect();
    let before = vec![defining(&global_names(1024))];
    let name = "24 words of 32 bytes and 1,024 globals, 900 identifiers of words".into();
    Input { words: Some(words), ..input(name, before, vec![node::expr_stmt(node::array(uses))]) }
}

/// A program of functions, each in the one before it, with an array of identifiers in the innermost: first each captured name, then
/// others in turn, as many as a tree can hold.
fn full_of_lookups(functions: &[&[Vec<u8>]], captured: &[Vec<u8>], others: &[Vec<u8>]) -> Vec<Node> {
    let program = |uses: usize| {
        let others = (0..uses).map(|n| &others[n * 7 % others.len()]);
        let inner = node::expr_stmt(node::array(captured.iter().chain(others).map(|n| node::identifier(n)).collect()));
        let nested = |inner, params: &&[Vec<u8>]| node::expr_stmt(node::function(b"", params, vec![inner]));
        vec![functions.iter().rev().fold(inner, nested)]
    };
    let room = 32_768 - node::program(program(0)).bytes().len();
    program(room / (3 + others[0].len()))
}

/// Lookups of names that were chosen: globals, below functions that have captured others of the same hash; and of one function's.
fn chosen_lookups() -> Vec<Input> {
    let below = |what: &str, names: Vec<Vec<u8>>| {
        let (captured, globals) = names.split_at(255);
        let functions = [&[captured][..], &[&[][..]; 15]].concat();
        let name = format!("1,024 globals and 255 captured names of one {what}, 16 functions open");
        input(name, vec![defining(globals)], full_of_lookups(&functions, captured, globals))
    };
    let names = chosen::of_one_bucket(510);
    let (captured, own) = names.split_at(255);
    let locals = full_of_lookups(&[captured, own], captured, own);
    vec![
        below("bucket", chosen::of_one_bucket(1279)),
        below("hash", chosen::of_one_hash(1279)),
        input("510 names of one bucket in a function".into(), Vec::new(), locals),
    ]
}

/// The names of a tree's identifiers, in the order of the bytes.
pub fn identifiers(tree: &[u8]) -> Vec<String> {
    fn add(node: &Node, names: &mut Vec<String>) {
        match &node.body {
            Body::Bytes(bytes) if node.tag == 0x20 => names.push(to_string(bytes)),
            Body::Bytes(_) => {}
            Body::Children(children) => children.iter().for_each(|c| add(c, names)),
        }
    }
    let mut names = Vec::new();
    Node::parse(tree).iter().for_each(|node| add(node, &mut names));
    names
}

/// All inputs.
pub fn all() -> Vec<Input> {
    let flavours: [(&str, fn(usize) -> Node); 5] = [
        ("closures", closure),
        ("arrays", numbers),
        ("globals and identifiers", global),
        ("strings", long_string),
        ("branches", decision),
    ];
    let mut list = vec![
        input("empty tree".into(), Vec::new(), Vec::new()),
        input("typical profile".into(), Vec::new(), profile()),
    ];
    for (size, bytes) in [("4 KB", 4_096), ("30 KB", 30_000)] {
        for (name, statement) in flavours {
            let bytes = if name == "strings" { bytes.min(28_300) } else { bytes };
            list.push(input(format!("{size} of {name}"), Vec::new(), filled(bytes, statement)));
        }
    }
    list.extend(full_session());
    list.extend(lookups());
    list.push(word_lookups());
    list.extend(chosen_lookups());
    list
}
