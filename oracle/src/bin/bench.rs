//! Times the Rust and the proved compiler on the same inputs, in one process. See README.md.
use std::cell::RefCell;
use std::process::Command;
use std::rc::Rc;
use std::time::{Duration, Instant};

use oracle::compiler::{Compiler, SymbolTable};
use oracle::inputs::{self, Input};
use oracle::parser::ast::Program;
use oracle::port::{self, Answer, CODE_SIZE, SESSION_SIZE, TABLE_SIZE};
use oracle::random::Random;
use oracle::reference::{self, Outcome, State};
use oracle::tree;
use oracle::vm::bytecode::Bytecode;

extern "C" {
    fn memset(to: *mut u8, byte: i32, length: usize) -> *mut u8;
}

/// What is lent to the proved compiler.
struct Memory {
    session: Vec<u8>,
    output: Vec<u8>,
    code: Vec<u8>,
    table: Vec<u32>,
}

impl Memory {
    fn new() -> Memory {
        Memory {
            session: vec![0; SESSION_SIZE],
            output: vec![0; 65_536],
            code: vec![0; CODE_SIZE],
            table: vec![0; TABLE_SIZE],
        }
    }

    /// The proved compiler on a copy of a session: the whole call.
    fn call(&mut self, session: &[u8], tree: &[u8]) -> Duration {
        self.session.copy_from_slice(session);
        let start = Instant::now();
        let answer = port::compile(&mut self.session, tree, &mut self.output, &mut self.code, &mut self.table);
        let time = start.elapsed();
        assert!(matches!(answer, Answer::Length(_)), "{answer:?}");
        time
    }
}

/// One input on both sides, with the session before it.
struct Subject {
    tree: Vec<u8>,
    state: State,
    session: Vec<u8>,
    memory: Memory,
}

/// Building the syntax tree: the harness.
#[no_mangle]
#[inline(never)]
fn measured_build(bytes: &[u8]) -> Program {
    tree::program(bytes).unwrap_or_else(|_| panic!("a sound tree"))
}

/// The Rust's compile, after the tree is built.
#[no_mangle]
#[inline(never)]
fn measured_rust(program: Program, table: Rc<RefCell<SymbolTable>>, state: &mut State) -> Bytecode {
    let mut compiler = Compiler::new_with_state(table, &mut state.constants);
    compiler.compile(program.into()).expect("a tree that the Rust accepts");
    Bytecode::from(compiler)
}

/// The least that a call has to do: clear the work areas, read the session.
#[no_mangle]
#[inline(never)]
fn measured_floor(memory: &mut Memory) -> u64 {
    unsafe {
        memset(memory.code.as_mut_ptr(), 0, CODE_SIZE);
        memset(memory.table.as_mut_ptr().cast(), 0, 4 * TABLE_SIZE);
        scan(&memory.session)
    }
}

#[target_feature(enable = "avx2")]
unsafe fn scan(session: &[u8]) -> u64 {
    let (words, _) = session.as_chunks::<8>();
    words.iter().fold(0, |sum, word| sum | u64::from_ne_bytes(*word))
}

impl Subject {
    fn new(input: &Input) -> Subject {
        let mut state = State::begun(&input.words);
        for tree in &input.before {
            let Outcome::Accepted(accepted) = reference::compile(&state, tree) else { panic!("{}", input.name) };
            state = accepted.state;
        }
        let mut session = state.session();
        session.resize(SESSION_SIZE, 0);
        let memory = Memory::new();
        let mut subject = Subject { tree: input.tree.clone(), state, session, memory };
        subject.check(&input.name);
        subject
    }

    /// Both sides make the same image.
    fn check(&mut self, name: &str) {
        let Outcome::Accepted(accepted) = reference::compile(&self.state, &self.tree) else { panic!("{name}") };
        let image = accepted.image();
        self.port();
        assert_eq!(self.memory.output[..image.len()], image, "{name}");
    }

    fn copy(&self) -> State {
        let (table, constants) = (self.state.table.clone(), self.state.constants.clone());
        State { table, constants, names: Vec::new(), words: None }
    }

    /// The proved compiler: the whole call.
    fn port(&mut self) -> Duration {
        self.memory.call(&self.session, &self.tree)
    }

    /// The Rust: building the tree, and compiling it.
    fn rust(&mut self) -> (Duration, Duration) {
        let mut state = self.copy();
        let table = Rc::new(RefCell::new(std::mem::take(&mut state.table)));
        let start = Instant::now();
        let program = measured_build(&self.tree);
        let built = start.elapsed();
        let bytecode = measured_rust(program, table, &mut state);
        let done = start.elapsed();
        drop(bytecode);
        (built, done - built)
    }

    fn floor(&mut self) -> Duration {
        let start = Instant::now();
        std::hint::black_box(measured_floor(&mut self.memory));
        start.elapsed()
    }
}

/// The median in microseconds of what is measured for a third of a second.
fn median(mut measure: impl FnMut() -> Duration) -> f64 {
    let end = Instant::now() + Duration::from_millis(330);
    let mut all = Vec::new();
    while all.len() < 30 || Instant::now() < end {
        all.push(measure().as_secs_f64() * 1e6);
    }
    all.sort_by(f64::total_cmp);
    all[all.len() / 2]
}

/// Instructions of one call inside a function, counted by callgrind; 0 where there is no valgrind.
fn instructions(number: usize, side: &str, function: &str) -> u64 {
    const CALLS: u64 = 3;
    let Ok(program) = std::env::current_exe() else { return 0 };
    let mut valgrind = Command::new("valgrind");
    valgrind.args(["--tool=callgrind", "--callgrind-out-file=/dev/null", &format!("--toggle-collect={function}")]);
    valgrind.arg(program).args(["once", &number.to_string(), side, &CALLS.to_string()]);
    let Ok(output) = valgrind.output() else { return 0 };
    let text = String::from_utf8_lossy(&output.stderr).into_owned();
    let line = text.lines().find_map(|l| l.split_once("Collected : "));
    line.and_then(|(_, n)| n.trim().parse::<u64>().ok()).unwrap_or(0) / CALLS
}

/// Runs one input so many times on one side, for callgrind.
fn once(words: &[String]) {
    let [number, side, count] = words else { panic!("once NUMBER port|rust|floor COUNT") };
    let all = inputs::all();
    let mut subject = Subject::new(&all[number.parse::<usize>().expect("a number")]);
    let count = count.parse::<u32>().expect("a count");
    // One call of the port was the check that both sides agree.
    for _ in u32::from(side == "port")..count {
        let _ = match side.as_str() {
            "port" => subject.port(),
            "rust" => subject.rust().1,
            _ => subject.floor(),
        };
    }
}

const HEAD: &str = "\
| Input | Tree bytes | Ours, µs | Rust with tree, µs | Rust's compile, µs | Rust with tree / ours | Rust's compile / ours | Ours, MB/s | Floor, µs | Ours / floor | Instructions: ours | Rust with tree |
|---|---|---|---|---|---|---|---|---|---|---|---|";

/// The Rust's lookups alone: each name of the tree's identifiers in its own table, in microseconds.
fn lookups(input: &Input) -> f64 {
    let subject = Subject::new(input);
    let mut table = subject.state.table.clone();
    let names = inputs::identifiers(&input.tree);
    median(|| {
        let start = Instant::now();
        names.iter().for_each(|name| drop(std::hint::black_box(table.resolve(name))));
        start.elapsed()
    })
}

fn table(counting: bool) {
    println!("{HEAD}");
    for (number, input) in inputs::all().iter().enumerate() {
        let mut subject = Subject::new(input);
        let port = median(|| subject.port());
        let built = median(|| subject.rust().0);
        let compiled = median(|| subject.rust().1);
        let floor = median(|| subject.floor());
        let count = |side, function| if counting { instructions(number, side, function) } else { 0 };
        let ours = count("port", "monkey_compile");
        let theirs = count("rust", "measured_rust") + count("rust", "measured_build");
        println!(
            "| {} | {} | {port:.1} | {:.1} | {compiled:.1} | {:.1} | {:.1} | {:.0} | {floor:.1} | {:.2} | {ours} | {theirs} |",
            input.name,
            input.tree.len(),
            built + compiled,
            (built + compiled) / port,
            compiled / port,
            input.tree.len() as f64 / port,
            port / floor,
        );
    }
    let all = inputs::all();
    let input = all.iter().find(|i| i.name == inputs::GLOBALS).expect("the input with globals alone");
    println!("\nThe Rust's lookups alone of \"{}\": {:.1} µs.", input.name, lookups(input));
}

/// Makes and compiles the trees of so many seeds, each in a fresh session, and says how many a second.
fn load(seeds: u32) {
    let (mut output, mut code, mut table) = (vec![0; SESSION_SIZE], vec![0; CODE_SIZE], vec![0; TABLE_SIZE]);
    let mut session = vec![0; SESSION_SIZE];
    let (mut making, mut compiling, mut bytes) = (Duration::ZERO, Duration::ZERO, 0);
    for seed in 0..seeds {
        let start = Instant::now();
        let tree = port::load_tree(seed);
        making += start.elapsed();
        bytes += tree.len();
        port::make_session(&mut session);
        let start = Instant::now();
        std::hint::black_box(port::compile(&mut session, &tree, &mut output, &mut code, &mut table));
        compiling += start.elapsed();
    }
    let rate = |time: Duration| f64::from(seeds) / time.as_secs_f64();
    println!("{seeds} trees, {bytes} bytes: {:.0} made a second, {:.0} compiled a second", rate(making), rate(compiling));
}

/// A field: tag, length, content.
fn field(tag: u8, content: Vec<u8>) -> Vec<u8> {
    [&[tag], &(content.len() as u16).to_be_bytes()[..], &content].concat()
}

/// How many operand bytes an instruction has.
fn operands(op: u8) -> usize {
    match op {
        0x1B => 3,
        0x00 | 0x0D | 0x0E | 0x10..=0x13 => 2,
        0x15 | 0x18..=0x1A | 0x1C => 1,
        _ => 0,
    }
}

/// A session of three functions of 9,000 bytes, whose instructions `next` draws.
fn stored(random: &mut Random, next: fn(&mut Random, usize) -> u8) -> Vec<u8> {
    let mut pool = Vec::new();
    for _ in 0..3 {
        let mut content = vec![0; 3];
        for number in 0.. {
            let op = next(random, number);
            if content.len() + 1 + operands(op) > 9_000 {
                break;
            }
            content.push(op);
            content.extend(random.bytes(operands(op)));
        }
        pool.extend(field(0x62, content));
    }
    let mut session = [field(0x40, Vec::new()), field(0x51, pool)].concat();
    session.resize(SESSION_SIZE, 0);
    session
}

/// The empty tree in sessions that hold much code: one again and again, and 48 in turn, which no branch predictor learns by heart.
fn code() {
    const EIGHT: [u8; 8] = [0x00, 0x01, 0x10, 0x18, 0x15, 0x1B, 0x06, 0x0D];
    let rows: [(&str, fn(&mut Random, usize) -> u8); 7] = [
        ("True and Pop in turn", |_, number| [0x06, 0x02][number % 2]),
        ("random ones without operands", |random, _| *random.pick(&[0x01, 0x02, 0x03, 0x04, 0x06, 0x08, 0x0F, 0x14])),
        ("random ones of all 30", |random, _| random.below(30) as u8),
        ("random ones of eight", |random, _| *random.pick(&EIGHT)),
        ("the eight in a pattern", |_, number| EIGHT[(number * 5 + number / 8) % 8]),
        ("True or GetLocal at random", |random, _| *random.pick(&[0x06, 0x18])),
        ("lengths 1 to 4 at random", |random, _| *random.pick(&[0x06, 0x18, 0x10, 0x1B])),
    ];
    println!("| Instructions | One session, µs | 48 in turn, µs |\n|---|---|---|");
    let mut memory = Memory::new();
    for (name, next) in rows {
        let mut random = Random::new(1);
        let sessions: Vec<_> = (0..48).map(|_| stored(&mut random, next)).collect();
        let one = median(|| memory.call(&sessions[0], &[0x10, 0, 0]));
        let mut turn = sessions.iter().cycle();
        let many = median(|| memory.call(turn.next().expect("a session"), &[0x10, 0, 0]));
        println!("| {name} | {one:.1} | {many:.1} |");
    }
}

/// An image of so many times `part` in main, and so many functions of one Return.
fn image(part: &[u8], times: usize, functions: usize) -> Vec<u8> {
    let pool = field(0x62, vec![0, 0, 0, 0x17]).repeat(functions);
    [field(0x50, part.repeat(times)), field(0x51, pool)].concat()
}

/// So many ifs, each of whose jumps goes to the last instruction but one.
fn one_target(count: usize) -> Vec<u8> {
    let [high, low] = ((4 * count) as u16).to_be_bytes();
    let mut image = image(&[0x06, 0x0D, high, low], count, 0);
    image.splice(3 + 4 * count..3 + 4 * count, [0x06, 0x02]);
    let length = (4 * count as u16 + 2).to_be_bytes();
    image[1..3].copy_from_slice(&length);
    image
}

/// Main rises and falls again.
fn deep(half: usize, functions: usize) -> Vec<u8> {
    let mut bytes = image(&[0x06], 2 * half, functions);
    bytes[3 + half..3 + 2 * half].fill(0x02);
    bytes
}

/// The median of a call in microseconds.
fn timed(mut call: impl FnMut() -> Answer) -> f64 {
    median(|| {
        let start = Instant::now();
        std::hint::black_box(call());
        start.elapsed()
    })
}

/// Heights proposed and checked on images of each size and of half of it: the time must not grow faster than the size.
fn heights() {
    println!("| Image | Bytes | Instructions | Image check, µs | Propose, µs | Check, µs |\n|---|---|---|---|---|---|");
    let rows = [
        ("16,384 True and as many Pop, 4,096 functions", deep(16_384, 4_096)),
        ("half of that", deep(8_192, 2_048)),
        ("8,191 jumps to one instruction", one_target(8_191)),
        ("half of that", one_target(4_095)),
        ("32,767 Null behind a Return", image(&[0x0F], 32_768, 0)),
    ];
    for (name, mut image) in rows {
        if name.ends_with("Return") {
            image[3] = 0x17;
        }
        let (mut list, mut tops) = (vec![0; 61_440], vec![0; 4_097]);
        let Answer::Length(count) = port::propose_heights(&image, &mut list) else { panic!("{name}") };
        let checked = port::check_heights(&image, &list[..count], &mut tops);
        assert!(matches!(checked, Answer::Length(_)), "{name}: {checked:?}");
        let sound = timed(|| port::check_image(&image));
        let check = timed(|| port::check_heights(&image, &list[..count], &mut tops));
        let propose = timed(|| port::propose_heights(&image, &mut list));
        println!("| {name} | {} | {count} | {sound:.0} | {propose:.0} | {check:.0} |", image.len());
    }
}

fn main() {
    let words: Vec<_> = std::env::args().skip(1).collect();
    match words.first().map(String::as_str) {
        Some("once") => once(&words[1..]),
        Some("times") => table(false),
        None => table(true),
        Some("load") => load(words.get(1).and_then(|n| n.parse().ok()).unwrap_or(1_000)),
        Some("heights") => heights(),
        Some("code") => code(),
        Some(_) => eprintln!("bench [times | heights | code | load SEEDS | once NUMBER port|rust|floor COUNT]"),
    }
}
