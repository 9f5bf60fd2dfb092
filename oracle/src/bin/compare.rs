//! Runs the Rust and the proved compiler on the same series and compares them. See README.md.
use std::collections::HashMap;
use std::process::ExitCode;
use std::time::{Duration, Instant};

use oracle::check::Both;
use oracle::grammar::Grammar;
use oracle::hex::hex;
use oracle::pairs::{twin, Pair};
use oracle::reference::listed;
use oracle::series::{Call, Series};
use oracle::trial::Trial;
use oracle::trial_trees::random_tree;
use oracle::{cases, draw, edges, enumerate, port, reduce, reference, script, text};

/// Differences after which a run ends.
const ENOUGH: u64 = 10;

const USAGE: &str =
    "compare [cases] [seed=N] [trees=N] [pairs=N] [short=N] [fields=N] [load=N] [images=N] [runs=N] [texts=N] [seconds=N] [bytes=N]";

/// A run: what it has compared so far.
struct Run {
    both: Both,
    pair: Pair,
    pairs: u64,
    /// Texts by the number that they were refused with, 0 for those that were read.
    texts: [u64; 22],
    differ: u64,
    until: Instant,
}

impl Run {
    fn new(seconds: u64) -> Run {
        let until = Instant::now() + Duration::from_secs(seconds);
        Run { both: Both::default(), pair: Pair::default(), pairs: 0, texts: [0; 22], differ: 0, until }
    }

    fn over(&self) -> bool {
        self.differ >= ENOUGH || Instant::now() >= self.until
    }

    fn report(&mut self, what: &str, text: &str, series: &Series) {
        self.differ += 1;
        println!("differ: {what}: {text}");
        if series.words.is_some() {
            println!("  words {}", hex(&reference::name_fields(&listed(&series.words))));
        }
        for call in &series.calls {
            println!("  {} {:?}", hex(&call.tree), call.lending);
        }
    }

    /// One series on both sides.
    fn series(&mut self, what: &str, series: &Series) {
        let Err((at, text)) = self.both.series(series) else { return };
        let mut both = Both::default();
        let words = &series.words;
        let with = |calls: &[Call]| Series { words: words.clone(), calls: calls.to_vec() };
        let first = &series.calls[..series.calls.len().min(at + 1)];
        let small = with(&reduce::reduce(first, &mut |calls| both.series(&with(calls)).is_err()));
        self.report(what, &text, &small);
        if let Err((_, text)) = both.series(&small) {
            println!("  {text}");
        }
    }

    fn edges(&mut self) {
        for edge in edges::all() {
            if self.over() {
                return;
            }
            let series = Series::fresh(edge.trees.into_iter().map(Call::full).collect());
            let before = self.both.counts.clone();
            self.series(&edge.name, &series);
            let after = &self.both.counts;
            let kept = match edge.number {
                None => after.accepted > before.accepted,
                Some(n) => after.refused[n] + after.limits[n] > before.refused[n] + before.limits[n],
            };
            if !kept {
                self.report(&edge.name, &format!("due is {:?}", edge.number), &series);
            }
        }
    }

    fn short(&mut self, most: usize, fields: usize) {
        if most > 0 {
            let all = enumerate::strings(1).count();
            let mut calls = enumerate::strings(all.div_ceil(most)).map(Call::full);
            loop {
                let group: Vec<_> = calls.by_ref().take(100).collect();
                if group.is_empty() || self.over() {
                    break;
                }
                self.series("short strings", &Series::fresh(group));
            }
        }
        for tree in enumerate::trees(fields) {
            if self.over() {
                return;
            }
            self.series("few fields", &Series::fresh(vec![Call::full(tree)]));
        }
    }

    /// The trees of the first so many seeds, each in a fresh session.
    fn load(&mut self, seeds: u32) {
        for seed in 0..seeds {
            if self.over() {
                return;
            }
            self.series(&format!("load, seed {seed}"), &Series::fresh(vec![Call::full(port::load_tree(seed))]));
        }
    }

    /// Random images and their heights.
    fn images(&mut self, images: u64) {
        for _ in 0..images {
            if self.over() {
                return;
            }
            if let Err(text) = self.both.random_image() {
                self.report("heights", &text, &Series::fresh(Vec::new()));
            }
        }
    }

    /// Random texts, read by the grammar and by the library.
    fn texts(&mut self, seed: u64, texts: u64) {
        let grammar = Grammar::default();
        for number in 0..texts {
            if self.over() {
                return;
            }
            let mut random = draw::numbered(seed ^ 0x7e87, number);
            let text = script::text(&mut random, &grammar);
            match text::compare(&grammar, &text, &mut random) {
                Ok(number) => self.texts[number] += 1,
                Err(why) => self.report(&format!("text {}", hex(&text)), &why, &Series::fresh(Vec::new())),
            }
        }
    }

    /// Random trees, each run after it is compiled in a fresh session, against its evaluation.
    fn runs(&mut self, seed: u64, runs: u64) {
        let mut trial = Trial::default();
        for number in 0..runs {
            if self.over() {
                break;
            }
            let mut random = draw::numbered(seed, number);
            let tree = random_tree(&mut random);
            if let Err(text) = trial.tree(&tree, &mut random) {
                self.report(&format!("trial run, seed {seed}, tree {number}"), &text, &Series::fresh(vec![Call::full(tree.bytes())]));
            }
        }
        let n = &trial.counts;
        println!(
            "trial runs: {} trees, {} refused; {} ended, {} stopped 28, {} stopped 29",
            n.trees, n.refused, n.ended, n.kinds, n.unset
        );
    }

    /// Random series until so many trees are compared.
    fn random(&mut self, seed: u64, trees: u64) {
        let mut number = 0;
        let end = self.both.counts.trees + trees;
        while self.both.counts.trees < end && !self.over() {
            let mut random = draw::numbered(seed, number);
            let words = draw::words(&mut random);
            let series = draw::series(&mut random, &words);
            self.series(&format!("seed {seed}, series {number}"), &series);
            number += 1;
        }
    }

    /// Pairs of alike series until so many pairs of trees are compared; the second of each with the Rust too.
    fn alike(&mut self, seed: u64, pairs: u64) {
        let mut number = 0;
        while self.pairs < pairs && !self.over() {
            let mut random = draw::numbered(!seed, number);
            let words = draw::words(&mut random);
            let first = draw::series(&mut random, &words);
            let second = twin(&first, &mut random);
            let what = format!("seed {seed}, pair {number}");
            if let Err((at, text)) = self.pair.series(&first, &second) {
                let upto = |s: &Series| Series { words: s.words.clone(), calls: s.calls[..s.calls.len().min(at + 1)].to_vec() };
                self.report(&what, &text, &upto(&first));
                self.report(&what, "its twin", &upto(&second));
            }
            self.series(&what, &second);
            self.pairs += first.calls.len() as u64;
            number += 1;
        }
    }

    fn summary(&self) {
        let counts = &self.both.counts;
        let listed = |numbers: &[u64]| {
            let some = numbers.iter().enumerate().filter(|(_, n)| **n > 0);
            some.map(|(number, n)| format!("{number} {n}")).collect::<Vec<_>>().join(", ")
        };
        println!(
            "compared {} trees, {} more refused 22 without the Rust: accepted {}, refused {}; own limits {}; images listed {}; heights of {} images, {} lists passed; damaged sessions {}, lists of words {}; calls with records {}; texts {}; pairs {}; differ {}",
            counts.trees - counts.limits[22],
            counts.limits[22],
            counts.accepted,
            listed(&counts.refused),
            listed(&counts.limits),
            counts.images,
            counts.heights,
            counts.passed,
            counts.sessions,
            counts.lists,
            counts.records,
            listed(&self.texts),
            self.pairs,
            self.differ
        );
    }
}

fn run(words: &[String]) -> bool {
    let mut options = HashMap::from([
        ("seed", 1),
        ("trees", 100_000),
        ("pairs", 20_000),
        ("short", 50_000),
        ("fields", 3),
        ("load", 1_000),
        ("images", 100_000),
        ("runs", 100_000),
        ("texts", 20_000),
        ("seconds", 600),
        ("bytes", 150_000),
    ]);
    let writes_cases = words.first().is_some_and(|w| w == "cases");
    for word in &words[usize::from(writes_cases)..] {
        let pair = word.split_once('=').and_then(|(key, n)| Some((options.get_mut(key)?, n.parse().ok()?)));
        let Some((option, value)) = pair else {
            eprintln!("{USAGE}");
            return false;
        };
        *option = value;
    }
    if writes_cases {
        return cases::write(options["seed"], options["bytes"] as usize);
    }
    let mut run = Run::new(options["seconds"]);
    run.texts(options["seed"], options["texts"]);
    run.edges();
    run.short(options["short"] as usize, options["fields"] as usize);
    run.load(options["load"] as u32);
    run.images(options["images"]);
    run.runs(options["seed"], options["runs"]);
    run.random(options["seed"], options["trees"]);
    run.alike(options["seed"], options["pairs"]);
    run.summary();
    run.differ == 0
}

fn main() -> ExitCode {
    reference::record_panics();
    let words: Vec<_> = std::env::args().skip(1).collect();
    let thread = std::thread::Builder::new().stack_size(4 << 30).spawn(move || run(&words));
    match thread.expect("a thread").join() {
        Ok(true) => ExitCode::SUCCESS,
        _ => ExitCode::FAILURE,
    }
}
