//! Counts the instructions of `monkey_compile` on series that differ in literals only, and fails at the first difference. See README.md.
use std::collections::BTreeMap;
use std::process::{Command, ExitCode};

use oracle::edges::Edge;
use oracle::hex::hex;
use oracle::pairs::{filled, random_byte};
use oracle::port::Answer;
use oracle::random::Random;
use oracle::series::{Call, Lent, Series};
use oracle::{draw, edges};

/// What stands in the literals of a series: the first is compared with each of the others.
const VARIANTS: [&str; 3] = ["zeros", "FF", "random"];

const SEED: u64 = 112;

/// The same series with the literals of a variant; it lends other bytes, too.
fn variant(series: &Series, which: &str, random: &mut Random) -> Series {
    filled(series, &mut |boolean| match which {
        "zeros" => 0,
        "FF" if boolean => 1,
        "FF" => 0xFF,
        _ => random_byte(random, boolean),
    })
}

/// A series once for each variant.
fn alike(series: Series, random: &mut Random) -> Vec<Series> {
    VARIANTS.iter().map(|which| variant(&series, which, random)).collect()
}

/// The random series of this number.
fn drawn(number: u64) -> Vec<Series> {
    let mut random = draw::numbered(SEED, number);
    let words = draw::words(&mut random);
    let series = draw::series(&mut random, &words);
    alike(series, &mut random)
}

/// The series at both sides of each boundary.
fn edges() -> Vec<Vec<Series>> {
    let mut random = Random::new(SEED);
    let series = |edge: Edge| Series::fresh(edge.trees.into_iter().map(Call::full).collect());
    edges::all().into_iter().map(|edge| alike(series(edge), &mut random)).collect()
}

/// As many random series as have so many pairs of calls; without a number the edges.
fn all(pairs: Option<usize>) -> Vec<Vec<Series>> {
    let Some(pairs) = pairs else { return edges() };
    let mut found = 0;
    let enough = |series: &Vec<Series>| {
        let before = found;
        found += series[0].calls.len() * (VARIANTS.len() - 1);
        before < pairs
    };
    (0..).map(drawn).take_while(enough).collect()
}

/// Makes every call in the same memory, in order, for callgrind; the answers.
fn calls(series: &[Vec<Series>]) -> Vec<Answer> {
    let mut lent = Lent::default();
    let longest = series.iter().flatten().flat_map(|one| &one.calls).map(|call| call.tree.len()).max();
    let mut tree = vec![0; longest.unwrap_or(0)];
    let mut answers = Vec::new();
    for one in series.iter().flatten() {
        lent.make(&one.words).expect("a session");
        for call in &one.calls {
            tree[..call.tree.len()].copy_from_slice(&call.tree);
            answers.push(lent.call(&tree[..call.tree.len()], &call.lending).expect("a call as the documents say"));
        }
    }
    answers
}

/// The instructions of each call, by callgrind, which runs this program again.
fn counted(which: &str) -> Result<Vec<u64>, String> {
    let program = std::env::current_exe().map_err(|e| e.to_string())?;
    let file = std::env::temp_dir().join(format!("counts.{}", std::process::id()));
    let mut valgrind = Command::new("valgrind");
    valgrind.args(["--tool=callgrind", "--toggle-collect=monkey_compile", "--dump-after=monkey_compile"]);
    valgrind.args(["--combine-dumps=yes", &format!("--callgrind-out-file={}", file.display())]);
    let output = valgrind.arg(program).args(["calls", which]).output().map_err(|e| format!("valgrind: {e}"))?;
    let text = std::fs::read_to_string(&file);
    let _ = std::fs::remove_file(&file);
    if !output.status.success() {
        return Err(String::from_utf8_lossy(&output.stderr).into_owned());
    }
    let text = text.map_err(|e| e.to_string())?;
    let totals = text.lines().filter_map(|line| line.strip_prefix("totals: ")?.trim().parse().ok());
    Ok(totals.filter(|n| *n > 0).collect())
}

fn shown(what: &str, count: u64, answer: Answer, calls: &[Call]) {
    println!("  {what}: {count} instructions, {answer:?}");
    calls.iter().for_each(|call| println!("    {} {:?}", hex(&call.tree), call.lending));
}

/// Compares each call of each variant with that of the first; how many pairs were answered with each number, 0 for those accepted.
fn compared(series: &[Vec<Series>], counts: &[u64], answers: &[Answer]) -> Option<BTreeMap<usize, usize>> {
    let (mut at, mut pairs) = (0, BTreeMap::new());
    for (number, group) in series.iter().enumerate() {
        let length = group[0].calls.len();
        for (which, one) in group.iter().enumerate().skip(1) {
            for call in 0..length {
                let (a, b) = (at + call, at + which * length + call);
                if (counts[a], answers[a]) != (counts[b], answers[b]) {
                    println!("differ: series {number}, call {call}");
                    shown(VARIANTS[0], counts[a], answers[a], &group[0].calls[..=call]);
                    shown(VARIANTS[which], counts[b], answers[b], &one.calls[..=call]);
                    return None;
                }
                let number = if let Answer::Refused(number, _) = answers[a] { number } else { 0 };
                *pairs.entry(number).or_insert(0) += 1;
            }
        }
        at += group.len() * length;
    }
    Some(pairs)
}

fn run(which: &str) -> Result<bool, String> {
    let series = all(which.parse().ok());
    let answers = calls(&series);
    let counts = counted(which)?;
    if counts.len() != answers.len() {
        return Err(format!("{} calls, but {} counts", answers.len(), counts.len()));
    }
    let Some(pairs) = compared(&series, &counts, &answers) else { return Ok(false) };
    let refused: Vec<_> = pairs.iter().filter(|(n, _)| **n > 0).map(|(n, count)| format!("{n} {count}")).collect();
    let (least, most) = (counts.iter().min().unwrap_or(&0), counts.iter().max().unwrap_or(&0));
    println!(
        "counted {} pairs of calls: accepted {}, refused {}; {least} to {most} instructions; differ 0",
        pairs.values().sum::<usize>(),
        pairs.get(&0).unwrap_or(&0),
        refused.join(", ")
    );
    Ok(true)
}

/// Whether this says which series are meant.
fn known(which: &str) -> bool {
    which == "edges" || which.parse::<usize>().is_ok()
}

fn main() -> ExitCode {
    let words: Vec<_> = std::env::args().skip(1).collect();
    let words: Vec<_> = words.iter().map(String::as_str).collect();
    let done = match words[..] {
        [] => run("200"),
        ["calls", which] if known(which) => Ok(!calls(&all(which.parse().ok())).is_empty()),
        [which] if known(which) => run(which),
        _ => {
            eprintln!("counts [PAIRS|edges]");
            return ExitCode::from(2);
        }
    };
    match done {
        Ok(true) => ExitCode::SUCCESS,
        Ok(false) => ExitCode::FAILURE,
        Err(why) => {
            eprintln!("counts: {why}");
            ExitCode::FAILURE
        }
    }
}
