//! Series with their outcomes as plain text, for the programs that replay recorded cases.
use crate::check::Both;
use crate::draw;
use crate::edges;
use crate::hex::hex;
use crate::port::Answer;
use crate::series::Call;

const HEADER: &str = "\
# Series over one session, made by `compare cases` (oracle/README.md). Images, sessions and whether a tree is refused are the
# Rust's; the place of a refusal is not in the Rust: it is the proved compiler's. No limit of the port's own decides here, and of its
# rules 22 alone: the Rust accepts a branch without a value.
# Lines: case NAME; for each call tree BYTES, then ok IMAGE or refused NUMBER PLACE; state BYTES (cases/README.md); end.
# Bytes are hexadecimal, - is none, {2900}12. is 2900 twelve times over.
";

/// Edges and series whose text is longer are left out.
const LONGEST_EDGE: usize = 7_500;
const LONGEST_SERIES: usize = 1_000;
const LONGEST_RARE: usize = 2_500;

/// So are those with more bytes of trees and images.
const MOST_BYTES: usize = 10_000;

/// Series in which a number is refused; once there are so many, no more are taken for its sake.
const ENOUGH: usize = 25;

/// How often the unit of this size at the start is repeated.
fn repeats(bytes: &[u8], unit: usize) -> usize {
    bytes.chunks_exact(unit).take_while(|chunk| *chunk == &bytes[..unit]).count()
}

/// Hexadecimal with runs.
fn text(bytes: &[u8]) -> String {
    if bytes.is_empty() {
        return hex(bytes);
    }
    let mut out = String::new();
    let mut at = 0;
    while at < bytes.len() {
        let rest = &bytes[at..];
        let best = (1..=rest.len().min(12)).max_by_key(|unit| repeats(rest, *unit) * unit).unwrap_or(1);
        let count = repeats(rest, best);
        if count > 1 && count * best >= 16 {
            out += &format!("{{{}}}{count}.", hex(&rest[..best]));
            at += count * best;
        } else {
            out += &hex(&rest[..1]);
            at += 1;
        }
    }
    out
}

/// A case's text, the bytes of its trees and images, and the numbers that are refused in it.
struct Case {
    text: String,
    bytes: usize,
    numbers: Vec<usize>,
}

/// A series as a case, unless a limit of the port decides in it.
fn case(both: &mut Both, name: &str, trees: &[Vec<u8>]) -> Result<Option<Case>, String> {
    let mut out = format!("\ncase {name}\n");
    let mut numbers = Vec::new();
    let mut bytes = 0;
    both.begin(&None)?;
    for tree in trees {
        let answer = both.call(&Call::full(tree.clone()))?;
        let outcome = match answer {
            Answer::Length(length) => {
                bytes += length;
                format!("ok {}", text(both.latest_image()))
            }
            Answer::Refused(number @ (3 | 5..=10 | 22), place) => {
                numbers.push(number);
                format!("refused {number} {place}")
            }
            Answer::Refused(..) => return Ok(None),
        };
        bytes += tree.len();
        out += &format!("tree {}\n{outcome}\n", text(tree));
    }
    out += &format!("state {}\nend\n", text(&both.reference_state()));
    Ok(Some(Case { text: out, bytes, numbers }))
}

/// The series to choose from: edges, then random ones without end.
fn choices(seed: u64) -> impl Iterator<Item = (String, Vec<Vec<u8>>, usize)> {
    let edges = edges::all().into_iter().filter(|e| e.sharp);
    let edges = edges.map(|e| (e.name.replace(' ', "-").replace('\'', ""), e.trees, LONGEST_EDGE));
    edges.chain((0u64..).map(move |n| {
        let series = draw::series(&mut draw::numbered(seed, n), &None);
        (format!("series-{seed}-{n}"), series.calls.into_iter().map(|c| c.tree).collect(), LONGEST_SERIES)
    }))
}

/// Writes edges and random series to standard output, up to about so many bytes; whether nothing differed.
pub fn write(seed: u64, bytes: usize) -> bool {
    let mut both = Both::default();
    let mut out = HEADER.to_string();
    let mut taken = [0; 23];
    for (name, trees, longest) in choices(seed) {
        let case = match case(&mut both, &format!("compared/{name}"), &trees) {
            Ok(Some(case)) => case,
            Ok(None) => continue,
            Err(text) => {
                eprintln!("differ: {name}: {text}");
                return false;
            }
        };
        let rare = case.numbers.iter().any(|n| matches!(n, 6 | 8..=10) && taken[*n] < ENOUGH);
        let known = !case.numbers.is_empty() && case.numbers.iter().all(|n| taken[*n] >= ENOUGH);
        if known || case.bytes > MOST_BYTES || case.text.len() > if rare { longest.max(LONGEST_RARE) } else { longest }
        {
            continue;
        }
        if out.len() + case.text.len() > bytes {
            break;
        }
        out += &case.text;
        case.numbers.iter().for_each(|n| taken[*n] += 1);
    }
    print!("{out}");
    true
}
