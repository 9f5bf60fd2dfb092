//! Random texts: derived from the grammar, nested deeply, damaged, or rows of pieces.
use crate::grammar::{derives, Grammar};
use crate::random::Random;

const NAMES: [&str; 6] = ["a", "b", "speed", "_", "lets", "nnnnnnnnnnnnnnnnnnnnnnnnnnnnnnnn"];
const INTEGERS: [&str; 7] =
    ["0", "1", "007", "42", "9223372036854775807", "9223372036854775808", "99999999999999999999"];
const STRINGS: [&str; 4] = ["\"\"", "\"ok\"", "\"a (b\n]\"", "\"\u{e9}{\\\""];
const BLANKS: [&str; 6] = [" ", " ", "\n", "\t", "\r\n", "  "];
const ODD: [&str; 12] =
    ["@", "\"", "\u{0}", "'", ".", "5x", "nnnnnnnnnnnnnnnnnnnnnnnnnnnnnnnnn", "&", "-", "(", "[", ";"];
const OPEN: [(&str, &str); 14] = [
    ("(", ")"),
    ("[", "]"),
    ("!", ""),
    ("-", ""),
    ("f(", ")"),
    ("f(1,", ")"),
    ("a[", "]"),
    ("{1:", "}"),
    ("{", ":2}"),
    ("fn(x){", "}"),
    ("fn(){let g=", "}"),
    ("if(a){", "}"),
    ("if(", "){1}else{2}"),
    ("1+(", ")"),
];

/// A text, good or not.
pub fn text(random: &mut Random, grammar: &Grammar) -> Vec<u8> {
    if random.often(2) {
        return long(random);
    }
    let mut tokens = Vec::new();
    match random.below(10) {
        0 => {
            for _ in 0..random.between(1, 12) {
                tokens.push(any(random, grammar));
            }
        }
        1 => nested(random, grammar, &mut tokens),
        _ => {
            let most = random.between(1, 120);
            derive(random, grammar, "Statements", most, &mut tokens);
        }
    }
    if random.often(400) {
        for _ in 0..random.between(1, 2) {
            damage(random, grammar, &mut tokens);
        }
    }
    let mut out = spaced(random, &tokens);
    if random.often(100) && !out.is_empty() {
        let at = random.below(out.len());
        out[at] = random.next() as u8;
    }
    if random.often(20) {
        shift(random, &mut out);
    }
    out
}

/// A text whose tree ends near 32,768 bytes: 14 for each statement.
fn long(random: &mut Random) -> Vec<u8> {
    random.pick(&["1;", "1 ", "42\n"]).repeat(random.between(2_336, 2_344)).into_bytes()
}

/// Some piece that a production names, or an odd one.
fn any(random: &mut Random, grammar: &Grammar) -> String {
    loop {
        let rule = &grammar.rules[random.below(grammar.rules.len())];
        if random.often(60) {
            return random.pick(&ODD).to_string();
        }
        if let Some(symbol) = rule.right.iter().copied().filter(|s| !derives(s)).last() {
            return token(random, symbol);
        }
    }
}

fn token(random: &mut Random, symbol: &str) -> String {
    match symbol {
        "name" => random.pick(&NAMES).to_string(),
        "integer" if random.often(900) => random.below(1000).to_string(),
        "integer" => random.pick(&INTEGERS).to_string(),
        "string" => random.pick(&STRINGS).to_string(),
        _ => symbol.to_string(),
    }
}

/// What a symbol derives: up to so many tokens any production now and then, behind them the shortest.
fn derive(random: &mut Random, grammar: &Grammar, symbol: &'static str, most: usize, out: &mut Vec<String>) {
    let rules = &grammar.of[symbol];
    let short = match symbol {
        "Primary" | "Primary'" => rules[0],
        _ if random.often(450) && out.len() < most => *random.pick(rules),
        "Statements" | "List" | "Pairs" | "Names" if out.len() < most => rules[1],
        "Statement" | "Statement'" => rules[2],
        _ => rules[0],
    };
    let rule = if symbol.starts_with("Primary") && random.often(700) && out.len() < most {
        *random.pick(rules)
    } else {
        short
    };
    for &symbol in &grammar.rules[rule].right {
        if derives(symbol) {
            derive(random, grammar, symbol, most, out);
        } else {
            out.push(token(random, symbol));
        }
    }
}

/// Pieces that nest, around the limit of levels.
fn nested(random: &mut Random, grammar: &Grammar, out: &mut Vec<String>) {
    let (one, mut ends) = (*random.pick(&OPEN), Vec::new());
    let (mixed, depth) = (random.often(600), random.between(1, 66));
    for _ in 0..depth {
        let (open, end) = if mixed { *random.pick(&OPEN) } else { one };
        out.push(open.into());
        ends.push(end.into());
    }
    let most = out.len() + random.below(8);
    derive(random, grammar, "Equality", most, out);
    ends.reverse();
    out.append(&mut ends);
}

/// A token left out, doubled, replaced, put in, or the end cut.
fn damage(random: &mut Random, grammar: &Grammar, tokens: &mut Vec<String>) {
    let at = random.below(tokens.len() + 1);
    let other = any(random, grammar);
    match random.below(5) {
        0 if at < tokens.len() => drop(tokens.remove(at)),
        1 if at < tokens.len() => tokens.insert(at, tokens[at].clone()),
        2 if at < tokens.len() => tokens[at] = other,
        3 => tokens.truncate(at),
        _ => tokens.insert(at, other),
    }
}

/// The tokens with blanks between them: in most texts where the pieces would be one without.
fn spaced(random: &mut Random, tokens: &[String]) -> Vec<u8> {
    let careful = random.often(900);
    let mut out: Vec<u8> = Vec::new();
    for token in tokens {
        let joins = |b: &u8| b.is_ascii_alphanumeric() || b"_=!".contains(b);
        if (careful && out.last().is_some_and(joins)) || random.often(200) {
            out.extend_from_slice(random.pick(&BLANKS).as_bytes());
        }
        out.extend_from_slice(token.as_bytes());
    }
    out
}

/// Blanks in front, or a long string, so that the text ends near offset 8,192.
fn shift(random: &mut Random, out: &mut Vec<u8>) {
    let size = (8_185 + random.below(20)).saturating_sub(out.len());
    let mut front = vec![b' '; size];
    if random.often(500) && size > 3 {
        front = [b"\"", &vec![b'x'; size - 3][..], b"\"+"].concat();
    }
    front.append(out);
    *out = front;
}
