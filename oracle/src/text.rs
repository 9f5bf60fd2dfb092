//! A second reading of scripts, after docs/GRAMMAR.md alone: an Earley recogniser over its productions (`grammar`).
//! A token is refused where no item is left behind it; a text with two derivations is reported.
use std::collections::HashMap;
use std::rc::Rc;

use crate::grammar::{derives, Grammar};
use crate::node::{self, Body, Node};
use crate::port::{self, Answer};
use crate::random::Random;

/// Tokens end at or before this offset.
const TEXT_LIMIT: usize = 8_192;
const TREE_LIMIT: usize = 32_768;
const LEVELS: usize = 64;

const WORDS: [&str; 7] = ["let", "return", "true", "false", "if", "else", "fn"];
const MARKS: [&str; 19] =
    ["==", "!=", "=", "!", "<", ">", "+", "-", "*", "/", "(", ")", "[", "]", "{", "}", ",", ":", ";"];

/// A piece of text: its symbol, where it begins and ends.
struct Piece {
    symbol: &'static str,
    start: usize,
    end: usize,
}

/// The longest piece at a place that is no blank, token or not.
fn piece(text: &[u8], start: usize) -> Option<Piece> {
    let rest = &text[start..];
    let run = |in_it: fn(u8) -> bool| rest.iter().take_while(|b| in_it(**b)).count();
    let (letters, digits) = (run(|b| b.is_ascii_alphabetic() || b == b'_'), run(|b| b.is_ascii_digit()));
    let (symbol, length) = if letters > 32 {
        return None;
    } else if letters > 0 {
        let word = WORDS.iter().find(|w| w.as_bytes() == &rest[..letters]);
        (*word.unwrap_or(&"name"), letters)
    } else if digits > 0 {
        ("integer", digits)
    } else if rest[0] == b'"' {
        ("string", rest[1..].iter().position(|b| *b == b'"')? + 2)
    } else {
        let mark = MARKS.iter().find(|m| rest.starts_with(m.as_bytes()))?;
        (*mark, mark.len())
    };
    Some(Piece { symbol, start, end: start + length })
}

/// A derivation: a token, or a production and what its symbols derive, the last first.
enum Derivation {
    Token(usize, usize),
    Rule(usize, Option<Rc<Row>>),
}

struct Row {
    last: Rc<Derivation>,
    before: Option<Rc<Row>>,
}

/// A production of which a part was read since a place, and what the part derives.
#[derive(Clone)]
struct Item {
    rule: usize,
    dot: usize,
    origin: usize,
    row: Option<Rc<Row>>,
}

/// The items behind a token, each once.
#[derive(Default)]
struct Items {
    list: Vec<Item>,
    known: HashMap<(usize, usize, usize), ()>,
    predicted: HashMap<&'static str, ()>,
    twice: bool,
}

impl Items {
    /// Takes an item in; a second derivation of the same is noted.
    fn add(&mut self, item: Item) {
        if self.known.insert((item.rule, item.dot, item.origin), ()).is_none() {
            self.list.push(item);
        } else {
            self.twice = true;
        }
    }

    /// The productions of a symbol, once.
    fn predict(&mut self, grammar: &Grammar, symbol: &'static str, origin: usize) {
        if self.predicted.insert(symbol, ()).is_none() {
            for &rule in grammar.of[symbol].iter().filter(|&&r| !grammar.rules[r].right.is_empty()) {
                self.add(Item { rule, dot: 0, origin, row: None });
            }
        }
    }
}

/// An item that has read one symbol more.
fn moved(item: &Item, last: Rc<Derivation>) -> Item {
    let row = Some(Rc::new(Row { last, before: item.row.clone() }));
    Item { dot: item.dot + 1, row, ..*item }
}

/// The production without symbols.
fn empty(grammar: &Grammar, symbol: &str) -> Option<Rc<Derivation>> {
    let rule = grammar.of[symbol].iter().find(|&&r| grammar.rules[r].right.is_empty())?;
    Some(Rc::new(Derivation::Rule(*rule, None)))
}

/// Predicts and completes in the last set until nothing is new.
fn close(grammar: &Grammar, sets: &mut [Items]) {
    let (now, mut at) = (sets.len() - 1, 0);
    while at < sets[now].list.len() {
        let item = sets[now].list[at].clone();
        at += 1;
        let rule = &grammar.rules[item.rule];
        if let Some(&symbol) = rule.right.get(item.dot) {
            if derives(symbol) {
                sets[now].predict(grammar, symbol, now);
                if let Some(none) = empty(grammar, symbol) {
                    sets[now].add(moved(&item, none));
                }
            }
            continue;
        }
        let whole = Rc::new(Derivation::Rule(item.rule, item.row));
        let waiting: Vec<_> =
            sets[item.origin].list.iter().filter(|i| next(grammar, i) == Some(rule.left)).cloned().collect();
        for item in waiting {
            sets[now].add(moved(&item, whole.clone()));
        }
    }
}

fn next(grammar: &Grammar, item: &Item) -> Option<&'static str> {
    grammar.rules[item.rule].right.get(item.dot).copied()
}

/// What a text must be answered: the bytes of its tree, or a number and a place.
pub type Due = Result<Vec<u8>, (usize, usize)>;

/// The answer to a text by the grammar, in an output of so many bytes; an error if a text has two derivations.
pub fn read(grammar: &Grammar, text: &[u8], room: usize) -> Result<Due, String> {
    let derivation = match derive(grammar, text)? {
        Ok(derivation) => derivation,
        Err(refusal) => return Ok(Err(refusal)),
    };
    let tree = node::program(Denotes { grammar, text }.all(&derivation));
    let bytes = tree.bytes();
    Ok(if levels(&tree) > LEVELS {
        Err((4, 0))
    } else if bytes.len() > room.min(TREE_LIMIT) {
        Err((15, 0))
    } else {
        Ok(bytes)
    })
}

/// The derivation of a text, or where it is refused.
fn derive(grammar: &Grammar, text: &[u8]) -> Result<Result<Rc<Derivation>, (usize, usize)>, String> {
    let mut sets = vec![Items::default()];
    sets[0].predict(grammar, "Statements", 0);
    close(grammar, &mut sets);
    let mut at = 0;
    loop {
        while at < text.len().min(TEXT_LIMIT) && b" \t\n\r".contains(&text[at]) {
            at += 1;
        }
        if at == text.len() {
            break;
        }
        let token = if at < TEXT_LIMIT { piece(text, at).filter(|p| p.end <= TEXT_LIMIT) } else { None };
        let Some(token) = token else { return Ok(Err((20, at))) };
        let read = Rc::new(Derivation::Token(token.start, token.end));
        let mut behind = Items::default();
        for item in &sets[sets.len() - 1].list {
            if next(grammar, item) == Some(token.symbol) {
                behind.add(moved(item, read.clone()));
            }
        }
        if behind.list.is_empty() {
            return Ok(Err((20, at)));
        }
        if token.symbol == "integer" && value(&text[token.start..token.end]).is_none() {
            return Ok(Err((21, at)));
        }
        sets.push(behind);
        close(grammar, &mut sets);
        if sets[sets.len() - 1].twice {
            return Err(format!("two derivations up to {}", token.end));
        }
        at = token.end;
    }
    if sets.len() == 1 {
        return Ok(Ok(empty(grammar, "Statements").unwrap()));
    }
    let last = &sets[sets.len() - 1];
    let mut wholes = last
        .list
        .iter()
        .filter(|i| i.origin == 0 && grammar.rules[i.rule].left == "Statements" && next(grammar, i).is_none());
    match (wholes.next(), wholes.next()) {
        (Some(_), Some(_)) => Err("two derivations".into()),
        (Some(item), None) => Ok(Ok(Rc::new(Derivation::Rule(item.rule, item.row.clone())))),
        _ => Ok(Err((20, text.len()))),
    }
}

fn value(digits: &[u8]) -> Option<i64> {
    std::str::from_utf8(digits).unwrap().parse().ok()
}

fn levels(node: &Node) -> usize {
    match &node.body {
        Body::Bytes(_) => 1,
        Body::Children(children) => 1 + children.iter().map(levels).max().unwrap_or(0),
    }
}

/// The fields that derivations denote.
struct Denotes<'a> {
    grammar: &'a Grammar,
    text: &'a [u8],
}

impl Denotes<'_> {
    /// The symbols of a derivation's production, with what each derives.
    fn parts<'d>(&self, derivation: &'d Derivation) -> Vec<(&'static str, &'d Derivation)> {
        let Derivation::Rule(rule, row) = derivation else { return Vec::new() };
        let (mut found, mut row) = (Vec::new(), row.as_ref());
        while let Some(r) = row {
            found.push(&*r.last);
            row = r.before.as_ref();
        }
        found.reverse();
        self.grammar.rules[*rule].right.iter().copied().zip(found).collect()
    }

    fn bytes(&self, derivation: &Derivation) -> &[u8] {
        let Derivation::Token(start, end) = derivation else { panic!("no token") };
        &self.text[*start..*end]
    }

    /// The statements, expressions or names in a row, in their order.
    fn all(&self, derivation: &Derivation) -> Vec<Node> {
        let mut found = Vec::new();
        for (symbol, part) in self.parts(derivation) {
            match symbol {
                "Row" | "Items" | "Entries" | "Parameters" | "Statements" => found.extend(self.all(part)),
                "Statement" | "Statement'" => found.push(self.statement(part)),
                "Equality" => found.push(self.expression(part)),
                "name" => found.push(node::leaf(0x30, self.bytes(part))),
                _ => {}
            }
        }
        found
    }

    fn statement(&self, derivation: &Derivation) -> Node {
        let parts = self.parts(derivation);
        let value = self.expression(parts[parts.len() - 1].1);
        match parts[0].0 {
            "let" => {
                let name = self.bytes(parts[1].1);
                node::let_stmt(name, named(name, value))
            }
            "return" => node::return_stmt(value),
            _ => node::expr_stmt(value),
        }
    }

    fn expression(&self, derivation: &Derivation) -> Node {
        let parts = self.parts(derivation);
        let sub = |k: usize| self.expression(parts[k].1);
        let symbols: Vec<_> = parts.iter().map(|p| p.0).collect();
        match symbols[..] {
            ["name"] => node::identifier(self.bytes(parts[0].1)),
            ["integer"] => node::integer(value(self.bytes(parts[0].1)).unwrap()),
            ["string"] => {
                let bytes = self.bytes(parts[0].1);
                node::string(&bytes[1..bytes.len() - 1])
            }
            ["true"] => node::boolean(true),
            ["false"] => node::boolean(false),
            [_] => sub(0),
            ["(", _, ")"] => sub(1),
            ["[", "List", "]"] => node::array(self.all(parts[1].1)),
            ["{", "Pairs", "}"] => node::hash(self.all(parts[1].1)),
            ["if", _, _, _, _] => node::if_expr(sub(2), self.block(parts[4].1), None),
            ["if", ..] => node::if_expr(sub(2), self.block(parts[4].1), Some(self.block(parts[6].1))),
            ["fn", ..] => {
                let names = node::branch(0x31, self.all(parts[2].1));
                node::branch(0x24, vec![node::leaf(0x30, b""), names, node::block(self.block(parts[4].1))])
            }
            [_, "(", _, _] => node::call(sub(0), self.all(parts[2].1)),
            [_, "[", _, _] => node::index(sub(0), sub(2)),
            [operator, _] => node::prefix(code(operator), sub(1)),
            [_, operator, _] => node::infix(sub(0), code(operator), sub(2)),
            _ => panic!("no expression: {symbols:?}"),
        }
    }

    fn block(&self, derivation: &Derivation) -> Vec<Node> {
        self.all(self.parts(derivation)[1].1)
    }
}

/// The byte of an operator's field.
fn code(operator: &str) -> u8 {
    ["=", "+", "-", "!", "*", "/", "==", "!=", "<", ">"].iter().position(|o| *o == operator).unwrap() as u8
}

/// A function that is a let's value takes its name.
fn named(name: &[u8], mut value: Node) -> Node {
    if let (0x24, Body::Children(children)) = (value.tag, &mut value.body) {
        children[0] = node::leaf(0x30, name);
    }
    value
}

/// Reads a text on both sides, with all the room, with just enough or less: the same answer, every byte of the output. The number, 0 where it was read.
pub fn compare(grammar: &Grammar, text: &[u8], random: &mut Random) -> Result<usize, String> {
    let due = read(grammar, text, TREE_LIMIT)?;
    let number = due.as_ref().err().map_or(0, |refusal| refusal.0);
    let length = due.as_ref().map_or(0, Vec::len);
    agree(text, 65_536, &due)?;
    agree(text, length, &due)?;
    if length > 0 {
        agree(text, random.below(length), &Err((15, 0)))?;
    }
    Ok(number)
}

/// One call into an output of so many bytes, in a longer buffer.
fn agree(text: &[u8], room: usize, due: &Due) -> Result<(), String> {
    const OTHER: u8 = 0xa5;
    let mut output = vec![OTHER; room + 16];
    let answer = port::read_text(text, &mut output[..room]);
    let (expected, length) = match due {
        Ok(tree) => (Answer::Length(tree.len()), tree.len()),
        Err((number, place)) => (Answer::Refused(*number, *place), 0),
    };
    let tree: &[u8] = due.as_deref().unwrap_or(&[]);
    if answer != expected {
        return Err(format!("in {room} bytes: {answer:?}, by the grammar {expected:?}"));
    }
    if &output[..length] != tree || output[length..].iter().any(|b| *b != OTHER) {
        return Err(format!("in {room} bytes: the output is another"));
    }
    Ok(())
}
