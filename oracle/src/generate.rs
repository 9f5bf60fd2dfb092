//! Random trees by the grammar, in several styles.
use crate::node::{self, Node};
use crate::random::Random;

/// How often what is generated; parts are of a thousand.
#[derive(Clone)]
pub struct Style {
    /// Fields that a tree may have, about.
    pub budget: usize,
    /// Levels of expressions and statements, about half of document 01's levels.
    pub depth: usize,
    /// How many names are in use.
    pub names: usize,
    /// Weights of the kinds of expressions, in the order of their tags from 20 on.
    pub weights: [usize; 13],
    /// Identifiers that nothing defines (but by chance).
    pub undefined: usize,
    /// Operators that the compiler refuses.
    pub operators: usize,
    /// Names of any bytes and up to 33 of them.
    pub odd_names: usize,
    /// Per mille of the function literals that are no value of a `let` and have a name all the same.
    pub named: usize,
    /// Per mille of the functions that have so many parameters that a lookup asks for a global or builtin first.
    pub long: usize,
    pub longest_string: usize,
    pub most_children: usize,
}

const PLAIN: [usize; 13] = [24, 5, 14, 8, 8, 8, 12, 6, 6, 4, 3, 3, 0];
const CLOSURES: [usize; 13] = [40, 2, 8, 4, 24, 12, 3, 1, 1, 3, 1, 1, 0];
const BRANCHES: [usize; 13] = [14, 3, 6, 36, 8, 4, 8, 10, 2, 2, 1, 2, 0];
const DATA: [usize; 13] = [6, 3, 6, 2, 3, 3, 22, 10, 22, 10, 6, 10, 0];
const MACROS: [usize; 13] = [24, 5, 14, 8, 8, 8, 12, 6, 6, 4, 3, 3, 1];

impl Style {
    fn new(budget: usize, depth: usize, names: usize, weights: [usize; 13]) -> Self {
        let (undefined, operators, odd_names, named, long) = (0, 0, 5, 200, 30);
        let (longest_string, most_children) = (12, 4);
        Style { budget, depth, names, weights, undefined, operators, odd_names, named, long, longest_string, most_children }
    }

    /// One of the styles.
    pub fn random(random: &mut Random) -> Style {
        let small = random.between(2, 60);
        let mut style = match random.below(100) {
            0..=29 => Style::new(small, 12, 6, PLAIN),
            30..=39 => Style::new(small * 2, 24, random.between(2, 40), CLOSURES),
            40..=49 => Style { named: 700, ..Style::new(small * 2, 24, random.between(2, 12), CLOSURES) },
            50..=59 => Style::new(small, 12, 3, BRANCHES),
            60..=69 => Style::new(small, 10, 4, DATA),
            70..=76 => Style { named: 800, ..Style::new(small, 14, 2, CLOSURES) },
            77..=86 => Style { undefined: 40, operators: 30, ..Style::new(small, 12, 6, MACROS) },
            87..=94 => Style { odd_names: 300, longest_string: 60, ..Style::new(small, 12, 6, PLAIN) },
            95..=97 => Style { most_children: 40, ..Style::new(600, 30, 200, CLOSURES) },
            98 => Style { most_children: 60, longest_string: 600, ..Style::new(300, 32, 20, DATA) },
            _ => Style { most_children: 200, ..Style::new(3000, 34, 400, PLAIN) },
        };
        if random.often(30) {
            style.depth = random.between(40, 70);
        }
        style
    }
}

/// A tree that grows: who may still be added, and which names each open function has.
pub struct Grammar<'a> {
    random: &'a mut Random,
    style: Style,
    left: usize,
    scopes: Vec<Vec<Vec<u8>>>,
    /// The session's words.
    words: Vec<Vec<u8>>,
}

/// The name with this number: a letter, then letters and digits.
pub fn name(number: usize) -> Vec<u8> {
    const WORDS: [&str; 8] = ["a", "b", "len", "c", "push", "x", "first", "puts"];
    WORDS.get(number).map_or_else(|| format!("v{number}").into_bytes(), |w| w.as_bytes().to_vec())
}

impl<'a> Grammar<'a> {
    /// Begins with these globals and these words.
    pub fn new(random: &'a mut Random, style: Style, globals: Vec<Vec<u8>>, words: Vec<Vec<u8>>) -> Self {
        Grammar { random, left: style.budget, style, scopes: vec![globals], words }
    }

    /// A whole tree, and the globals that there are after it.
    pub fn program(mut self) -> (Node, Vec<Vec<u8>>) {
        let mut statements = Vec::new();
        while self.left > 0 && statements.len() < 1 + self.style.budget / 4 {
            statements.push(self.statement(0));
        }
        (node::program(statements), self.scopes.swap_remove(0))
    }

    fn new_name(&mut self) -> Vec<u8> {
        if self.random.often(self.style.odd_names) {
            let length = *self.random.pick(&[1, 1, 2, 5, 31, 32, 32]);
            return self.random.bytes(length);
        }
        if !self.words.is_empty() && self.random.often(30) {
            return self.random.pick(&self.words).clone();
        }
        name(self.random.below(self.style.names))
    }

    fn known_name(&mut self) -> Vec<u8> {
        if self.random.often(self.style.undefined) {
            return self.new_name();
        }
        let scope = self.random.below(self.scopes.len());
        let names = &self.scopes[scope];
        match names.len() {
            0 if self.words.is_empty() => name(*self.random.pick(&[2, 4, 6, 7])),
            0 => self.random.pick(&self.words).clone(),
            _ if !self.words.is_empty() && self.random.often(60) => self.random.pick(&self.words).clone(),
            n => names[self.random.below(n)].clone(),
        }
    }

    fn define(&mut self, name: &[u8]) {
        self.scopes.last_mut().unwrap().push(name.to_vec());
    }

    fn statements(&mut self, depth: usize) -> Vec<Node> {
        let count = self.random.below(self.style.most_children);
        let mut list = Vec::new();
        while list.len() < count && self.left > 0 && depth < self.style.depth {
            list.push(self.statement(depth));
        }
        list
    }

    /// The statements of a branch, most often with a value at their end.
    fn branch(&mut self, depth: usize) -> Vec<Node> {
        let mut list = self.statements(depth);
        let yields = list.last().is_some_and(|last| matches!(last.tag, 0x11 | 0x14));
        if !yields && self.random.often(970) {
            list.push(node::expr_stmt(self.leaf()));
        }
        list
    }

    fn statement(&mut self, depth: usize) -> Node {
        self.left = self.left.saturating_sub(1);
        match self.random.below(20) {
            0..=9 => node::expr_stmt(self.expression(depth + 1)),
            10..=16 => {
                let name = self.new_name();
                self.define(&name);
                let value = if self.random.often(400) && depth < self.style.depth && self.left > 0 {
                    self.function(depth + 1, Some(name.clone()))
                } else {
                    self.expression(depth + 1)
                };
                node::let_stmt(&name, value)
            }
            17 => node::block(self.statements(depth + 1)),
            _ => node::return_stmt(self.expression(depth + 1)),
        }
    }

    fn function(&mut self, depth: usize, let_name: Option<Vec<u8>>) -> Node {
        let name = match let_name {
            Some(name) if self.random.often(800) => name,
            _ if self.random.often(self.style.named) => self.new_name(),
            _ => Vec::new(),
        };
        let mut scope = Vec::new();
        scope.extend((!name.is_empty()).then(|| name.clone()));
        let count = match self.random.often(self.style.long) {
            true => self.random.between(14, 40),
            false => self.random.below(self.style.most_children.min(5)),
        };
        let params: Vec<_> = (0..count).map(|_| self.new_name()).collect();
        scope.extend(params.iter().cloned());
        self.scopes.push(scope);
        let body = self.statements(depth + 2);
        self.scopes.pop();
        node::function(&name, &params, body)
    }

    fn expressions(&mut self, depth: usize) -> Vec<Node> {
        let count = self.random.below(self.style.most_children);
        let mut list = Vec::new();
        while list.len() < count && self.left > 0 {
            list.push(self.expression(depth));
        }
        list
    }

    fn leaf(&mut self) -> Node {
        match self.random.below(6) {
            0..=2 => node::identifier(&self.known_name()),
            3 => node::integer(self.integer()),
            4 => node::boolean(self.random.often(500)),
            _ => node::string(&self.string()),
        }
    }

    fn integer(&mut self) -> i64 {
        *self.random.pick(&[0, 1, -1, 7, 0x0607_0607, i64::MIN, i64::MAX, 1 << 40])
    }

    fn string(&mut self) -> Vec<u8> {
        let length = self.random.below(self.style.longest_string);
        self.random.bytes(length)
    }

    fn operator(&mut self, good: &[u8]) -> u8 {
        if self.random.often(self.style.operators) {
            self.random.below(10) as u8
        } else {
            *self.random.pick(good)
        }
    }

    fn kind(&mut self) -> u8 {
        let mut at = self.random.below(self.style.weights.iter().sum());
        for (kind, weight) in self.style.weights.iter().enumerate() {
            if at < *weight {
                return 0x20 + kind as u8;
            }
            at -= weight;
        }
        unreachable!("the weights' sum is above each of them")
    }

    fn expression(&mut self, depth: usize) -> Node {
        if self.left == 0 || depth >= self.style.depth {
            return self.leaf();
        }
        self.left -= 1;
        let d = depth + 1;
        match self.kind() {
            0x20 => node::identifier(&self.known_name()),
            0x21 => node::prefix(self.operator(&[2, 3]), self.expression(d)),
            0x22 => {
                let left = self.expression(d);
                node::infix(left, self.operator(&[1, 2, 4, 5, 6, 7, 8, 9]), self.expression(d))
            }
            0x23 => {
                let (condition, consequence) = (self.expression(d), self.branch(d + 1));
                let alternative = self.random.often(500).then(|| self.branch(d + 1));
                node::if_expr(condition, consequence, alternative)
            }
            0x24 => self.function(d, None),
            0x25 => {
                let callee = self.expression(d);
                node::call(callee, self.expressions(d))
            }
            0x26 => node::integer(self.integer()),
            0x27 => node::boolean(self.random.often(500)),
            0x28 => node::string(&self.string()),
            0x29 => node::array(self.expressions(d)),
            0x2A => node::index(self.expression(d), self.expression(d)),
            0x2B => {
                let pairs = self.random.below(self.style.most_children);
                node::hash((0..2 * pairs).map(|_| self.expression(d)).collect())
            }
            _ => node::macro_lit(&[name(0)], self.statements(d + 1)),
        }
    }
}
