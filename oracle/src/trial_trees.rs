//! Random trees that a trial run takes: integers, booleans, operators, if, let, names, return, blocks. Most operands have the kind that their
//! operator asks for and most names are set, so that runs come far.
use crate::node::{self, Node};
use crate::random::Random;

#[derive(Clone, Copy, PartialEq)]
enum Kind {
    Integer,
    Boolean,
    Any,
}

const INTEGERS: [i64; 12] = [
    i64::MIN,
    i64::MIN + 1,
    i64::MAX,
    i64::MAX - 1,
    1 << 62,
    -(1 << 62),
    3_037_000_499,
    3_037_000_500,
    -3_037_000_500,
    1 << 32,
    -(1 << 31),
    10,
];

struct Trees<'a> {
    random: &'a mut Random,
    left: usize,
    depth: usize,
    names: Vec<(Vec<u8>, Kind)>,
    defined: usize,
}

impl Trees<'_> {
    fn kind(&mut self) -> Kind {
        *self.random.pick(&[Kind::Integer, Kind::Integer, Kind::Boolean, Kind::Any])
    }

    /// A new name most often; now and then one that there is.
    fn new_name(&mut self) -> Vec<u8> {
        if !self.names.is_empty() && self.random.often(150) {
            return self.random.pick(&self.names).0.clone();
        }
        self.defined += 1;
        format!("v{}", self.defined).into_bytes()
    }

    fn literal(&mut self, want: Kind) -> Node {
        match want {
            Kind::Boolean => node::boolean(self.random.often(500)),
            Kind::Any if self.random.often(500) => node::boolean(self.random.often(500)),
            _ if self.random.often(120) => node::integer(*self.random.pick(&INTEGERS)),
            _ => node::integer(self.random.below(19) as i64 - 9),
        }
    }

    fn leaf(&mut self, want: Kind) -> Node {
        let fits = |kind: Kind| want == Kind::Any || kind == want;
        let names: Vec<_> = self.names.iter().filter(|(_, kind)| fits(*kind)).map(|(name, _)| name.clone()).collect();
        if names.is_empty() || self.random.often(500) {
            return self.literal(want);
        }
        let name = self.random.pick(&names).clone();
        node::identifier(if self.random.often(2) { b"w" } else { &name })
    }

    fn operator(&mut self, operators: &[u8], want: Kind, depth: usize) -> Node {
        let left = self.expression(want, depth);
        let right = self.expression(want, depth);
        node::infix(left, *self.random.pick(operators), right)
    }

    fn expression(&mut self, want: Kind, depth: usize) -> Node {
        let want = if self.random.often(15) { Kind::Any } else { want };
        if self.left == 0 || depth >= self.depth {
            return self.leaf(want);
        }
        self.left -= 1;
        let d = depth + 1;
        match (self.random.below(10), want) {
            (0 | 1, _) => self.branches(want, d),
            (2..=4, _) => self.leaf(want),
            (5, Kind::Integer) => node::prefix(2, self.expression(Kind::Integer, d)),
            (_, Kind::Integer) => self.operator(&[1, 2, 4, 4, 5, 5], Kind::Integer, d),
            (5, _) => node::prefix(3, self.expression(Kind::Any, d)),
            (6, _) => self.operator(&[6, 7], Kind::Any, d),
            (7, _) => self.operator(&[6, 7], Kind::Integer, d),
            _ => self.operator(&[8, 9], Kind::Integer, d),
        }
    }

    fn branches(&mut self, want: Kind, depth: usize) -> Node {
        let condition = if self.random.often(800) { Kind::Boolean } else { Kind::Any };
        let condition = self.expression(condition, depth);
        let consequence = self.branch(want, depth + 1);
        let other = want != Kind::Any || self.random.often(500);
        let alternative = other.then(|| self.branch(want, depth + 1));
        node::if_expr(condition, consequence, alternative)
    }

    /// A branch: a value, most often, after some statements, in Blocks, before empty Blocks. Its names are most often not used behind it.
    fn branch(&mut self, want: Kind, depth: usize) -> Vec<Node> {
        let known = self.names.len();
        let mut list = self.statements(depth);
        match self.random.below(40) {
            0 => {}
            1 | 2 => list.push(node::return_stmt(self.expression(Kind::Any, depth))),
            _ => list.push(node::expr_stmt(self.expression(want, depth))),
        }
        if self.random.often(100) {
            list = vec![node::block(list)];
        }
        if self.random.often(100) {
            list.push(node::block(if self.random.often(300) { vec![node::block(Vec::new())] } else { Vec::new() }));
        }
        if self.random.often(850) {
            self.names.truncate(known);
        }
        list
    }

    fn statements(&mut self, depth: usize) -> Vec<Node> {
        let mut list = Vec::new();
        while self.left > 0 && depth < self.depth && self.random.often(350) {
            list.push(self.statement(depth));
        }
        list
    }

    fn statement(&mut self, depth: usize) -> Node {
        self.left = self.left.saturating_sub(1);
        match self.random.below(40) {
            0 => node::return_stmt(self.expression(Kind::Any, depth + 1)),
            1 | 2 => node::block(self.statements(depth + 1)),
            3..=11 => {
                let kind = self.kind();
                node::expr_stmt(self.expression(kind, depth + 1))
            }
            _ => {
                let (name, kind) = (self.new_name(), self.kind());
                let value = self.expression(kind, depth + 1);
                self.names.push((name.clone(), kind));
                node::let_stmt(&name, value)
            }
        }
    }
}

/// A random tree.
pub fn random_tree(random: &mut Random) -> Node {
    let left = random.between(2, 60);
    let depth = if random.often(30) { random.between(12, 40) } else { random.between(2, 10) };
    let mut trees = Trees { random, left, depth, names: Vec::new(), defined: 0 };
    let mut statements = Vec::new();
    while trees.left > 0 && statements.len() < 12 {
        statements.push(trees.statement(0));
    }
    node::program(statements)
}
