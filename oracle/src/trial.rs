//! Trial runs: trees evaluated by document 02's rules (P13), against `monkey_run` on their images. Nothing here looks at code but its length.
use crate::node::{Body, Node};
use crate::port::{self, Answer, CODE_SIZE, SESSION_SIZE, TABLE_SIZE, WORK_SIZE};
use crate::random::Random;

#[derive(Clone, Copy, Debug, PartialEq, Eq)]
enum Value {
    Integer(i64),
    Boolean(bool),
    Null,
}

/// Why an evaluation ends before the tree does: a return, or a stop of this number.
enum End {
    Returned,
    Stop(usize),
}

type Evaluated<T> = Result<T, End>;

/// An expression whose names stand for globals.
enum Expr {
    Value(Value),
    Global(usize),
    Prefix(u8, Box<Expr>),
    Infix(Box<Expr>, u8, Box<Expr>),
    If(Box<Expr>, Vec<Stmt>, Option<Vec<Stmt>>),
}

enum Stmt {
    Expr(Expr),
    Let(usize, Expr),
    Return(Expr),
    Block(Vec<Stmt>),
}

/// The names of the globals defined so far in the order of document 01's walk.
#[derive(Default)]
struct Names(Vec<Vec<u8>>);

fn children(node: &Node) -> &[Node] {
    match &node.body {
        Body::Children(list) => list,
        Body::Bytes(_) => &[],
    }
}

fn bytes(node: &Node) -> &[u8] {
    match &node.body {
        Body::Bytes(bytes) => bytes,
        Body::Children(_) => &[],
    }
}

impl Names {
    /// Statements in the walk's order; nothing if one has no part in a trial run or a name no global.
    fn statements(&mut self, list: &[Node]) -> Option<Vec<Stmt>> {
        list.iter().map(|node| self.statement(node)).collect()
    }

    fn statement(&mut self, node: &Node) -> Option<Stmt> {
        let parts = children(node);
        Some(match node.tag {
            0x11 => Stmt::Expr(self.expr(&parts[0])?),
            0x12 => Stmt::Block(self.statements(parts)?),
            0x13 => {
                let index = self.0.len();
                self.0.push(bytes(&parts[0]).to_vec());
                Stmt::Let(index, self.expr(&parts[1])?)
            }
            0x14 => Stmt::Return(self.expr(&parts[0])?),
            _ => return None,
        })
    }

    fn expr(&mut self, node: &Node) -> Option<Expr> {
        let parts = children(node);
        Some(match node.tag {
            0x20 => Expr::Global(self.0.iter().rposition(|name| name == bytes(node))?),
            0x21 => Expr::Prefix(bytes(&parts[0])[0], Box::new(self.expr(&parts[1])?)),
            0x22 => self.infix(&parts[0], bytes(&parts[1])[0], &parts[2])?,
            0x23 => {
                let condition = Box::new(self.expr(&parts[0])?);
                let consequence = self.statements(children(&parts[1]))?;
                let alternative = match parts.get(2) {
                    Some(block) => Some(self.statements(children(block))?),
                    None => None,
                };
                Expr::If(condition, consequence, alternative)
            }
            0x26 => Expr::Value(Value::Integer(i64::from_be_bytes(bytes(node).try_into().ok()?))),
            0x27 => Expr::Value(Value::Boolean(bytes(node) == [1])),
            _ => return None,
        })
    }

    /// The right side of `<` is walked first.
    fn infix(&mut self, left: &Node, operator: u8, right: &Node) -> Option<Expr> {
        let (left, right) = if operator == 8 {
            let right = self.expr(right)?;
            (self.expr(left)?, right)
        } else {
            let left = self.expr(left)?;
            (left, self.expr(right)?)
        };
        Some(Expr::Infix(Box::new(left), operator, Box::new(right)))
    }
}

/// Whether a list has no statement but empty Blocks.
fn nothing(list: &[Stmt]) -> bool {
    list.iter().all(|s| matches!(s, Stmt::Block(inner) if nothing(inner)))
}

/// The exact result, if it is a 64-bit number.
fn integer(exact: i128) -> Evaluated<Value> {
    i64::try_from(exact).map(Value::Integer).map_err(|_| End::Stop(28))
}

/// An operator on two values, both known.
fn operate(operator: u8, left: Value, right: Value) -> Evaluated<Value> {
    match operator {
        6 => return Ok(Value::Boolean(left == right)),
        7 => return Ok(Value::Boolean(left != right)),
        _ => {}
    }
    let (Value::Integer(left), Value::Integer(right)) = (left, right) else { return Err(End::Stop(28)) };
    let (left, right) = (i128::from(left), i128::from(right));
    match operator {
        1 => integer(left + right),
        2 => integer(left - right),
        4 => integer(left * right),
        5 if right == 0 => Err(End::Stop(28)),
        5 => integer(left / right),
        8 => Ok(Value::Boolean(left < right)),
        _ => Ok(Value::Boolean(left > right)),
    }
}

fn is_true(value: Value) -> bool {
    !matches!(value, Value::Boolean(false) | Value::Null)
}

/// An evaluation: the globals, nothing where one is unset, and how many instructions the book's compiler makes of what was evaluated.
struct Evaluation {
    globals: Vec<Option<Value>>,
    steps: usize,
}

impl Evaluation {
    /// The value of the last statement that is no empty Block, if it has one.
    fn statements(&mut self, list: &[Stmt]) -> Evaluated<Option<Value>> {
        let mut last = None;
        for statement in list {
            match statement {
                Stmt::Expr(e) => last = Some(self.expr(e)?),
                Stmt::Let(index, e) => {
                    self.globals[*index] = Some(self.expr(e)?);
                    last = None;
                }
                Stmt::Return(e) => {
                    self.expr(e)?;
                    self.steps += 1;
                    return Err(End::Returned);
                }
                Stmt::Block(inner) if nothing(inner) => continue,
                Stmt::Block(inner) => {
                    last = self.statements(inner)?;
                    continue;
                }
            }
            self.steps += 1;
        }
        Ok(last)
    }

    /// A branch, whose last Pop is dropped. One without a value is not accepted.
    fn branch(&mut self, list: &[Stmt]) -> Evaluated<Value> {
        let value = self.statements(list)?.ok_or(End::Stop(22))?;
        self.steps -= 1;
        Ok(value)
    }

    fn expr(&mut self, expr: &Expr) -> Evaluated<Value> {
        let value = match expr {
            Expr::Value(value) => *value,
            Expr::Global(index) => self.globals[*index].ok_or(End::Stop(29))?,
            Expr::Prefix(operator, right) => match (operator, self.expr(right)?) {
                (3, right) => Value::Boolean(!is_true(right)),
                (_, Value::Integer(right)) => integer(-i128::from(right))?,
                _ => return Err(End::Stop(28)),
            },
            Expr::Infix(left, 8, right) => {
                let right = self.expr(right)?;
                operate(8, self.expr(left)?, right)?
            }
            Expr::Infix(left, operator, right) => {
                let left = self.expr(left)?;
                operate(*operator, left, self.expr(right)?)?
            }
            Expr::If(condition, consequence, alternative) => return self.choose(condition, consequence, alternative),
        };
        self.steps += 1;
        Ok(value)
    }

    /// An If: the condition and a jump; the consequence and a jump, or the alternative, or null.
    fn choose(&mut self, condition: &Expr, consequence: &[Stmt], alternative: &Option<Vec<Stmt>>) -> Evaluated<Value> {
        let chosen = is_true(self.expr(condition)?);
        self.steps += 1;
        if chosen {
            let value = self.branch(consequence)?;
            self.steps += 1;
            return Ok(value);
        }
        match alternative {
            Some(list) => self.branch(list),
            None => {
                self.steps += 1;
                Ok(Value::Null)
            }
        }
    }
}

/// Nine bytes for a global.
fn record(global: Option<Value>) -> [u8; 9] {
    let (kind, value) = match global {
        None => (0, 0),
        Some(Value::Integer(n)) => (1, n),
        Some(Value::Boolean(b)) => (2, i64::from(b)),
        Some(Value::Null) => (3, 0),
    };
    let mut bytes = [kind; 9];
    bytes[1..].copy_from_slice(&value.to_be_bytes());
    bytes
}

/// What a trial run of the tree's image must answer: globals and steps, or the number of a stop. Nothing if the tree has other parts or names.
fn evaluate(tree: &Node) -> Option<Result<(Vec<u8>, usize), usize>> {
    let mut names = Names::default();
    let statements = names.statements(children(tree))?;
    let mut evaluation = Evaluation { globals: vec![None; names.0.len()], steps: 0 };
    match evaluation.statements(&statements) {
        Err(End::Stop(number)) => Some(Err(number)),
        _ => Some(Ok((evaluation.globals.into_iter().flat_map(record).collect(), evaluation.steps))),
    }
}

/// How often each outcome was compared.
#[derive(Default, Clone, Debug)]
pub struct Counts {
    pub trees: u64,
    pub refused: u64,
    pub ended: u64,
    pub kinds: u64,
    pub unset: u64,
}

/// The lent memory; behind the work area stands a guard.
pub struct Trial {
    session: Vec<u8>,
    image: Vec<u8>,
    code: Vec<u8>,
    table: Vec<u32>,
    heights: Vec<u32>,
    work: Vec<u64>,
    output: Vec<u8>,
    pub counts: Counts,
}

const GUARD: u64 = 0xA5A5_A5A5_A5A5_A5A5;
const GUARDS: usize = 8;

impl Default for Trial {
    fn default() -> Self {
        Trial {
            session: vec![0; SESSION_SIZE],
            image: vec![0; 65_536],
            code: vec![0; CODE_SIZE],
            table: vec![0; TABLE_SIZE],
            heights: vec![0; 61_440],
            work: vec![0; WORK_SIZE + GUARDS],
            output: vec![0; 9 * 1024],
            counts: Counts::default(),
        }
    }
}

impl Trial {
    /// Compiles the tree in a fresh session and proposes heights: the image's length, and how many instructions main has; nothing if it is refused.
    fn compile(&mut self, tree: &[u8]) -> Result<Option<(usize, usize)>, String> {
        port::make_session(&mut self.session);
        let answer = port::compile(&mut self.session, tree, &mut self.image, &mut self.code, &mut self.table);
        let Answer::Length(length) = answer else { return Ok(None) };
        match port::propose_heights(&self.image[..length], &mut self.heights) {
            Answer::Length(instructions) => Ok(Some((length, instructions))),
            refused => Err(format!("heights of a compiled image: {refused:?}")),
        }
    }

    /// One tree: the run of its image, against its evaluation.
    pub fn tree(&mut self, tree: &Node, random: &mut Random) -> Result<(), String> {
        self.counts.trees += 1;
        let Some((length, instructions)) = self.compile(&tree.bytes())? else {
            self.counts.refused += 1;
            return Ok(());
        };
        let due = evaluate(tree).ok_or("accepted, but a name stands for no global")?;
        let fill = random.next() as u8;
        self.output.fill(fill);
        self.work.fill(random.next());
        self.work[WORK_SIZE..].fill(GUARD);
        let work = &mut self.work[..WORK_SIZE + random.below(GUARDS)];
        let answer = port::run(&self.image[..length], &self.heights[..instructions], work, &mut self.output);
        if self.work[..WORK_SIZE].iter().any(|n| *n != 0) || self.work[WORK_SIZE..].iter().any(|n| *n != GUARD) {
            return Err("the work area is not zero, or its end is passed".into());
        }
        self.judge(answer, due, instructions, fill)
    }

    fn judge(
        &mut self,
        answer: Answer,
        due: Result<(Vec<u8>, usize), usize>,
        instructions: usize,
        fill: u8,
    ) -> Result<(), String> {
        let written = match (answer, &due) {
            (Answer::Length(low), Ok((globals, steps))) => {
                self.counts.ended += 1;
                if (low >> 16, low & 0xffff) != (globals.len() / 9, *steps) || *steps > instructions {
                    return Err(format!("{low:#x}, but {steps} steps of {instructions} are due"));
                }
                &globals[..]
            }
            (Answer::Refused(number, _), Err(stop)) if number == *stop => {
                *(if number == 28 { &mut self.counts.kinds } else { &mut self.counts.unset }) += 1;
                &[]
            }
            _ => return Err(format!("{answer:?}, but {due:?} is due")),
        };
        let (front, rest) = self.output.split_at(written.len());
        if front != written || rest.iter().any(|b| *b != fill) {
            return Err(format!("globals {front:?}, but {written:?} is due, or more was written"));
        }
        Ok(())
    }
}
