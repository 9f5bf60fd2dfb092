//! The published Rust as the reference: what it answers on tree bytes, and its state between trees.
use std::cell::RefCell;
use std::panic::{catch_unwind, AssertUnwindSafe};
use std::rc::Rc;

use crate::compiler::{Compiler, SymbolTable};
use crate::evaluator::objects::Object;
use crate::parser::ast;
use crate::tree;
use crate::vm::bytecode::Bytecode;

/// The words of a session: document 01's six where it has two fields, or a list in a first field of its own.
pub type Words = Option<Vec<Vec<u8>>>;

/// Document 01's words.
pub fn six() -> Vec<Vec<u8>> {
    ["len", "puts", "first", "last", "rest", "push"].iter().map(|w| w.as_bytes().to_vec()).collect()
}

/// The list of words.
pub fn listed(words: &Words) -> Vec<Vec<u8>> {
    words.clone().unwrap_or_else(six)
}

/// Symbol table and constants between two trees, the names defined so far by global index, and the words as the session has them.
pub struct State {
    pub table: SymbolTable,
    pub constants: Vec<Object>,
    pub names: Vec<Vec<u8>>,
    pub words: Words,
}

/// What the Rust made of an accepted tree.
pub struct Accepted {
    pub code: Vec<u8>,
    pub state: State,
}

/// What the Rust answered, and, where it refused, how much it had added by then.
pub enum Outcome {
    Accepted(Accepted),
    BadTree,
    Refused { message: String, definitions: usize, constants: Vec<Object> },
}

thread_local! {
    static LAST_PANIC: RefCell<String> = const { RefCell::new(String::new()) };
}

/// Panics are recorded and not printed: `MESSAGE at FILE:LINE`, FILE below the published folder.
pub fn record_panics() {
    std::panic::set_hook(Box::new(|info| {
        let payload = info.payload();
        let text = payload.downcast_ref::<&str>().map(|s| s.to_string());
        let text = text.or_else(|| payload.downcast_ref::<String>().cloned()).unwrap_or_default();
        let place = info.location().map(|l| {
            let file = l.file().rsplit("/monkey/").next().unwrap_or_default();
            format!("{}:{}", file, l.line())
        });
        let text = format!("{} at {}", text, place.unwrap_or_default());
        LAST_PANIC.with(|p| *p.borrow_mut() = text);
    }));
}

pub fn last_panic() -> String {
    LAST_PANIC.with(|p| p.borrow().clone())
}

impl State {
    /// These words, nothing else.
    pub fn begun(words: &Words) -> Self {
        let mut table = SymbolTable::new();
        for (i, name) in listed(words).iter().enumerate() {
            table.define_builtin(i as u8, tree::to_string(name));
        }
        State { table, constants: Vec::new(), names: Vec::new(), words: words.clone() }
    }

    /// Names and constants as a session's fields 40 and 51.
    pub fn names_and_pool(&self) -> Vec<u8> {
        let mut out = Vec::new();
        field(&mut out, 0x40, &name_fields(&self.names));
        field(&mut out, 0x51, &constants(&self.constants));
        out
    }

    /// The session that holds words, names and constants, without the zeros behind.
    pub fn session(&self) -> Vec<u8> {
        let mut out = Vec::new();
        self.words.iter().for_each(|list| field(&mut out, 0x42, &name_fields(list)));
        out.extend(self.names_and_pool());
        out
    }
}

impl Accepted {
    /// Main code and the whole pool as fields.
    pub fn image(&self) -> Vec<u8> {
        let mut out = Vec::new();
        field(&mut out, 0x50, &self.code);
        field(&mut out, 0x51, &constants(&self.state.constants));
        out
    }
}

/// Names as fields, one behind the other.
pub fn name_fields(names: &[Vec<u8>]) -> Vec<u8> {
    let mut out = Vec::new();
    names.iter().for_each(|n| field(&mut out, 0x30, n));
    out
}

/// Adds a field; of a content above 65,535 bytes, which passes every limit, only the tag and FFFF.
fn field(out: &mut Vec<u8>, tag: u8, content: &[u8]) {
    out.push(tag);
    match u16::try_from(content.len()) {
        Ok(length) => {
            out.extend_from_slice(&length.to_be_bytes());
            out.extend_from_slice(content);
        }
        Err(_) => out.extend_from_slice(&[0xff, 0xff]),
    }
}

/// The constants as document 01's fields.
pub fn constants(list: &[Object]) -> Vec<u8> {
    let mut out = Vec::new();
    for constant in list {
        match constant {
            Object::Integer(i) => field(&mut out, 0x60, &i.value.to_be_bytes()),
            Object::StringLit(s) => field(&mut out, 0x61, &tree::to_bytes(&s.value)),
            Object::CompiledFunction(f) => {
                let mut content = f.num_locals.to_be_bytes().to_vec();
                content.push(f.num_parameters);
                content.extend_from_slice(&f.instructions.0);
                field(&mut out, 0x62, &content)
            }
            _ => unreachable!("the compiler makes no other constant"),
        }
    }
    out
}

/// The names that a program defines outside functions, in the order in which the Rust compiles them.
fn definitions(program: &ast::Program) -> Vec<Vec<u8>> {
    let mut names = Vec::new();
    program.statements.iter().for_each(|s| stmt_names(s, &mut names));
    names
}

fn stmt_names(stmt: &ast::Stmt, names: &mut Vec<Vec<u8>>) {
    match stmt {
        ast::Stmt::Block(b) => b.statements.iter().for_each(|s| stmt_names(s, names)),
        ast::Stmt::ExprStmt(e) => expr_names(&e.expr, names),
        ast::Stmt::Let(l) => {
            names.push(tree::to_bytes(&l.name.value));
            expr_names(&l.value, names)
        }
        ast::Stmt::Return(r) => expr_names(&r.return_value, names),
    }
}

fn expr_names(expr: &ast::Expr, names: &mut Vec<Vec<u8>>) {
    match expr {
        ast::Expr::PrefixExpr(e) => expr_names(&e.right, names),
        ast::Expr::InfixExpr(e) if e.ope == ast::Operator::Lt => {
            expr_names(&e.right, names);
            expr_names(&e.left, names)
        }
        ast::Expr::InfixExpr(e) => {
            expr_names(&e.left, names);
            expr_names(&e.right, names)
        }
        ast::Expr::If(e) => {
            expr_names(&e.cond, names);
            e.consequence.statements.iter().for_each(|s| stmt_names(s, names));
            e.alternative.iter().flat_map(|b| &b.statements).for_each(|s| stmt_names(s, names))
        }
        ast::Expr::Call(e) => {
            expr_names(&e.func, names);
            e.args.iter().for_each(|a| expr_names(a, names))
        }
        ast::Expr::Array(e) => e.elements.iter().for_each(|a| expr_names(a, names)),
        ast::Expr::Index(e) => {
            expr_names(&e.left, names);
            expr_names(&e.index, names)
        }
        ast::Expr::Hash(e) => e.pairs.iter().for_each(|p| {
            expr_names(&p.key, names);
            expr_names(&p.value, names)
        }),
        _ => {}
    }
}

/// The Rust on one tree, from copies of the state: the state itself stays as it was.
pub fn compile(state: &State, bytes: &[u8]) -> Outcome {
    let Ok(program) = tree::program(bytes) else { return Outcome::BadTree };
    let new_names = definitions(&program);
    let table = Rc::new(RefCell::new(state.table.clone()));
    let mut constants = state.constants.clone();
    let compiled = catch_unwind(AssertUnwindSafe(|| {
        let mut compiler = Compiler::new_with_state(Rc::clone(&table), &mut constants);
        compiler.compile(program.into()).map(|()| Bytecode::from(compiler))
    }));
    let message = match compiled {
        Ok(Ok(bytecode)) => {
            let names = state.names.iter().cloned().chain(new_names).collect();
            let words = Some(listed(&state.words));
            let state = State { table: table.borrow().clone(), constants: bytecode.constants, names, words };
            return Outcome::Accepted(Accepted { code: bytecode.instructions.0, state });
        }
        Ok(Err(error)) => format!("err {error}"),
        Err(_) => format!("panic {}", last_panic()),
    };
    let definitions = usize::from(table.borrow().num_definitions);
    Outcome::Refused { message, definitions, constants }
}

/// The index that the Rust's table has for a global, if it has one.
pub fn global_index(table: &mut SymbolTable, name: &[u8]) -> Option<usize> {
    let symbol = table.resolve(&tree::to_string(name))?;
    let shown = format!("{:?}", symbol.borrow());
    let index = shown.strip_prefix("Global {")?.rsplit("index: ").next()?.trim_end_matches(" }").parse();
    index.ok()
}

/// Document 01's number for what the Rust says, 0 if it is none of them (5 to 10).
pub fn number(message: &str) -> usize {
    const SYMBOLS: &str = include_str!(concat!(env!("OUT_DIR"), "/monkey/compiler/symbol_table.rs"));
    let panicked = |what: &str| {
        let line = message.rsplit_once("compiler/symbol_table.rs:").and_then(|(_, n)| n.parse::<usize>().ok());
        line.and_then(|n| SYMBOLS.lines().nth(n - 1)).is_some_and(|text| text.contains(what))
    };
    match message {
        m if m.starts_with("err undefined variable ") => 5,
        m if m.starts_with("err unknown operator ") => 6,
        m if m.starts_with("panic not implemented at compiler.rs:") => 7,
        "err out of range integral type conversion attempted" => 8,
        m if m.starts_with("panic ") && panicked("u8::try_from(self.num_definitions)") => 9,
        m if m.starts_with("panic ") && panicked("u8::try_from(self.free_symbols.len())") => 10,
        _ => 0,
    }
}
