//! Numbers 5 to 14 and 22 with their places: documents 01 and 02 read once more, over the Rust's own symbol table. No code is
//! made here, only counted; and how each Identifier is resolved there.
use std::cell::RefCell;
use std::panic::{catch_unwind, AssertUnwindSafe};
use std::rc::Rc;

use crate::compiler::SymbolTable;
use crate::reference::{self, State};
use crate::tree::to_string;

/// Number and place of a refusal.
pub type Refused = (usize, usize);

type Walked = Result<(), Refused>;

#[derive(Clone, Copy, PartialEq)]
enum Last {
    Pop,
    ReturnValue,
    Other,
}

/// An open chunk: its length and its last instruction.
struct Chunk {
    length: usize,
    last: Last,
}

struct Walk<'a> {
    tree: &'a [u8],
    table: Rc<RefCell<SymbolTable>>,
    chunks: Vec<Chunk>,
    constants: usize,
    pool: usize,
    records: Vec<Record>,
}

/// How an Identifier was resolved: tree offset, kind, index, functions crossed.
pub type Record = [u32; 4];

/// Kind and index of a symbol; its type has no public name.
fn kind_and_index(symbol: &impl std::fmt::Debug) -> (u32, u32) {
    let text = format!("{symbol:?}");
    let kinds = ["Global", "Local", "Builtin", "Free", "Function"];
    let kind = kinds.iter().position(|k| text.split(' ').next() == Some(k)).expect("a symbol");
    let index = text.rsplit("index: ").next().and_then(|end| end.split(' ').next()?.parse().ok());
    (kind as u32, index.expect("a symbol's index"))
}

/// How many tables a lookup leaves behind until one holds the name.
fn crossed(table: &Rc<RefCell<SymbolTable>>, name: &str) -> u32 {
    let mut alone = table.borrow().clone();
    match alone.outer.take() {
        Some(outer) if alone.resolve(name).is_none() => 1 + crossed(&outer, name),
        _ => 0,
    }
}

/// How many bytes the load of a symbol has; its type has no public name.
fn load_bytes(symbol: &impl std::fmt::Debug) -> usize {
    match format!("{symbol:?}").split(' ').next() {
        Some("Global") => 3,
        Some("Function") => 1,
        _ => 2,
    }
}

/// The offsets of the fields in the content of the field at this offset.
fn children(tree: &[u8], at: usize) -> Vec<usize> {
    let length = |at: usize| 3 + usize::from(u16::from_be_bytes([tree[at + 1], tree[at + 2]]));
    let end = at + length(at);
    let mut list = Vec::new();
    let mut child = at + 3;
    while child < end {
        list.push(child);
        child += length(child);
    }
    list
}

impl Walk<'_> {
    fn content(&self, at: usize) -> &[u8] {
        let length = usize::from(u16::from_be_bytes([self.tree[at + 1], self.tree[at + 2]]));
        &self.tree[at + 3..at + 3 + length]
    }

    fn name(&self, at: usize) -> String {
        to_string(self.content(at))
    }

    fn chunk(&mut self) -> &mut Chunk {
        self.chunks.last_mut().expect("main is open")
    }

    fn emit(&mut self, bytes: usize, last: Last, place: usize) -> Walked {
        if self.chunks.iter().map(|c| c.length).sum::<usize>() + bytes > 32_768 {
            return Err((13, place));
        }
        let chunk = self.chunk();
        (chunk.length, chunk.last) = (chunk.length + bytes, last);
        Ok(())
    }

    /// A branch of the If at this place: its Block, which must emit something and end in Pop or ReturnValue; then without its Pop.
    fn branch(&mut self, block: usize, at: usize) -> Walked {
        let before = self.chunk().length;
        self.field(block)?;
        let chunk = self.chunk();
        if chunk.length == before {
            return Err((22, at));
        }
        match chunk.last {
            Last::Pop => (chunk.length, chunk.last) = (chunk.length - 1, Last::Other),
            Last::ReturnValue => {}
            Last::Other => return Err((22, at)),
        }
        Ok(())
    }

    fn add_constant(&mut self, bytes: usize, place: usize) -> Walked {
        (self.constants, self.pool) = (self.constants + 1, self.pool + bytes);
        if self.constants > 4096 || self.pool > 28_672 {
            Err((12, place))
        } else {
            Ok(())
        }
    }

    fn all(&mut self, list: &[usize]) -> Walked {
        list.iter().try_for_each(|at| self.field(*at))
    }

    fn define(&mut self, at: usize) -> Walked {
        let name = self.name(children(self.tree, at)[0]);
        let definitions = self.table.borrow().num_definitions;
        match self.chunks.len() {
            1 if definitions >= 1024 => return Err((11, at)),
            2.. if definitions >= 256 => return Err((9, at)),
            _ => drop(self.table.borrow_mut().define(name)),
        }
        let bytes = if self.chunks.len() == 1 { 3 } else { 2 };
        self.field(children(self.tree, at)[1])?;
        self.emit(bytes, Last::Other, at)
    }

    fn identifier(&mut self, at: usize) -> Walked {
        let name = self.name(at);
        let table = Rc::clone(&self.table);
        let crossed = crossed(&table, &name);
        let found = catch_unwind(AssertUnwindSafe(|| table.borrow_mut().resolve(&name)));
        let symbol = found.map_err(|_| (10, at))?.ok_or((5, at))?;
        let (kind, index) = kind_and_index(&*symbol.borrow());
        self.records.push([at as u32, kind, index, crossed]);
        let bytes = load_bytes(&*symbol.borrow());
        self.emit(bytes, Last::Other, at)
    }

    fn infix(&mut self, at: usize) -> Walked {
        let [left, operator, right] = children(self.tree, at)[..] else { unreachable!("a sound tree") };
        let operator = self.content(operator)[0];
        self.all(&if operator == 8 { [right, left] } else { [left, right] })?;
        if matches!(operator, 0 | 3) {
            Err((6, at))
        } else {
            self.emit(1, Last::Other, at)
        }
    }

    fn prefix(&mut self, at: usize) -> Walked {
        let [operator, right] = children(self.tree, at)[..] else { unreachable!("a sound tree") };
        self.field(right)?;
        if matches!(self.content(operator)[0], 2 | 3) {
            self.emit(1, Last::Other, at)
        } else {
            Err((6, at))
        }
    }

    fn branches(&mut self, at: usize) -> Walked {
        let list = children(self.tree, at);
        self.field(list[0])?;
        self.emit(3, Last::Other, at)?;
        self.branch(list[1], at)?;
        self.emit(3, Last::Other, at)?;
        match list.get(2) {
            Some(alternative) => self.branch(*alternative, at),
            None => self.emit(1, Last::Other, at),
        }
    }

    fn function(&mut self, at: usize) -> Walked {
        let [name, params, body] = children(self.tree, at)[..] else { unreachable!("a sound tree") };
        let params = children(self.tree, params);
        if self.chunks.len() > 16 {
            return Err((14, at));
        }
        if params.len() > 255 {
            return Err((8, at));
        }
        self.chunks.push(Chunk { length: 0, last: Last::Other });
        let mut table = SymbolTable::new_enclosed(Rc::clone(&self.table));
        if !self.content(name).is_empty() {
            table.define_function_name(self.name(name));
        }
        params.iter().for_each(|p| drop(table.define(self.name(*p))));
        self.table = Rc::new(RefCell::new(table));
        self.field(body)?;
        if self.chunk().last == Last::Other {
            self.emit(1, Last::Other, at)?;
        }
        self.close(at)
    }

    /// Loads what the closing function captured, adds its constant and emits Closure.
    fn close(&mut self, at: usize) -> Walked {
        let captured: Vec<_> = self.table.borrow().free_symbols.iter().map(|symbol| load_bytes(&*symbol.borrow())).collect();
        let outer = self.table.borrow_mut().outer.take().expect("a function's table");
        self.table = outer;
        let closing = self.chunks.pop().expect("a function's chunk");
        let code = closing.length;
        self.chunks.insert(0, closing);
        captured.into_iter().try_for_each(|bytes| self.emit(bytes, Last::Other, at))?;
        self.add_constant(6 + code, at)?;
        self.chunks.remove(0);
        self.emit(4, Last::Other, at)
    }

    fn call(&mut self, at: usize) -> Walked {
        let list = children(self.tree, at);
        self.field(list[0])?;
        if list.len() > 256 {
            return Err((8, at));
        }
        self.all(&list[1..])?;
        self.emit(2, Last::Other, at)
    }

    fn field(&mut self, at: usize) -> Walked {
        let around = |walk: &mut Self, bytes, last| {
            walk.all(&children(walk.tree, at))?;
            walk.emit(bytes, last, at)
        };
        match self.tree[at] {
            0x10 | 0x12 => self.all(&children(self.tree, at)),
            0x11 => around(self, 1, Last::Pop),
            0x13 => self.define(at),
            0x14 => around(self, 1, Last::ReturnValue),
            0x20 => self.identifier(at),
            0x21 => self.prefix(at),
            0x22 => self.infix(at),
            0x23 => self.branches(at),
            0x24 => self.function(at),
            0x25 => self.call(at),
            0x26 | 0x28 => {
                self.add_constant(3 + self.content(at).len(), at)?;
                self.emit(3, Last::Other, at)
            }
            0x27 => self.emit(1, Last::Other, at),
            0x29 | 0x2B => around(self, 3, Last::Other),
            0x2A => around(self, 1, Last::Other),
            _ => Err((7, at)),
        }
    }
}

/// The walk's first refusal of a tree that reads well, or the records of its Identifiers in walk order.
pub fn walked(state: &State, tree: &[u8]) -> Result<Vec<Record>, Refused> {
    let mut walk = Walk {
        tree,
        table: Rc::new(RefCell::new(state.table.clone())),
        chunks: vec![Chunk { length: 0, last: Last::Other }],
        constants: state.constants.len(),
        pool: reference::constants(&state.constants).len(),
        records: Vec::new(),
    };
    walk.field(0)?;
    Ok(walk.records)
}

/// The refusal alone.
pub fn refusal(state: &State, tree: &[u8]) -> Option<Refused> {
    walked(state, tree).err()
}
