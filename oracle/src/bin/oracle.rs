//! The Rust alone: one series of trees to a line of standard input, as hexadecimal words. See README.md.
use std::io::{BufRead, Write};
use std::panic::{catch_unwind, AssertUnwindSafe};

use oracle::hex::{hex, unhex};
use oracle::reference::{self, Outcome, State};
use oracle::vm::opcode::Opcode;

/// The outcome as a line, and the state after an accepted tree.
fn answer(state: &State, word: &str) -> (String, Option<State>) {
    let Some(tree) = unhex(word) else { return ("badhex".into(), None) };
    match reference::compile(state, &tree) {
        Outcome::Accepted(a) => {
            let constants = hex(&reference::constants(&a.state.constants));
            let (count, definitions) = (a.state.constants.len(), a.state.names.len());
            (format!("ok {} {count} {constants} {definitions}", hex(&a.code)), Some(a.state))
        }
        Outcome::BadTree => ("badtree".into(), None),
        Outcome::Refused { message, .. } => (message.replace('\n', " "), None),
    }
}

fn compile(line: &str, out: &mut impl Write) -> std::io::Result<()> {
    let mut state = State::begun(&None);
    for word in line.split_ascii_whitespace() {
        let (text, next) = answer(&state, word);
        writeln!(out, "{text}")?;
        state = next.unwrap_or(state);
    }
    writeln!(out, "end")
}

/// The first instruction of a slice.
fn decode(line: &str, out: &mut impl Write) -> std::io::Result<()> {
    let bytes = unhex(line.trim()).expect("hexadecimal");
    match catch_unwind(AssertUnwindSafe(|| Opcode::try_from(&bytes[..]))) {
        Ok(Ok(op)) => writeln!(out, "ok {} {} {op}", hex(&op.to_bytes()), op.readsize()),
        Ok(Err(e)) => writeln!(out, "err {e}"),
        Err(_) => writeln!(out, "panic {}", reference::last_panic()),
    }
}

fn main() {
    reference::record_panics();
    let decoding = std::env::args().nth(1).as_deref() == Some("decode");
    let work = move || {
        let mut out = std::io::stdout().lock();
        for line in std::io::stdin().lock().lines() {
            let line = line.expect("text");
            let written = if decoding { decode(&line, &mut out) } else { compile(&line, &mut out) };
            written.expect("standard output");
        }
    };
    let thread = std::thread::Builder::new().stack_size(4 << 30).spawn(work);
    thread.expect("a thread").join().expect("an end");
}
