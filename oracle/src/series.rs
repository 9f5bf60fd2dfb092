//! A series of compile calls over one session, and the memory that is lent to them.
use crate::port::{self, Answer, CODE_SIZE, SESSION_SIZE, TABLE_SIZE};
use crate::reference::{name_fields, State, Words};

/// Bytes and numbers behind what is lent at most; they must stay.
const GUARD: usize = 64;

const OUTPUT_SIZE: usize = 65_536;

/// How much is lent to one call, and what lies in it before.
#[derive(Clone, Copy, Debug)]
pub struct Lending {
    pub session: usize,
    pub output: usize,
    pub code: usize,
    pub table: usize,
    /// What output, the bytes past the session and the guards hold.
    pub fill: u8,
    /// What the work areas hold.
    pub dirt: u8,
}

impl Lending {
    pub const FULL: Lending =
        Lending { session: SESSION_SIZE, output: OUTPUT_SIZE, code: CODE_SIZE, table: TABLE_SIZE, fill: 0xA5, dirt: 0 };

    /// Whether number 1 must come.
    pub fn short(&self) -> bool {
        self.session < SESSION_SIZE || self.code < CODE_SIZE || self.table < TABLE_SIZE
    }
}

/// One compile call.
#[derive(Clone)]
pub struct Call {
    pub tree: Vec<u8>,
    pub lending: Lending,
}

impl Call {
    pub fn full(tree: Vec<u8>) -> Call {
        Call { tree, lending: Lending::FULL }
    }
}

/// A series: the words of its session, and its calls.
#[derive(Clone)]
pub struct Series {
    pub words: Words,
    pub calls: Vec<Call>,
}

impl Series {
    /// From document 01's fresh session.
    pub fn fresh(calls: Vec<Call>) -> Series {
        Series { words: None, calls }
    }
}

/// Session, output and work areas, each with a guard behind.
pub struct Lent {
    pub session: Vec<u8>,
    pub output: Vec<u8>,
    code: Vec<u8>,
    table: Vec<u32>,
}

impl Default for Lent {
    fn default() -> Self {
        Lent {
            session: vec![0; SESSION_SIZE + GUARD],
            output: vec![0; OUTPUT_SIZE + GUARD],
            code: vec![0; CODE_SIZE + 2 * GUARD],
            table: vec![0; TABLE_SIZE + 2 * GUARD],
        }
    }
}

/// The bytes of a session followed by zeros.
pub fn padded(session: &[u8]) -> Vec<u8> {
    let mut out = session.to_vec();
    out.resize(SESSION_SIZE, 0);
    out
}

fn all<T: PartialEq + Copy>(part: &[T], value: T) -> bool {
    let (chunks, rest) = part.as_chunks::<64>();
    rest.iter().all(|x| *x == value) && chunks.iter().all(|c| *c == [value; 64])
}

impl Lent {
    /// Makes a session in 65,536 bytes; says what is wrong with it.
    pub fn make(&mut self, words: &Words) -> Result<(), String> {
        self.session.fill(0x5C);
        let part = &mut self.session[..SESSION_SIZE];
        let answer = match words {
            None => port::make_session(part),
            Some(list) => port::make_session_words(part, &name_fields(list)),
        };
        if answer != Answer::Length(SESSION_SIZE) {
            return Err(format!("making a session answers {answer:?}"));
        }
        if self.session_bytes() != padded(&State::begun(words).session()) {
            return Err("a session that was made is not as the documents say".into());
        }
        if !all(&self.session[SESSION_SIZE..], 0x5C) {
            return Err("making a session wrote past 65,536".into());
        }
        Ok(())
    }

    /// Hands these bytes over as words; the answer, and whether a refusal wrote anything.
    pub fn hand(&mut self, names: &[u8]) -> Result<Answer, String> {
        self.session.fill(0x5C);
        let answer = port::make_session_words(&mut self.session[..SESSION_SIZE], names);
        match answer {
            Answer::Refused(..) if !all(&self.session, 0x5C) => Err("words that are refused changed the session".into()),
            _ => Ok(answer),
        }
    }

    /// One call; says what it wrote where nothing may be written, or left in the work areas.
    pub fn call(&mut self, tree: &[u8], lending: &Lending) -> Result<Answer, String> {
        let Lending { session, output, code, table, fill, dirt } = *lending;
        let number = u32::from_ne_bytes([dirt; 4]);
        self.output.fill(fill);
        self.session[SESSION_SIZE..].fill(fill);
        self.code.fill(dirt);
        self.table.fill(number);
        let answer = port::compile(
            &mut self.session[..session],
            tree,
            &mut self.output[..output],
            &mut self.code[..code],
            &mut self.table[..table],
        );
        let left = if lending.short() { (dirt, number) } else { (0, 0) };
        let (code_size, table_size) = (code.min(CODE_SIZE), table.min(TABLE_SIZE));
        if !all(&self.code[..code_size], left.0) || !all(&self.table[..table_size], left.1) {
            return Err("the work areas are not as document 01 says".into());
        }
        if !all(&self.code[code_size..], dirt) || !all(&self.table[table_size..], number) {
            return Err("written past a work area".into());
        }
        if !all(&self.session[SESSION_SIZE..], fill) {
            return Err("written past the session".into());
        }
        let length = if let Answer::Length(n) = answer { n } else { 0 };
        if length > output || !all(&self.output[length..], fill) {
            return Err("output past the image was written".into());
        }
        Ok(answer)
    }

    /// A call on other session bytes; the session itself stays.
    pub fn call_on(&mut self, session: &[u8], tree: &[u8]) -> Result<(Answer, Vec<u8>), String> {
        let kept = self.session.clone();
        self.session[..SESSION_SIZE].copy_from_slice(session);
        let answer = self.call(tree, &Lending::FULL)?;
        let after = std::mem::replace(&mut self.session, kept);
        Ok((answer, after[..SESSION_SIZE].to_vec()))
    }

    /// The session's 65,536 bytes.
    pub fn session_bytes(&self) -> &[u8] {
        &self.session[..SESSION_SIZE]
    }
}
