//! The proved compiler, through the functions that it exports.

pub const SESSION_SIZE: usize = 65_536;
pub const CODE_SIZE: usize = 32_768;
pub const TABLE_SIZE: usize = 16_384;
pub const WORK_SIZE: usize = 4_096;

extern "C" {
    fn monkey_make_session(session: *mut u8, session_length: usize) -> u64;
    fn monkey_make_session_words(session: *mut u8, session_length: usize, names: *const u8, names_length: usize) -> u64;
    fn monkey_compile(
        session: *mut u8,
        session_length: usize,
        tree: *const u8,
        tree_length: usize,
        output: *mut u8,
        output_length: usize,
        code: *mut u8,
        code_length: usize,
        table: *mut u32,
        table_length: usize,
    ) -> u64;
    fn monkey_compile_names(
        session: *mut u8,
        session_length: usize,
        tree: *const u8,
        tree_length: usize,
        output: *mut u8,
        output_length: usize,
        code: *mut u8,
        code_length: usize,
        table: *mut u32,
        table_length: usize,
        names: *mut u32,
        names_length: usize,
    ) -> u64;
    fn monkey_list_image(image: *const u8, image_length: usize, output: *mut u8, output_length: usize) -> u64;
    fn monkey_check_heights(
        image: *const u8,
        image_length: usize,
        heights: *const u32,
        heights_length: usize,
        output: *mut u32,
        output_length: usize,
    ) -> u64;
    fn monkey_propose_heights(image: *const u8, image_length: usize, heights: *mut u32, heights_length: usize) -> u64;
    fn monkey_read_text(text: *const u8, text_length: usize, output: *mut u8, output_length: usize) -> u64;
    fn monkey_load_tree(seed: u32, output: *mut u8, output_length: usize) -> u64;
}

/// What a call answers.
#[derive(Clone, Copy, Debug, PartialEq, Eq)]
pub enum Answer {
    Length(usize),
    Refused(usize, usize),
}

fn unpack(answer: u64) -> Answer {
    let (high, low) = ((answer >> 32) as usize, (answer & 0xffff_ffff) as usize);
    if high == 0 {
        Answer::Length(low)
    } else {
        Answer::Refused(high, low)
    }
}

pub fn make_session(session: &mut [u8]) -> Answer {
    unpack(unsafe { monkey_make_session(session.as_mut_ptr(), session.len()) })
}

/// A session with words, their name fields one behind the other.
pub fn make_session_words(session: &mut [u8], names: &[u8]) -> Answer {
    unpack(unsafe { monkey_make_session_words(session.as_mut_ptr(), session.len(), names.as_ptr(), names.len()) })
}

pub fn compile(session: &mut [u8], tree: &[u8], output: &mut [u8], code: &mut [u8], table: &mut [u32]) -> Answer {
    unpack(unsafe {
        monkey_compile(
            session.as_mut_ptr(),
            session.len(),
            tree.as_ptr(),
            tree.len(),
            output.as_mut_ptr(),
            output.len(),
            code.as_mut_ptr(),
            code.len(),
            table.as_mut_ptr(),
            table.len(),
        )
    })
}

/// A call with records: the answer, and the count.
pub fn compile_names(
    session: &mut [u8],
    tree: &[u8],
    output: &mut [u8],
    code: &mut [u8],
    table: &mut [u32],
    names: &mut [u32],
) -> (Answer, usize) {
    let answer = unpack(unsafe {
        monkey_compile_names(
            session.as_mut_ptr(),
            session.len(),
            tree.as_ptr(),
            tree.len(),
            output.as_mut_ptr(),
            output.len(),
            code.as_mut_ptr(),
            code.len(),
            table.as_mut_ptr(),
            table.len(),
            names.as_mut_ptr(),
            names.len(),
        )
    });
    match answer {
        Answer::Length(both) => (Answer::Length(both & 0xffff), both >> 16),
        refused => (refused, 0),
    }
}

/// What a sound image answers to the check alone.
pub const SOUND: Answer = Answer::Refused(15, 0);

/// The check alone: the listing into an empty output, into which none fits.
pub fn check_image(image: &[u8]) -> Answer {
    list_image(image, &mut [])
}

pub fn list_image(image: &[u8], output: &mut [u8]) -> Answer {
    unpack(unsafe { monkey_list_image(image.as_ptr(), image.len(), output.as_mut_ptr(), output.len()) })
}

pub fn check_heights(image: &[u8], heights: &[u32], output: &mut [u32]) -> Answer {
    let (out, room) = (output.as_mut_ptr(), output.len());
    unpack(unsafe { monkey_check_heights(image.as_ptr(), image.len(), heights.as_ptr(), heights.len(), out, room) })
}

pub fn propose_heights(image: &[u8], heights: &mut [u32]) -> Answer {
    unpack(unsafe { monkey_propose_heights(image.as_ptr(), image.len(), heights.as_mut_ptr(), heights.len()) })
}

pub fn read_text(text: &[u8], output: &mut [u8]) -> Answer {
    unpack(unsafe { monkey_read_text(text.as_ptr(), text.len(), output.as_mut_ptr(), output.len()) })
}

/// The tree of a seed (docs/LOAD.md).
pub fn load_tree(seed: u32) -> Vec<u8> {
    let mut tree = vec![0; 2048];
    match unpack(unsafe { monkey_load_tree(seed, tree.as_mut_ptr(), tree.len()) }) {
        Answer::Length(length) => tree.truncate(length),
        Answer::Refused(number, _) => panic!("the tree of seed {seed} was refused {number}"),
    }
    tree
}

extern "C" {
    fn monkey_run(
        image: *const u8,
        image_length: usize,
        heights: *const u32,
        heights_length: usize,
        work: *mut u64,
        work_length: usize,
        output: *mut u8,
        output_length: usize,
    ) -> u64;
}

/// A trial run: the low half has the globals written and the steps.
pub fn run(image: &[u8], heights: &[u32], work: &mut [u64], output: &mut [u8]) -> Answer {
    let (area, size) = (work.as_mut_ptr(), work.len());
    let (out, room) = (output.as_mut_ptr(), output.len());
    unpack(unsafe { monkey_run(image.as_ptr(), image.len(), heights.as_ptr(), heights.len(), area, size, out, room) })
}
