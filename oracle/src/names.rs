//! The call with records: against the plain call's image and session, and the walk over the Rust's own symbol table.
use crate::port::{self, Answer, CODE_SIZE, TABLE_SIZE};
use crate::walk::Record;

/// What stands in a number before a call.
const OTHER: u32 = 0xA5A5_A5A5;

/// One call on a copy of these session bytes, with room for so many records: the answer, the count, the image, the session and the numbers.
struct Named {
    answer: Answer,
    count: usize,
    output: Vec<u8>,
    session: Vec<u8>,
    numbers: Vec<u32>,
}

fn call(session: &[u8], tree: &[u8], output: usize, room: usize) -> Result<Named, String> {
    let (mut code, mut table) = (vec![0x5C; CODE_SIZE], vec![OTHER; TABLE_SIZE]);
    let (mut session, mut output, mut numbers) = (session.to_vec(), vec![0xA5; output], vec![OTHER; 4 * room + 3]);
    let (answer, count) = port::compile_names(&mut session, tree, &mut output, &mut code, &mut table, &mut numbers);
    if code.iter().any(|b| *b != 0) || table.iter().any(|n| *n != 0) {
        return Err("a call with records left its work areas".into());
    }
    Ok(Named { answer, count, output, session, numbers })
}

/// A refusal by this number, which leaves everything.
fn refuses(session: &[u8], tree: &[u8], output: usize, room: usize, number: usize) -> Result<(), String> {
    let named = call(session, tree, output, room)?;
    if named.answer != Answer::Refused(number, 0) {
        return Err(format!("{:?} with {room} records, but {number} is due", named.answer));
    }
    if named.session != session || named.output.iter().any(|b| *b != 0xA5) || named.numbers.iter().any(|n| *n != OTHER) {
        return Err(format!("a call with records that is refused {number} wrote something"));
    }
    Ok(())
}

/// An accepted tree: just enough records, then one too few, then an output one byte too short.
pub fn compare(session: &[u8], tree: &[u8], image: &[u8], after: &[u8], records: &[Record]) -> Result<(), String> {
    let named = call(session, tree, image.len(), records.len())?;
    if named.answer != Answer::Length(image.len()) || named.output != image || named.session != after {
        return Err(format!("{:?} with records, but the plain call differs", named.answer));
    }
    let written = records.concat();
    if named.count != records.len() || named.numbers[..written.len()] != written || named.numbers[written.len()..] != [OTHER; 3] {
        return Err(format!("the records are {:?}, but {records:?} are due", &named.numbers));
    }
    if !records.is_empty() {
        refuses(session, tree, 0, records.len() - 1, 18)?;
    }
    refuses(session, tree, image.len() - 1, records.len(), 15)
}
