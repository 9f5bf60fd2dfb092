//! Document 01's listing of an image; the lines of code are the Rust's `Display`, with 0A where it ends a line with its own sign.
use crate::image::{self, Wrong};
use crate::vm::bytecode::Instructions;

fn code(bytes: &[u8], out: &mut String) {
    *out += &Instructions(bytes.to_vec()).to_string().replace("¥n", "\n");
}

fn length(image: &[u8], at: usize) -> usize {
    usize::from(u16::from_be_bytes([image[at + 1], image[at + 2]]))
}

fn constant(number: usize, tag: u8, content: &[u8], out: &mut String) {
    match (tag, content) {
        (0x60, _) => {
            let value = i64::from_be_bytes(content.try_into().expect("eight bytes"));
            *out += &format!("{number} integer {value}\n");
        }
        (0x61, []) => *out += &format!("{number} string 0\n"),
        (0x61, _) => *out += &format!("{number} string {} {}\n", content.len(), crate::hex::hex(content)),
        (_, [high, low, parameters, instructions @ ..]) => {
            let locals = u16::from_be_bytes([*high, *low]);
            *out += &format!("{number} function {locals} {parameters} {}\n", instructions.len());
            code(instructions, out);
        }
        _ => unreachable!("a sound image"),
    }
}

/// The listing, or the place of 17.
pub fn listing(image: &[u8]) -> Result<String, Wrong> {
    image::check(image)?;
    let main = length(image, 0);
    let mut out = format!("main {main}\n");
    code(&image[3..3 + main], &mut out);
    let mut constants = String::new();
    let (mut at, mut count) = (6 + main, 0);
    while at < image.len() {
        let end = at + 3 + length(image, at);
        constant(count, image[at], &image[at + 3..end], &mut constants);
        (at, count) = (end, count + 1);
    }
    Ok(format!("{out}pool {count}\n{constants}"))
}
