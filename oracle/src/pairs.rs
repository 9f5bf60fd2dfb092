//! Condition 3 by running: two series that differ in literals only, and the series of their shapes.
use crate::image;
use crate::port::Answer;
use crate::random::Random;
use crate::read;
use crate::reference::{six, Words};
use crate::series::{Call, Lent, Series};

/// The same words, document 01's in either form.
fn same_words(words: &Words, random: &mut Random) -> Words {
    match words {
        Some(list) if *list != six() => words.clone(),
        _ => random.often(500).then(six),
    }
}

/// The same series with these bytes in its literals, and in output and work areas before each call; `byte` is told whether it is for a Boolean.
pub fn filled(series: &Series, byte: &mut impl FnMut(bool) -> u8) -> Series {
    let mut change = |call: &Call| {
        let mut call = call.clone();
        for literal in read::tree(&call.tree).literals {
            let boolean = call.tree[literal.start - 3] == 0x27;
            call.tree[literal].iter_mut().for_each(|b| *b = byte(boolean));
        }
        call.lending.fill = byte(false);
        call.lending.dirt = byte(false);
        call
    };
    let calls = series.calls.iter().map(&mut change).collect();
    Series { words: series.words.clone(), calls }
}

/// A byte at random, 0 or 1 for a Boolean.
pub fn random_byte(random: &mut Random, boolean: bool) -> u8 {
    random.below(if boolean { 2 } else { 256 }) as u8
}

/// The same series with other literals in it, and other bytes in output and work areas before each call.
pub fn twin(series: &Series, random: &mut Random) -> Series {
    let words = same_words(&series.words, random);
    Series { words, ..filled(series, &mut |boolean| random_byte(random, boolean)) }
}

/// Three sessions side by side.
#[derive(Default)]
pub struct Pair {
    first: Lent,
    second: Lent,
    shapes: Lent,
}

/// Whether two strings of bytes are equal outside these offsets.
fn equal_outside(a: &[u8], b: &[u8], literals: &[usize]) -> bool {
    let (mut a, mut b) = (a.to_vec(), b.to_vec());
    for &at in literals {
        (a[at], b[at]) = (0, 0);
    }
    a == b
}

impl Pair {
    /// Both series step by step; at a difference the number of the call and what differs.
    pub fn series(&mut self, first: &Series, second: &Series) -> Result<(), (usize, String)> {
        let begun = [(&mut self.first, first), (&mut self.second, second), (&mut self.shapes, first)];
        for (lent, series) in begun {
            lent.make(&series.words).map_err(|text| (0, text))?;
        }
        let compared = first.words.is_some() == second.words.is_some();
        for (i, (a, b)) in first.calls.iter().zip(&second.calls).enumerate() {
            self.step(a, b, compared).map_err(|text| (i, text))?;
        }
        Ok(())
    }

    /// A step; sessions are compared where both began with equally many fields.
    fn step(&mut self, a: &Call, b: &Call, compared: bool) -> Result<(), String> {
        let shape = read::shape(&a.tree);
        if shape != read::shape(&b.tree) {
            return Err("the two trees are not alike".into());
        }
        let first = self.first.call(&a.tree, &a.lending)?;
        let second = self.second.call(&b.tree, &b.lending)?;
        let third = self.shapes.call(&shape, &a.lending)?;
        if first != second || first != third {
            return Err(format!("{first:?} against {second:?}; their shape {third:?}"));
        }
        if let Answer::Length(length) = first {
            let image = |lent: &Lent| lent.output[..length].to_vec();
            let Ok(literals) = image::check(&image(&self.shapes)) else { return Err("no image".into()) };
            if !equal_outside(&image(&self.first), &image(&self.second), &literals) {
                return Err("the images differ outside the literals".into());
            }
        }
        let Some((_, literals)) = image::session(self.shapes.session_bytes()) else { return Err("no session".into()) };
        if compared && !equal_outside(self.first.session_bytes(), self.second.session_bytes(), &literals) {
            return Err("the sessions differ outside the literals".into());
        }
        Ok(())
    }
}
