//! The design that a text says.

use super::signs::{Sign, Signs};
use super::{Fault, Place};
use crate::design::Design;
use jestrunas::{SHARES_MAX, SHARES_MIN, SHARE_BITS_MAX, STAGES_MAX, WIDTH_MAX};
use std::ops::RangeInclusive;

const END: &str = "the end of the line";

/// What a text says, and what it leaves out.
#[derive(Clone, Debug, PartialEq, Eq)]
pub struct Text {
    pub design: Design,
    /// Of each stage whether its G was left out, and guessed.
    pub guessed: Vec<bool>,
    /// Bits that a stage leaves out while it gives others of that component, or of G, each with the place of its stage.
    pub left_out: Vec<Fault>,
}

/// What a text says, or the first fault in it.
pub fn read(text: &[u8]) -> Result<Text, Fault> {
    Reader { signs: Signs::of(text)?, m: 0, s: 0, left_out: Vec::new() }.text()
}

/// The design that a text says, or the first fault in it.
pub fn assemble(text: &[u8]) -> Result<Design, Fault> {
    read(text).map(|text| text.design)
}

pub(super) fn fault<T>(place: Place, words: String) -> Result<T, Fault> {
    Err(Fault { place, words })
}

/// A text that is read, and the size of its design, once this was read.
pub(super) struct Reader<'a> {
    pub signs: Signs<'a>,
    pub m: usize,
    pub s: usize,
    pub left_out: Vec<Fault>,
}

impl Reader<'_> {
    fn text(mut self) -> Result<Text, Fault> {
        self.m = self.head_number("m", 1..=WIDTH_MAX)?;
        self.s = self.head_number("s", SHARES_MIN..=SHARES_MAX.min(SHARE_BITS_MAX / self.m))?;
        self.word("S")?;
        let s_box = self.table("S")?;
        let (mut stages, mut guessed) = (Vec::new(), Vec::new());
        loop {
            self.signs.pass_line_ends();
            match self.signs.peek() {
                (_, Sign::TextEnd) if !stages.is_empty() => break,
                (place, Sign::Word("stage")) if stages.len() == STAGES_MAX => {
                    return fault(place, format!("a design has at most {STAGES_MAX} stages, and this is one more"));
                }
                _ => {
                    let (stage, guess) = self.stage(stages.len() + 1)?;
                    stages.push(stage);
                    guessed.push(guess);
                }
            }
        }
        Ok(Text { design: Design { m: self.m, s: self.s, s_box, stages }, guessed, left_out: self.left_out })
    }

    /// Takes a word that is due, behind the ends of lines.
    pub fn word(&mut self, due: &str) -> Result<(), Fault> {
        self.signs.pass_line_ends();
        match self.signs.peek().1 {
            Sign::Word(word) if word == due => drop(self.signs.take()),
            _ => return Err(self.signs.due(&format!("'{due}'"))),
        }
        Ok(())
    }

    pub fn mark(&mut self, due: char) -> Result<(), Fault> {
        match self.signs.peek().1 {
            Sign::Mark(mark) if mark == due => drop(self.signs.take()),
            _ => return Err(self.signs.due(&format!("'{due}'"))),
        }
        Ok(())
    }

    /// Takes the end of a line, or of the text.
    pub fn line_end(&mut self) -> Result<(), Fault> {
        self.line_end_or(END)
    }

    pub fn line_end_or(&mut self, due: &str) -> Result<(), Fault> {
        match self.signs.peek().1 {
            Sign::LineEnd | Sign::TextEnd => drop(self.signs.take()),
            _ => return Err(self.signs.due(due)),
        }
        Ok(())
    }

    /// Takes a number that is due, among these.
    pub fn number(&mut self, name: &str, among: RangeInclusive<usize>) -> Result<usize, Fault> {
        if let Sign::Number(digits) = self.signs.peek().1 {
            // one too large to be held is larger than all that are due
            if let Some(number) = digits.parse().ok().filter(|number| among.contains(number)) {
                self.signs.take();
                return Ok(number);
            }
        }
        Err(self.signs.due(&format!("{name}, a number from {} to {},", among.start(), among.end())))
    }

    /// A line of the head: a name and its number.
    fn head_number(&mut self, name: &str, among: RangeInclusive<usize>) -> Result<usize, Fault> {
        self.word(name)?;
        let number = self.number(name, among)?;
        self.line_end()?;
        Ok(number)
    }

    /// The entries of a table: packed in one word, or numbers, which may stand in several lines.
    pub fn table(&mut self, name: &str) -> Result<Vec<u8>, Fault> {
        let entries = 1 << self.m;
        let mut table = Vec::new();
        self.signs.pass_line_ends();
        let digits = if self.m > 4 { 2 } else { 1 };
        if self.signs.run().len() == digits * entries {
            let (place, run) = self.signs.take_run();
            for (x, entry) in run.as_bytes().chunks(digits).enumerate() {
                let text = std::str::from_utf8(entry).expect("letters and digits");
                match u8::from_str_radix(text, 16) {
                    Ok(entry) if usize::from(entry) < entries => table.push(entry),
                    _ => {
                        let place = Place { column: place.column + x * digits, ..place };
                        let due = format!("{name} of {x}, from 0 to {:X} in hexadecimal,", entries - 1);
                        return fault(place, format!("{due} was due, and '{text}' stands here"));
                    }
                }
            }
        } else {
            for x in 0..entries {
                self.signs.pass_line_ends();
                table.push(self.number(&format!("{name} of {x}"), 0..=entries - 1)? as u8);
            }
        }
        self.line_end()?;
        Ok(table)
    }
}
