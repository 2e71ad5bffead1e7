//! The signs of a text: its words, numbers and marks, each with its place.

use super::{Fault, Place};
use std::fmt;

#[derive(Clone, Copy, Debug, PartialEq, Eq)]
pub enum Sign<'a> {
    /// Letters.
    Word(&'a str),
    /// Digits.
    Number(&'a str),
    /// Any other character.
    Mark(char),
    LineEnd,
    TextEnd,
}

/// What stands at a place, for a person.
impl fmt::Display for Sign<'_> {
    fn fmt(&self, f: &mut fmt::Formatter<'_>) -> fmt::Result {
        match self {
            Sign::Word(word) | Sign::Number(word) if word.len() > 20 => write!(f, "'{}...' stands here", &word[..20]),
            Sign::Word(word) | Sign::Number(word) => write!(f, "'{word}' stands here"),
            Sign::Mark(mark) => write!(f, "'{}' stands here", mark.escape_debug()),
            Sign::LineEnd => write!(f, "the line ends here"),
            Sign::TextEnd => write!(f, "the text ends here"),
        }
    }
}

/// What is left of a text that is read from its front.
#[derive(Clone)]
pub struct Signs<'a> {
    rest: &'a str,
    place: Place,
}

impl<'a> Signs<'a> {
    /// The whole of a text, behind the mark that some editors put in front of UTF-8.
    pub fn of(text: &'a [u8]) -> Result<Signs<'a>, Fault> {
        let (text, damaged) = match std::str::from_utf8(text) {
            Ok(text) => (text, false),
            Err(error) => (std::str::from_utf8(&text[..error.valid_up_to()]).expect("valid up to there"), true),
        };
        let signs = Signs { rest: text.strip_prefix('\u{feff}').unwrap_or(text), place: Place { line: 1, column: 1 } };
        if !damaged {
            return Ok(signs);
        }
        let mut end = signs;
        while end.take().1 != Sign::TextEnd {}
        Err(Fault { place: end.place, words: "UTF-8 was due, and a byte that is none stands here".to_owned() })
    }

    /// Passes characters in front, none of them the end of a line.
    fn pass(&mut self, bytes: usize) -> &'a str {
        let (passed, rest) = self.rest.split_at(bytes);
        self.rest = rest;
        self.place.column += passed.chars().count();
        passed
    }

    fn pass_while(&mut self, test: impl Fn(char) -> bool) -> &'a str {
        let bytes = self.rest.find(|c| !test(c)).unwrap_or(self.rest.len());
        self.pass(bytes)
    }

    /// Takes the sign in front, with its place. Spaces and comments are none.
    pub fn take(&mut self) -> (Place, Sign<'a>) {
        self.pass_spaces();
        let place = self.place;
        let sign = match self.rest.chars().next() {
            None => Sign::TextEnd,
            Some('\n') => {
                self.rest = &self.rest[1..];
                self.place = Place { line: place.line + 1, column: 1 };
                Sign::LineEnd
            }
            Some(c) if c.is_ascii_alphabetic() => Sign::Word(self.pass_while(|c| c.is_ascii_alphabetic())),
            Some(c) if c.is_ascii_digit() => Sign::Number(self.pass_while(|c| c.is_ascii_digit())),
            Some(c) => {
                self.pass(c.len_utf8());
                Sign::Mark(c)
            }
        };
        (place, sign)
    }

    /// The letters and digits in front, in a row.
    pub fn run(&self) -> &'a str {
        self.clone().take_run().1
    }

    /// Takes the letters and digits in front, in a row, with their place.
    pub fn take_run(&mut self) -> (Place, &'a str) {
        self.pass_spaces();
        (self.place, self.pass_while(|c| c.is_ascii_alphanumeric()))
    }

    /// Passes spaces and a comment.
    fn pass_spaces(&mut self) {
        self.pass_while(|c| c != '\n' && c.is_whitespace());
        if self.rest.starts_with('#') {
            self.pass_while(|c| c != '\n');
        }
    }

    /// The sign in front, with its place.
    pub fn peek(&self) -> (Place, Sign<'a>) {
        self.clone().take()
    }

    /// Passes the ends of lines in front.
    pub fn pass_line_ends(&mut self) {
        while self.peek().1 == Sign::LineEnd {
            self.take();
        }
    }

    /// The refusal of the sign in front, where something else was due.
    pub fn due(&self, due: &str) -> Fault {
        let (place, sign) = self.peek();
        Fault { place, words: format!("{due} was due, and {sign}") }
    }
}
