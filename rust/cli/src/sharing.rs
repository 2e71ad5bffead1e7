//! Sharings and terms as numbers: share j, counted from 1, is the bits from (j - 1) * m on, and a term is the set of its variables.

use crate::json::{list, Json};

/// The shares of a sharing.
pub fn shares(m: usize, s: usize, sharing: u32) -> Vec<u8> {
    (0..s).map(|j| (sharing >> (j * m)) as u8 & ((1 << m) - 1)).collect()
}

/// The secret of a sharing.
pub fn secret(m: usize, s: usize, sharing: u32) -> u8 {
    shares(m, s, sharing).into_iter().fold(0, |sum, share| sum ^ share)
}

/// The shares of a sharing, for a person.
pub fn shown(m: usize, s: usize, sharing: u32) -> String {
    shares(m, s, sharing).iter().map(u8::to_string).collect::<Vec<_>>().join(" ")
}

pub fn json(m: usize, s: usize, sharing: u32) -> Json {
    list(&shares(m, s, sharing))
}

/// The shares of which a term has a variable, counted from 0, as a set.
pub fn named_by(m: usize, s: usize, term: u32) -> u32 {
    (0..s).filter(|j| term >> (j * m) & ((1 << m) - 1) != 0).fold(0, |set, j| set | 1 << j)
}

/// An output bit or a variable: `y1[0]`. Bit b of share j, counted from 1, is number (j - 1) * m + b.
pub fn name(letter: char, m: usize, number: usize) -> String {
    format!("{letter}{}[{}]", number / m + 1, number % m)
}

/// A term, for a person.
pub fn term(m: usize, term: u32) -> String {
    if term == 0 {
        return "1".to_owned();
    }
    let variables = (0..u32::BITS as usize).filter(|bit| term >> bit & 1 == 1);
    variables.map(|bit| name('x', m, bit)).collect::<Vec<_>>().join("·")
}

/// Words in a row, the last behind `and` or `or`.
pub fn row(words: &[String], last: &str) -> String {
    match words {
        [] => String::new(),
        [word] => word.clone(),
        [first @ .., end] => format!("{} {last} {end}", first.join(", ")),
    }
}
