//! Tables and placements as a person writes them.

use crate::failure::Failure;
use crate::files::shown;
use std::ffi::OsStr;

/// A table, or coefficient words, of a width that was given or follows from its length.
pub struct Table {
    pub m: usize,
    /// As the library takes them: one above 255 is too large for every table, as 255 is.
    pub entries: Vec<u8>,
    /// As they were written.
    pub written: Vec<usize>,
}

fn misused<T>(words: String) -> Result<T, Failure> {
    Err(Failure::Misused(words))
}

/// The least width whose tables have this many entries or more; the greatest where none has.
fn width(entries: usize) -> usize {
    (1..6).find(|m| 1 << m >= entries).unwrap_or(6)
}

impl Table {
    /// Numbers with spaces between them; or packed, an entry one hexadecimal digit, or two where m is above 4. That a length is that of no
    /// table is for the library to say.
    pub fn of(name: &str, word: &OsStr, m: Option<usize>) -> Result<Table, Failure> {
        let text = word.to_string_lossy();
        if text.trim().contains(char::is_whitespace) {
            let written = text.split_whitespace().map(|entry| decimal(name, entry)).collect::<Result<Vec<usize>, Failure>>()?;
            return Ok(Table::written(m.unwrap_or(width(written.len())), written));
        }
        let digits = digits(name, word, "hexadecimal", 16)?;
        // 16 digits are a table of 4 bits, and one of 5 bits has 64
        let m = m.unwrap_or(width(if digits.len() <= 16 { digits.len() } else { digits.len().div_ceil(2) }));
        Ok(Table::written(m, unpacked(name, digits, m)?.into_iter().map(usize::from).collect()))
    }

    fn written(m: usize, written: Vec<usize>) -> Table {
        Table { m, entries: written.iter().map(|&entry| entry.try_into().unwrap_or(u8::MAX)).collect(), written }
    }
}

/// An entry in decimal. One too large to be held is too large for every table, as the largest is.
fn decimal(name: &str, entry: &str) -> Result<usize, Failure> {
    match entry.bytes().all(|digit| digit.is_ascii_digit()) {
        true => Ok(entry.parse().unwrap_or(usize::MAX)),
        false => misused(format!("{name} with spaces has decimal numbers, and '{}' is none", entry.escape_debug())),
    }
}

fn unpacked(name: &str, digits: Vec<u8>, m: usize) -> Result<Vec<u8>, Failure> {
    if m <= 4 {
        return Ok(digits);
    }
    if digits.len() % 2 == 1 {
        return misused(format!("{name} has two digits an entry, as m is above 4, and the last entry has one"));
    }
    Ok(digits.chunks(2).map(|two| 16 * two[0] + two[1]).collect())
}

/// Entries packed: an entry one hexadecimal digit, or two where m is above 4.
pub fn packed(m: usize, entries: &[u8]) -> String {
    let digits = if m > 4 { 2 } else { 1 };
    entries.iter().map(|entry| format!("{entry:0digits$X}")).collect()
}

/// Digits of this kind, hexadecimal or decimal.
fn digits(name: &str, word: &OsStr, kind: &str, radix: u32) -> Result<Vec<u8>, Failure> {
    let digit = |c: char| match c.to_digit(radix) {
        Some(digit) => Ok(digit as u8),
        None => misused(format!("{name} has {kind} digits alone, and '{}' is none", c.escape_debug())),
    };
    shown(word).chars().map(digit).collect()
}

/// A placement: decimal, a byte one digit.
pub fn placement(name: &str, word: &OsStr) -> Result<Vec<u8>, Failure> {
    digits(name, word, "decimal", 10)
}
