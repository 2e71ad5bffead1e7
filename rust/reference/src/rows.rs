//! Rows of published tables and files, as the program `bench_designs` is given them, and what it must write.
//!
//! Input, one line each, fields separated by one space, each line ended by a line feed:
//!
//! ```text
//! m s TABLE              m and s in decimal; TABLE one hexadecimal digit an entry for m up to 4, two for m above 4,
//!                        in capitals. The table is produced with s shares, by the published placement, into an output
//!                        of 32,768 bytes, and what is produced is judged with a workspace of 131,072 bytes.
//! m s TABLE PLACEMENT    the same by this placement, one decimal digit a byte.
//! file HEX               a design file, two hexadecimal digits a byte, judged with a workspace of 131,072 bytes.
//! ```
//!
//! Output, one line for each input line, N its number from 1, numbers in decimal, one space between:
//!
//! ```text
//! N produce REASON LENGTH verdict REASON PLACE COMPONENT
//! N produce REASON 0                          where producing is refused: there is nothing to judge
//! N verdict REASON PLACE COMPONENT            for a line `file`
//! ```
//!
//! and one last line, with the reasons in rising order, each only where it occurred. A refusal of producing counts under
//! `produce`, a verdict that is not 0 under `verdict`:
//!
//! ```text
//! accepted A refused R produce REASON:COUNT .. verdict REASON:COUNT ..
//! ```

use crate::{judge, produce, published_placement};
use std::collections::BTreeMap;
use std::fmt;

/// What a line asks for.
#[derive(Clone, Debug, PartialEq, Eq)]
pub enum Row {
    Table { m: usize, s: usize, table: Vec<u8>, placement: Option<Vec<u8>> },
    File(Vec<u8>),
}

fn bytes(text: &str, digits: usize) -> Vec<u8> {
    let byte = |part| u8::from_str_radix(std::str::from_utf8(part).expect("digits"), 16).expect("hexadecimal");
    text.as_bytes().chunks(digits).map(byte).collect()
}

impl Row {
    /// The row of a line that has one of the forms.
    pub fn of(line: &str) -> Row {
        match line.split(' ').collect::<Vec<&str>>()[..] {
            ["file", file] => Row::File(bytes(file, 2)),
            [m, s, table, ref placement @ ..] if placement.len() < 2 => {
                let m = m.parse().expect("m");
                Row::Table {
                    m,
                    s: s.parse().expect("s"),
                    table: bytes(table, if m > 4 { 2 } else { 1 }),
                    placement: placement.first().map(|placement| bytes(placement, 1)),
                }
            }
            _ => panic!("no row: {line}"),
        }
    }

    /// The file, or the reason for which none is produced.
    pub fn file(&self) -> Result<Vec<u8>, usize> {
        match self {
            Row::File(file) => Ok(file.clone()),
            Row::Table { m, s, table, placement } => {
                let published = published_placement(*s);
                let mut output = vec![0; 32_768];
                let (reason, length) = produce(*m, *s, table, placement.as_ref().unwrap_or(&published), &mut output);
                output.truncate(length);
                if reason == 0 {
                    Ok(output)
                } else {
                    Err(reason)
                }
            }
        }
    }
}

/// The line of a file.
pub fn line_of(file: &[u8]) -> String {
    format!("file {}", file.iter().map(|byte| format!("{byte:02X}")).collect::<String>())
}

/// What comes of a row.
#[derive(Clone, Copy, Debug, PartialEq, Eq)]
pub struct Outcome {
    /// Of a table: the reason and the length of producing.
    pub produced: Option<(usize, usize)>,
    /// Where there is a file: reason, place and component of its verdict.
    pub verdict: Option<[usize; 3]>,
}

impl Outcome {
    /// The outcome where the verdict on the file, if there is one, is what a function says.
    pub fn by(row: &Row, verdict: impl FnOnce(&[u8]) -> [usize; 3]) -> Outcome {
        let file = row.file();
        let produced = file.as_ref().map_or_else(|&reason| (reason, 0), |file| (0, file.len()));
        Outcome { produced: matches!(row, Row::Table { .. }).then_some(produced), verdict: file.ok().map(|file| verdict(&file)) }
    }

    pub fn of(row: &Row) -> Outcome {
        Outcome::by(row, |file| {
            let [reason, place, component, _] = judge(file, &mut vec![0; 131_072]);
            [reason, place, component]
        })
    }
}

impl fmt::Display for Outcome {
    fn fmt(&self, f: &mut fmt::Formatter<'_>) -> fmt::Result {
        if let Some((reason, length)) = self.produced {
            write!(f, " produce {reason} {length}")?;
        }
        if let Some([reason, place, component]) = self.verdict {
            write!(f, " verdict {reason} {place} {component}")?;
        }
        Ok(())
    }
}

/// How the rows ended, counted.
#[derive(Default)]
pub struct Tally {
    accepted: usize,
    produce: BTreeMap<usize, usize>,
    verdict: BTreeMap<usize, usize>,
}

impl Tally {
    pub fn count(&mut self, outcome: &Outcome) {
        let (counts, reason) = match outcome {
            Outcome { verdict: Some([0, ..]), .. } => return self.accepted += 1,
            Outcome { verdict: Some([reason, ..]), .. } => (&mut self.verdict, *reason),
            Outcome { produced, .. } => (&mut self.produce, produced.map_or(0, |(reason, _)| reason)),
        };
        *counts.entry(reason).or_default() += 1;
    }
}

impl fmt::Display for Tally {
    fn fmt(&self, f: &mut fmt::Formatter<'_>) -> fmt::Result {
        let refused: usize = self.produce.values().chain(self.verdict.values()).sum();
        write!(f, "accepted {} refused {refused}", self.accepted)?;
        for (name, counts) in [("produce", &self.produce), ("verdict", &self.verdict)] {
            write!(f, " {name}")?;
            for (reason, count) in counts {
                write!(f, " {reason}:{count}")?;
            }
        }
        Ok(())
    }
}
