//! 3, 4, 5, 15, 19, 20, 21: which of the numbers that a command was given, and what is allowed.

use crate::design::Design;
use crate::json::{list, Object};
use crate::sharing::row;
use crate::verdict::counted;
use jestrunas::{SHARES_MAX, SHARES_MIN, SHARE_BITS_MAX, STAGES_MAX, WIDTH_MAX};

#[derive(Clone, Debug, PartialEq)]
pub enum Given {
    /// 4: the width.
    Width { m: usize },
    /// 4: the number of shares.
    Shares { s: usize },
    /// 4: the share bits.
    ShareBits { m: usize, s: usize },
    /// 4: the number of stages.
    Stages { k: usize },
    /// 3: a table has not the entries that are due.
    Entries { entries: usize, due: usize },
    /// 5: the first entry that is too large.
    Entry { at: usize, entry: usize, most: usize },
    /// 15: the first share that is too large, counted from 1.
    Share { share: usize, value: usize, most: usize },
    /// 19: two designs of different size, m and s of each.
    Sizes { first: [usize; 2], second: [usize; 2] },
    /// 20: two designs with too many stages together.
    Together { first: usize, second: usize },
    /// 21: a placement has not the bytes that are due.
    Bytes { bytes: usize, due: usize },
    /// 21: the first byte of a placement that is no component, or one in its set, the byte counted from 1.
    Byte { s: usize, byte: usize, value: u8 },
}

impl Given {
    /// Which number breaks a limit, of a width and a number of shares.
    pub fn limit(m: usize, s: usize) -> Option<Given> {
        if !(1..=WIDTH_MAX).contains(&m) {
            Some(Given::Width { m })
        } else if !(SHARES_MIN..=SHARES_MAX).contains(&s) {
            Some(Given::Shares { s })
        } else if m * s > SHARE_BITS_MAX {
            Some(Given::ShareBits { m, s })
        } else {
            None
        }
    }

    /// Which number of a head record.
    pub fn head(file: &[u8]) -> Option<Given> {
        let [m, s, k] = [4, 5, 6].map(|byte| usize::from(file[byte]));
        Given::limit(m, s).or((!(1..=STAGES_MAX).contains(&k)).then_some(Given::Stages { k }))
    }

    /// Which share is too large for m bits.
    pub fn share(m: usize, values: &[usize]) -> Option<Given> {
        let most = (1 << m) - 1;
        let (share, &value) = (1..).zip(values).find(|&(_, &value)| value > most)?;
        Some(Given::Share { share, value, most })
    }

    /// How many entries a table has and should have.
    pub fn entries(m: usize, entries: usize) -> Option<Given> {
        let due = 1 << m;
        (entries != due).then_some(Given::Entries { entries, due })
    }

    /// Which entry is too large.
    pub fn entry(m: usize, table: impl IntoIterator<Item = usize>) -> Option<Given> {
        let most = (1 << m) - 1;
        let (at, entry) = table.into_iter().enumerate().find(|&(_, entry)| entry > most)?;
        Some(Given::Entry { at, entry, most })
    }

    pub fn sizes(first: &Design, second: &Design) -> Given {
        Given::Sizes { first: [first.m, first.s], second: [second.m, second.s] }
    }

    pub fn together(first: &Design, second: &Design) -> Given {
        Given::Together { first: first.stages.len(), second: second.stages.len() }
    }

    /// Which byte of a placement.
    pub fn placement(s: usize, placement: &[u8]) -> Option<Given> {
        let due = (1 << s) - 2;
        if placement.len() != due {
            return Some(Given::Bytes { bytes: placement.len(), due });
        }
        let loads = |byte: usize, value: u8| (1..=s).contains(&usize::from(value)) && byte >> (value - 1) & 1 == 0;
        let (byte, &value) = (1..).zip(placement).find(|&(byte, &value)| !loads(byte, value))?;
        Some(Given::Byte { s, byte, value })
    }

    pub fn line(&self) -> String {
        match *self {
            Given::Width { m } => format!("m is {m}, and 1 to {WIDTH_MAX} are allowed"),
            Given::Shares { s } => format!("s is {s}, and {SHARES_MIN} to {SHARES_MAX} are allowed"),
            Given::ShareBits { m, s } => format!("s is {s} and m is {m}: m × s is {}, at most {SHARE_BITS_MAX}", m * s),
            Given::Stages { k } => format!("k is {k}, and 1 to {STAGES_MAX} are allowed"),
            Given::Entries { entries, due } => format!("{} of {due}, which is 2^m", counted_entries(entries)),
            Given::Entry { at, entry, most } => format!("the entry of {at} is {entry}, at most {most}, which is 2^m - 1"),
            Given::Share { share, value, most } => format!("share {share} is {value}, at most {most}, which is 2^m - 1"),
            Given::Sizes { first: [m, s], second: [n, t] } => {
                format!("m is {m} and s is {s} in the first, m is {n} and s is {t} in the second")
            }
            Given::Together { first, second } => {
                format!("{} and {}: {}, at most {STAGES_MAX}", counted(first, "stage"), counted(second, "stage"), first + second)
            }
            Given::Bytes { bytes, due } => format!("{} of {due}, which is 2^s - 2", counted(bytes, "byte")),
            Given::Byte { s, byte, value } => {
                let set: Vec<String> = members(byte).iter().map(usize::to_string).collect();
                let shares = if set.len() == 1 { "share" } else { "shares" };
                let may: Vec<String> = (1..=s).filter(|j| !members(byte).contains(j)).map(|j| j.to_string()).collect();
                let may = row(&may, "or");
                format!("byte {byte}, of {shares} {}, is {value}, and may be {may}", row(&set, "and"))
            }
        }
    }

    pub fn json(&self) -> Object {
        let at_most = |object: Object, least: usize, most: usize| object.with("least", least).with("most", most);
        match *self {
            Given::Width { m } => at_most(Object::new().with("m", m), 1, WIDTH_MAX),
            Given::Shares { s } => at_most(Object::new().with("s", s), SHARES_MIN, SHARES_MAX),
            Given::ShareBits { m, s } => {
                Object::new().with("m", m).with("s", s).with("share_bits", m * s).with("most", SHARE_BITS_MAX)
            }
            Given::Stages { k } => at_most(Object::new().with("k", k), 1, STAGES_MAX),
            Given::Entries { entries, due } => Object::new().with("entries", entries).with("due", due),
            Given::Entry { at, entry, most } => Object::new().with("at", at).with("entry", entry).with("most", most),
            Given::Share { share, value, most } => Object::new().with("share", share).with("value", value).with("most", most),
            Given::Sizes { first: [m, s], second: [n, t] } => Object::new().with("m", list(&[m, n])).with("s", list(&[s, t])),
            Given::Together { first, second } => Object::new().with("stages", list(&[first, second])).with("most", STAGES_MAX),
            Given::Bytes { bytes, due } => Object::new().with("bytes", bytes).with("due", due),
            Given::Byte { s, byte, value } => {
                let may: Vec<usize> = (1..=s).filter(|j| !members(byte).contains(j)).collect();
                Object::new()
                    .with("byte", byte)
                    .with("value", value)
                    .with("shares", list(&members(byte)))
                    .with("may_be", list(&may))
            }
        }
    }
}

fn counted_entries(entries: usize) -> String {
    if entries == 1 {
        "1 entry".to_owned()
    } else {
        format!("{entries} entries")
    }
}

/// The shares of a set that is a number, counted from 1.
fn members(set: usize) -> Vec<usize> {
    (1..=SHARES_MAX).filter(|j| set >> (j - 1) & 1 == 1).collect()
}
