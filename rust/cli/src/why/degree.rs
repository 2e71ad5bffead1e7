//! 16: the degree is the number of shares or more.

use crate::json::{Json, Object};
use crate::sharing::row;
use jestrunas::{SHARES_MAX, SHARES_MIN, SHARE_BITS_MAX};

/// The degrees of the output bits of a table.
#[derive(Clone, Debug, PartialEq)]
pub struct Degrees {
    pub m: usize,
    /// Of each bit its degree, and of its terms of this degree the first, as a set of variables; none where the bit is 0.
    pub bits: Vec<(u32, Option<usize>)>,
}

impl Degrees {
    /// Of coefficient words.
    pub fn of(m: usize, words: &[u8]) -> Degrees {
        let bit = |bit: usize| {
            let terms = (0..words.len()).filter(|&set| words[set] >> bit & 1 == 1);
            // of equal ones the last is taken, so from the last to the first
            let term = terms.rev().max_by_key(|set| set.count_ones());
            (term.map_or(0, usize::count_ones), term)
        };
        Degrees { m, bits: (0..m).map(bit).collect() }
    }

    pub fn degree(&self) -> usize {
        self.bits.iter().map(|&(degree, _)| degree as usize).max().unwrap_or(0)
    }

    /// The least number of shares in which the table has a direct sharing.
    pub fn shares(&self) -> Option<usize> {
        let shares = (self.degree() + 1).max(SHARES_MIN);
        (shares <= SHARES_MAX && shares * self.m <= SHARE_BITS_MAX).then_some(shares)
    }

    pub fn line(&self) -> String {
        let bit = |(bit, (degree, term)): (usize, &(u32, Option<usize>))| {
            let has = term.map_or(String::new(), |set| format!(" by {}", product(set)));
            format!("bit {bit} has degree {degree}{has}")
        };
        let bits: Vec<String> = self.bits.iter().enumerate().map(bit).collect();
        let shares = match self.shares() {
            Some(shares) => format!("{shares} shares would do"),
            None => format!(
                "{} shares would do, but s is at most {SHARES_MAX} and m × s at most {SHARE_BITS_MAX}: a chain of stages of lower degree may",
                self.degree() + 1
            ),
        };
        format!("{}; {shares}", row(&bits, "and"))
    }

    pub fn json(&self) -> Object {
        let bit = |&(degree, term): &(u32, Option<usize>)| -> Json {
            Object::new().with("degree", degree as usize).with("term", term.map(product)).into()
        };
        let bits = self.bits.iter().map(bit).collect::<Vec<Json>>();
        Object::new().with("degree", self.degree()).with("bits", bits).with("shares", self.shares())
    }
}

/// A term of a table: `x[0]·x[2]`.
pub fn product(set: usize) -> String {
    if set == 0 {
        return "1".to_owned();
    }
    let variables = (0..usize::BITS).filter(|bit| set >> bit & 1 == 1);
    variables.map(|bit| format!("x[{bit}]")).collect::<Vec<_>>().join("·")
}
