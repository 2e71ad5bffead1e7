//! The universal construction: a sharing of any permutation of degree at most s - 2 that is uniform by construction. It is Theorem 1 of
//! Piccione, Andreoli, Budaghyan, Carlet, Dhooghe, Nikova, Petrides and Rijmen, "An Optimal Universal Construction for the Threshold
//! Implementation of Bijective S-boxes", with t = s - 2, in which + is the bitwise XOR and F the permutation:
//!
//! - component 1 is x1;
//! - component 2 is x3 + .. + xs + F(x2 + .. + xs);
//! - component j, from 3 to s - 1, is xj and F(sum of I + xj + .. + xs) for each set I of shares below j - 1;
//! - component s is xs + x1 and F(sum of I) for each set I of shares below s - 1.
//!
//! So component 1 reads share 1 alone, and each other one ignores the share before its own. The theorem asks for t of 2 or more; its proof
//! holds for t of 1, an affine box in three shares, too. What is made is judged before it is kept.

use crate::design::{Design, Stage};
use crate::why::{Degrees, Given, Repeats};
use jestrunas::{Reason, Refusal};
use std::collections::BTreeSet;
use std::fmt;

/// Why there is no such sharing of a table.
#[derive(Clone, Copy, Debug, PartialEq, Eq)]
pub enum Unmade {
    /// The width, the number of shares or the table is none of a design whose box is a permutation.
    Given(Reason),
    /// The degree exceeds s - 2.
    Degree { degree: usize, m: usize, s: usize },
    /// The library refuses what was made.
    Verdict(Refusal),
}

impl fmt::Display for Unmade {
    fn fmt(&self, f: &mut fmt::Formatter<'_>) -> fmt::Result {
        match *self {
            Unmade::Given(reason) => write!(f, "{}: {reason}", reason.number()),
            Unmade::Degree { degree, m, s } => {
                let (most, due) = (s - 2, degree + 2);
                write!(
                    f,
                    "the degree is {degree}, and the universal construction in {s} shares takes at most {most}; {due} shares "
                )?;
                match Given::limit(m, due) {
                    None => write!(f, "would do"),
                    Some(limit) => write!(f, "would do, but {}", limit.line()),
                }
            }
            Unmade::Verdict(refusal) => refusal.fmt(f),
        }
    }
}

impl std::error::Error for Unmade {}

/// The products of a set of variables multiplied out over the sum of these shares: each variable is that of one of the shares.
fn products(m: usize, set: usize, shares: &[usize]) -> Vec<u32> {
    (0..m).filter(|bit| set >> bit & 1 == 1).fold(vec![0], |products, bit| {
        let with_share = |product| shares.iter().map(move |share| product | 1 << ((share - 1) * m + bit));
        products.into_iter().flat_map(with_share).collect()
    })
}

/// A component as it grows: a set of terms for each bit.
struct Component<'a> {
    words: &'a [u8],
    lists: Vec<BTreeSet<u32>>,
}

impl<'a> Component<'a> {
    fn new(m: usize, words: &'a [u8]) -> Component<'a> {
        Component { words, lists: vec![BTreeSet::new(); m] }
    }

    /// Adds a term to a bit: a term that is there goes.
    fn add_term(&mut self, bit: usize, term: u32) {
        if !self.lists[bit].remove(&term) {
            self.lists[bit].insert(term);
        }
    }

    /// Adds a share.
    fn add_share(&mut self, share: usize) {
        let m = self.lists.len();
        (0..m).for_each(|bit| self.add_term(bit, 1 << ((share - 1) * m + bit)));
    }

    /// Adds F of the sum of these shares.
    fn add_f(&mut self, shares: &[usize]) {
        let m = self.lists.len();
        for (set, &word) in self.words.iter().enumerate().filter(|(_, &word)| word != 0) {
            for product in products(m, set, shares) {
                (0..m).filter(|bit| word >> bit & 1 == 1).for_each(|bit| self.add_term(bit, product));
            }
        }
    }

    /// Adds F of the sum of I and these shares, for each set I of shares from 1 to `last`.
    fn add_f_for_each_set(&mut self, last: usize, shares: impl Iterator<Item = usize> + Clone) {
        for set in 0..1 << last {
            let chosen = (1..=last).filter(|share| set >> (share - 1) & 1 == 1);
            self.add_f(&chosen.chain(shares.clone()).collect::<Vec<usize>>());
        }
    }
}

/// Component j of the construction.
fn component(m: usize, s: usize, words: &[u8], j: usize) -> Vec<BTreeSet<u32>> {
    let mut made = Component::new(m, words);
    match j {
        1 => made.add_share(1),
        2 => {
            (3..=s).for_each(|share| made.add_share(share));
            made.add_f(&(2..=s).collect::<Vec<usize>>());
        }
        _ if j < s => {
            made.add_share(j);
            made.add_f_for_each_set(j - 2, j..=s);
        }
        _ => {
            made.add_share(s);
            made.add_share(1);
            made.add_f_for_each_set(s - 2, 0..0);
        }
    }
    made.lists
}

/// The design of a table of m bits in s shares by the universal construction, which nobody has judged yet.
pub fn designed(m: usize, s: usize, table: &[u8]) -> Result<Design, Unmade> {
    if Given::limit(m, s).is_some() {
        return Err(Unmade::Given(Reason::LimitBroken));
    }
    let mut words = vec![0; table.len()];
    jestrunas::transform(m, table, &mut words).map_err(Unmade::Given)?;
    if Repeats::of(table).is_some() {
        return Err(Unmade::Given(Reason::BoxRepeats));
    }
    let degree = Degrees::of(m, &words).degree();
    if degree > s - 2 {
        return Err(Unmade::Degree { degree, m, s });
    }
    // no list is longer than a design's may be: the tests count what s - 1 shares and a degree of s - 2 allow
    let lists = (1..=s).flat_map(|j| component(m, s, &words, j)).map(|list| list.into_iter().collect()).collect();
    Ok(Design { m, s, s_box: table.to_vec(), stages: vec![Stage { table: table.to_vec(), lists }] })
}

/// The file of that design, which the library has accepted.
pub fn universal(m: usize, s: usize, table: &[u8]) -> Result<Vec<u8>, Unmade> {
    let file = designed(m, s, table)?.file();
    jestrunas::judge(&file).map_err(Unmade::Verdict)?;
    Ok(file)
}

#[cfg(test)]
mod tests {
    use super::*;
    use jestrunas::TERMS_MAX;

    #[test]
    fn the_cube_of_three_bits_is_that_of_the_theorem() {
        // x to the third in GF(8) modulo x^3 + x + 1, in four shares
        let product = |a: u8, b: u8| {
            let wide = (0..3).filter(|bit| b >> bit & 1 == 1).fold(0, |sum, bit| sum ^ a << bit);
            [4, 3].iter().fold(wide, |wide, &bit| if wide >> bit & 1 == 1 { wide ^ 0b1011 << (bit - 3) } else { wide })
        };
        let cube = |x: u8| product(x, product(x, x));
        let table: Vec<u8> = (0..8).map(cube).collect();
        let file = universal(3, 4, &table).unwrap();
        for sharing in 0..1 << 12_u32 {
            let [x1, x2, x3, x4] = [0, 3, 6, 9].map(|from| (sharing >> from & 7) as u8);
            let due = [
                x1,
                x3 ^ x4 ^ cube(x2 ^ x3 ^ x4),
                x3 ^ cube(x1 ^ x3 ^ x4) ^ cube(x3 ^ x4),
                x4 ^ x1 ^ cube(x1) ^ cube(x2) ^ cube(x1 ^ x2),
                0,
            ];
            assert_eq!(jestrunas::run(&file, [x1, x2, x3, x4, 0]), Ok(due), "{sharing:o}");
        }
    }

    #[test]
    fn each_component_leaves_out_the_share_before_its_own() {
        let file = universal(4, 5, &[0, 1, 2, 3, 4, 5, 6, 7, 8, 9, 10, 11, 12, 13, 15, 14]).unwrap();
        let Design { stages, .. } = Design::read(&file).unwrap();
        assert!((0..5).all(|share| stages[0].depends(4, 0, share) == (share == 0)));
        assert!((1..5).all(|j| (0..5).all(|share| !stages[0].depends(4, j, share) == (share + 1 == j))));
    }

    #[test]
    fn affine_boxes_take_three_shares() {
        for table in [[0, 1, 2, 3, 4, 5, 6, 7], [5, 1, 4, 0, 7, 3, 6, 2]] {
            assert!(universal(3, 3, &table).is_ok(), "{table:?}");
        }
    }

    /// How many sets of at most `degree` of so many variables there are.
    fn terms(variables: usize, degree: usize) -> usize {
        let choose = |size: usize| (0..size).fold(1, |choose, i| choose * (variables - i) / (i + 1));
        (0..=degree).map(choose).sum()
    }

    #[test]
    fn no_list_is_too_long() {
        assert_eq!(terms(6, 3), 1 + 6 + 15 + 20);
        let most = |s: usize| terms(20 / s * (s - 1), s - 2);
        assert_eq!([most(3), most(4), most(5)], [13, 121, 697]);
        assert!((3..=5).all(|s| most(s) <= TERMS_MAX));
    }

    #[test]
    fn what_it_does_not_take() {
        let refused = |m, s, table: &[u8]| universal(m, s, table).unwrap_err();
        let quadratic = [0, 1, 2, 3, 4, 5, 7, 6];
        assert_eq!(
            refused(3, 3, &quadratic).to_string(),
            "the degree is 2, and the universal construction in 3 shares takes at most 1; 4 shares would do"
        );
        // of degree 3, x0 + x1 x2 x3
        let cubic: Vec<u8> = (0..32).map(|x| if x & 14 == 14 { x ^ 1 } else { x }).collect();
        assert_eq!(
            refused(5, 4, &cubic).to_string(),
            "the degree is 3, and the universal construction in 4 shares takes at most 2; 5 shares would do, but s is 5 and m is 5: \
             m × s is 25, at most 20"
        );
        let swapped: Vec<u8> = [1, 0].into_iter().chain(2..32).collect();
        assert_eq!(
            refused(5, 4, &swapped).to_string(),
            "the degree is 4, and the universal construction in 4 shares takes at most 2; 6 shares would do, but s is 6, and 3 to 5 are \
             allowed"
        );
        for (reason, m, s, table) in [
            (Reason::LimitBroken, 5, 5, &cubic[..]),
            (Reason::LimitBroken, 3, 6, &quadratic),
            (Reason::LimitBroken, 7, 3, &[]),
            (Reason::WrongLength, 3, 3, &quadratic[..7]),
            (Reason::EntryTooLarge, 3, 3, &[8; 8]),
            (Reason::BoxRepeats, 3, 3, &[0, 1, 2, 3, 4, 5, 6, 6]),
        ] {
            assert_eq!(refused(m, s, table), Unmade::Given(reason), "{table:?}");
        }
    }
}
