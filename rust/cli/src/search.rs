//! Placements of the direct sharing, tried one after the other until the library accepts what is produced.

use crate::random::Random;
use crate::why::Degrees;
use jestrunas::{judge, produce, published_placement, transform, Reason};
use std::collections::HashSet;

/// How a search ends.
#[derive(Clone, Debug, PartialEq, Eq)]
pub enum Outcome {
    /// The library accepts the design file that this placement produces, and refuses those of the `tries - 1` before it.
    Accepted { tries: usize, placement: Vec<u8>, file: Vec<u8> },
    /// Each of so many placements gives a stage that is not uniform; `all`: there is no other placement of this box.
    NotUniform { tries: usize, all: bool },
}

/// The components outside a set of shares.
fn outside(s: usize, set: usize) -> impl Iterator<Item = u8> {
    (1..=s as u8).filter(move |component| set >> (component - 1) & 1 == 0)
}

/// A random placement. A set of more shares than the degree of the box has no products, so it keeps its published component: placements
/// that differ produce different files, or differ in products that the box has not.
fn drawn(s: usize, degree: usize, random: &mut Random) -> Vec<u8> {
    let published = published_placement(s);
    let draw = |set: usize| {
        if set.count_ones() as usize > degree {
            return published[set - 1];
        }
        let choices: Vec<u8> = outside(s, set).collect();
        choices[random.below(choices.len())]
    };
    (1..(1 << s) - 1).map(draw).collect()
}

/// How many placements there are for boxes of a degree.
fn placements(s: usize, degree: usize) -> usize {
    let sets = (1..(1 << s) - 1_usize).filter(|set| set.count_ones() as usize <= degree);
    sets.map(|set| outside(s, set).count()).product()
}

/// Tries at most so many placements of a table of m bits in s shares, none twice: the published one first, then random ones by the seed. A
/// table that has no direct sharing, or is no permutation, is refused. Behind each one that is not uniform it is told how many were tried.
pub fn search(m: usize, s: usize, table: &[u8], most: usize, seed: u64, mut tell: impl FnMut(usize)) -> Result<Outcome, Reason> {
    let mut words = vec![0; table.len()];
    transform(m, table, &mut words)?;
    let degree = Degrees::of(m, &words).degree();
    let mut random = Random::new(seed);
    let mut tried = HashSet::new();
    let mut placement = published_placement(s).to_vec();
    loop {
        let file = produce(m, s, table, &placement)?;
        let Err(refusal) = judge(&file) else {
            return Ok(Outcome::Accepted { tries: tried.len() + 1, placement, file });
        };
        // whatever the placement, what is produced is correct and non-complete
        if refusal.reason != Reason::NotUniform {
            return Err(refusal.reason);
        }
        tried.insert(placement);
        tell(tried.len());
        let all = tried.len() == placements(s, degree);
        if all || tried.len() >= most {
            return Ok(Outcome::NotUniform { tries: tried.len(), all });
        }
        placement = drawn(s, degree, &mut random);
        while tried.contains(&placement) {
            placement = drawn(s, degree, &mut random);
        }
    }
}

#[cfg(test)]
mod tests {
    use super::*;
    use jestrunas::PLACEMENT_4;

    /// A search that tells each try that is in vain once, in order.
    fn search(m: usize, s: usize, table: &[u8], most: usize, seed: u64) -> Result<Outcome, Reason> {
        let mut told = Vec::new();
        let outcome = super::search(m, s, table, most, seed, |n| told.push(n));
        let in_vain = match outcome {
            Ok(Outcome::Accepted { tries, .. }) => tries - 1,
            Ok(Outcome::NotUniform { tries, .. }) => tries,
            Err(_) => 0,
        };
        assert_eq!(told, (1..=in_vain).collect::<Vec<usize>>());
        outcome
    }

    #[test]
    fn the_published_placement_is_the_first() {
        let table = [0, 1, 2, 3, 4, 5, 7, 6];
        let file = produce(3, 4, &table, &PLACEMENT_4).unwrap();
        let found = Outcome::Accepted { tries: 1, placement: PLACEMENT_4.to_vec(), file };
        assert_eq!(search(3, 4, &table, 1, 0), Ok(found));
    }

    #[test]
    fn a_placement_is_found_where_the_published_one_is_none() {
        let table = [0, 1, 2, 4, 3, 6, 7, 5];
        assert_eq!(search(3, 4, &table, 1, 0), Ok(Outcome::NotUniform { tries: 1, all: false }));
        let found = |seed| match search(3, 4, &table, 5184, seed).unwrap() {
            Outcome::Accepted { tries, placement, file } => {
                assert_eq!(produce(3, 4, &table, &placement).as_ref(), Ok(&file));
                assert!(judge(&file).is_ok());
                (tries, placement)
            }
            none => panic!("{none:?}"),
        };
        let (tries, placement) = found(1);
        assert!(tries > 1);
        assert_eq!(found(1), (tries, placement));
        assert_ne!(found(2), found(1));
        // one try fewer finds nothing
        assert_eq!(search(3, 4, &table, tries - 1, 1), Ok(Outcome::NotUniform { tries: tries - 1, all: false }));
    }

    #[test]
    fn all_placements_are_tried_where_they_are_few() {
        // designs/uneven.bin: no placement in three shares makes it uniform
        let table = [0, 1, 2, 4, 3, 6, 7, 5];
        assert_eq!(search(3, 3, &table, 1000, 0), Ok(Outcome::NotUniform { tries: 8, all: true }));
        assert_eq!(search(3, 3, &table, 7, 0), Ok(Outcome::NotUniform { tries: 7, all: false }));
    }

    #[test]
    fn how_many_placements_there_are() {
        // of a set of one share there are s - 1 components outside, of one of two s - 2, ..
        assert_eq!(placements(3, 2), 8);
        assert_eq!(placements(4, 2), 3_usize.pow(4) * 2_usize.pow(6));
        assert_eq!(placements(4, 3), placements(4, 2));
        assert_eq!(placements(5, 2), 4_usize.pow(5) * 3_usize.pow(10));
        assert_eq!(placements(5, 4), placements(5, 2) * 2_usize.pow(10));
    }

    #[test]
    fn a_drawn_placement_loads() {
        let mut random = Random::new(3);
        for s in 3..=5 {
            for _ in 0..100 {
                let placement = drawn(s, s - 1, &mut random);
                assert!(produce(1, s, &[1, 0], &placement).is_ok(), "{placement:?}");
            }
        }
        // the sets of three and four shares keep their components in a box of degree 2
        let kept = |placement: &[u8]| {
            let published = published_placement(5);
            (1..31_usize).filter(|set| set.count_ones() > 2).all(|set| placement[set - 1] == published[set - 1])
        };
        assert!((0..100).all(|_| kept(&drawn(5, 2, &mut random))));
        assert!(!(0..100).all(|_| kept(&drawn(5, 3, &mut random))));
    }

    #[test]
    fn what_has_no_direct_sharing_is_refused() {
        assert_eq!(search(3, 3, &[0; 8], 10, 0), Err(Reason::BoxRepeats));
        assert_eq!(search(3, 3, &[0; 7], 10, 0), Err(Reason::WrongLength));
        assert_eq!(search(3, 6, &[0, 1, 2, 3, 4, 5, 6, 7], 10, 0), Err(Reason::LimitBroken));
        // of degree 3
        assert_eq!(search(4, 3, &[0, 1, 2, 3, 4, 5, 6, 7, 8, 9, 10, 11, 12, 13, 15, 14], 10, 0), Err(Reason::DegreeTooHigh));
    }
}
