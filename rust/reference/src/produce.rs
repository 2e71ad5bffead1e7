//! The direct sharing, and producing (RULES 9 and 10).

use crate::design::{encode, Design, Product, Shares, Stage};
use crate::transform::coefficient;
use crate::{repeats, within_limits};

/// The sets of shares (from 0) that have a byte in a placement, in its order: neither none nor all.
fn sets(s: usize) -> Vec<Vec<usize>> {
    (1..(1 << s) - 1).map(|number| (0..s).filter(|share| number >> share & 1 == 1).collect()).collect()
}

/// The component (from 0) of a product by the published rule: the lowest one outside the set of its chosen shares (from 0) for which the
/// one after it, the first after the last, is in the set.
fn component_of(chosen: &[usize], s: usize) -> usize {
    (0..s).find(|c| !chosen.contains(c) && chosen.contains(&((c + 1) % s))).expect("some share is chosen, and not every one")
}

/// The published rule as a placement; none where s breaks the limits.
pub fn published_placement(s: usize) -> Vec<u8> {
    if !within_limits(1, s) {
        return Vec::new();
    }
    sets(s).iter().map(|chosen| component_of(chosen, s) as u8 + 1).collect()
}

/// Whether a placement has a byte for each set, and each is a component (from 1) outside it. s keeps the limits.
pub fn loads(s: usize, placement: &[u8]) -> bool {
    let outside = |chosen: &Vec<usize>, component: u8| (0..s).any(|c| c + 1 == usize::from(component) && !chosen.contains(&c));
    let sets = sets(s);
    placement.len() == sets.len() && sets.iter().zip(placement).all(|(chosen, &component)| outside(chosen, component))
}

/// The component (from 0) of a product whose chosen shares (from 0) are these, by a placement that loads. Fewer than s are chosen.
fn placed(chosen: &[usize], placement: &[u8]) -> usize {
    let set = chosen.iter().fold(0, |set, share| set | 1 << share);
    if set == 0 {
        return 0;
    }
    usize::from(placement[set - 1]) - 1
}

/// All ways to choose a share for each variable of a term.
fn choices(variables: &[usize], s: usize) -> Vec<Vec<(usize, usize)>> {
    let mut all = vec![Vec::new()];
    for &variable in variables {
        all = all
            .into_iter()
            .flat_map(|chosen| (0..s).map(move |share| [chosen.clone(), vec![(variable, share)]].concat()))
            .collect();
    }
    all
}

/// The stage that shares a table directly, by a placement that loads. The degree of the table must be below s.
pub fn direct_sharing(m: usize, s: usize, table: &[u8], placement: &[u8]) -> Stage {
    let mut components = vec![vec![Vec::new(); m]; s];
    for term in 0..1 << m {
        let word = coefficient(table, term);
        if word == 0 {
            continue;
        }
        let variables: Vec<usize> = (0..m).filter(|variable| term >> variable & 1 == 1).collect();
        for choice in choices(&variables, s) {
            let shares: Vec<usize> = choice.iter().map(|&(_, share)| share).collect();
            let mut factors: Shares = [0; 5];
            for (variable, share) in choice {
                factors[share] |= 1 << variable;
            }
            let bits: &mut Vec<Vec<Product>> = &mut components[placed(&shares, placement)];
            for bit in (0..m).filter(|bit| word >> bit & 1 == 1) {
                bits[bit].push(Product::of(&factors));
            }
        }
    }
    Stage { table: table.to_vec(), components }
}

fn degree(m: usize, table: &[u8]) -> usize {
    (0..1 << m).filter(|&term: &usize| coefficient(table, term) != 0).map(|term| term.count_ones() as usize).max().unwrap_or(0)
}

/// The rules for producing, once there is a file: the number and the length, and the file stands in the output where it fits.
pub(crate) fn written(file: &[u8], output: &mut [u8]) -> (usize, usize) {
    if file.len() > output.len() {
        return (17, 0);
    }
    output[..file.len()].copy_from_slice(file);
    (0, file.len())
}

/// Produces a file: the number and the length. The output becomes what RULES 10.3 says.
pub fn produce(m: usize, s: usize, table: &[u8], placement: &[u8], output: &mut [u8]) -> (usize, usize) {
    if !within_limits(m, s) {
        return (4, 0);
    }
    if table.len() != 1 << m {
        return (3, 0);
    }
    if table.iter().any(|&entry| usize::from(entry) >> m != 0) {
        return (5, 0);
    }
    if repeats(table) {
        return (8, 0);
    }
    if !loads(s, placement) {
        return (21, 0);
    }
    if degree(m, table) >= s {
        return (16, 0);
    }
    let stage = direct_sharing(m, s, table, placement);
    written(&encode(&Design { m, s, table: table.to_vec(), stages: vec![stage] }), output)
}

#[cfg(test)]
mod tests {
    use super::*;

    #[test]
    fn the_published_placements() {
        for (s, due) in [(3, "313221"), (4, "41422143313221"), (5, "515221533132215441422143313221")] {
            let digits: Vec<u8> = due.bytes().map(|digit| digit - b'0').collect();
            assert_eq!(published_placement(s), digits, "{s} shares");
            assert!(loads(s, &digits));
        }
        for s in [0, 1, 2, 6, usize::MAX] {
            assert!(published_placement(s).is_empty());
        }
    }
}
