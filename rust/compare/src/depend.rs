//! On which shares the outputs of a stage depend, found by trying its functions.

use reference::{Shares, Stage};

/// The most share bits of the designs whose stages are tried: with more it takes too long.
pub const TRIED: usize = 12;

/// For each share the output bits that some change of this share alone changes, those of component j at j, all counted from 0. A change
/// of a share is made of changes of single bits, one after the other, so that these are tried, at every sharing.
pub fn changed_by(stage: &Stage, m: usize, s: usize) -> Vec<Shares> {
    let output = |number: usize| {
        let mut shares = [0; 5];
        for (j, share) in shares.iter_mut().take(s).enumerate() {
            *share = (number >> (j * m)) as u8 & ((1 << m) - 1);
        }
        let [a, b, c, d, e] = stage.output(&shares);
        u64::from_le_bytes([a, b, c, d, e, 0, 0, 0])
    };
    let outputs: Vec<u64> = (0..1 << (m * s)).map(output).collect();
    let mut changed = vec![0; s];
    for number in 0..outputs.len() {
        for bit in 0..m * s {
            changed[bit / m] |= outputs[number] ^ outputs[number ^ 1 << bit];
        }
    }
    changed.iter().map(|bits| bits.to_le_bytes()[..5].try_into().expect("five shares")).collect()
}

/// For each component the shares on which it depends, all counted from 0.
pub fn shares_read(stage: &Stage, m: usize, s: usize) -> Vec<Vec<usize>> {
    let changed = changed_by(stage, m, s);
    (0..s).map(|j| (0..s).filter(|&share| changed[share][j] != 0).collect()).collect()
}
