//! What an accepted design assures, by running it on every sharing of every secret.

use super::{run, Operation, NOTHING};
use crate::comparison::{Asked, Comparison, Input};
use crate::depend::shares_read;
use reference::{Design, Shares};

pub const OPERATION: Operation = Operation { ask, say, ..NOTHING };

#[derive(Default)]
pub struct Counted {
    designs: usize,
}

/// The most share bits of the designs that are run on every sharing.
const MOST_BITS: usize = 9;

fn ask(c: &mut Comparison, asked: &Asked) {
    match &asked.design {
        Ok(design) if asked.verdict[0] == 0 && design.m * design.s <= MOST_BITS && c.random().once_in(8) => {
            assured(c, design, asked.file);
        }
        _ => {}
    }
}

/// How often each setting of each of these sets of shares is met: never so far.
fn none_met(m: usize, sets: &[Vec<usize>]) -> Vec<Vec<u32>> {
    sets.iter().map(|set| vec![0; 1 << (m * set.len())]).collect()
}

/// Shares are met, and so one setting of each set.
fn meet(m: usize, met: &mut [Vec<u32>], sets: &[Vec<usize>], shares: &Shares) {
    for (met, set) in met.iter_mut().zip(sets) {
        met[set.iter().fold(0, |setting, &share| setting << m | usize::from(shares[share]))] += 1;
    }
}

/// The last stage's output shares sum to S of the secret. Of every stage, each component ignores a share; whichever share is left out, each
/// setting of the others is met once; and each setting of the shares on which a component depends is met as often as for the secret 0.
fn assured(c: &mut Comparison, design: &Design, file: Input) {
    let (m, s) = (design.m, design.s);
    let others: Vec<Vec<usize>> = (0..s).map(|left_out| (0..s).filter(|&share| share != left_out).collect()).collect();
    let read: Vec<Vec<Vec<usize>>> = design.stages.iter().map(|stage| shares_read(stage, m, s)).collect();
    if read.iter().flatten().any(|read| read.len() == s) {
        c.differs("each component of an accepted design ignores a share", &[file.bytes], &read, "");
    }
    let mut for_secret_0 = None;
    for x in 0..1 << m {
        let mut once = vec![none_met(m, &others); design.stages.len()];
        let mut equally: Vec<Vec<Vec<u32>>> = read.iter().map(|read| none_met(m, read)).collect();
        for number in 0..1usize << (m * (s - 1)) {
            let mut given = [0u8; 5];
            given[s - 1] = x;
            for j in 0..s - 1 {
                given[j] = (number >> (j * m)) as u8 & ((1 << m) - 1);
                given[s - 1] ^= given[j];
            }
            let mut shares = given;
            for (i, stage) in design.stages.iter().enumerate() {
                meet(m, &mut once[i], &others, &shares);
                meet(m, &mut equally[i], &read[i], &shares);
                shares = stage.output(&shares);
            }
            run::call(c, file, given, (0, shares));
            let sum = shares.iter().fold(0, |sum, share| sum ^ share);
            if sum != design.table[usize::from(x)] {
                c.differs(format_args!("an accepted design run on {given:?} gives shares of S"), &[file.bytes], "", shares);
            }
        }
        if once.iter().flatten().flatten().any(|&times| times != 1) {
            c.differs(format_args!("settings of s - 1 shares for the secret {x}"), &[file.bytes], once, "once each");
        }
        let due = for_secret_0.get_or_insert_with(|| equally.clone());
        if equally != *due {
            let what = format_args!("settings of the shares that are read for the secret {x}");
            c.differs(what, &[file.bytes], equally, due.clone());
        }
    }
    c.counted.assurance.designs += 1;
}

fn say(c: &Comparison) -> bool {
    println!("assurance: {} accepted designs run on every sharing of every secret", c.counted.assurance.designs);
    c.counted.assurance.designs > 0
}
