//! Running a chain.

use super::{Operation, NOTHING};
use crate::comparison::{Asked, Comparison, Input};
use crate::counts::{Counts, READING};
use crate::random::Random;
use jestrunas::native;
use reference::Shares;

pub const OPERATION: Operation = Operation { ask, say, ..NOTHING };

#[derive(Default)]
pub struct Counted {
    calls: Counts,
}

pub fn call(c: &mut Comparison, file: Input, shares: Shares, due: (usize, Shares)) {
    let library = |[file]: [&[u8]; 1], _: &mut [u8]| {
        let r = native::run(file, shares);
        (r.reason, r.shares.share)
    };
    c.call(format_args!("run on {shares:?}"), [file], None, library, |_| due);
    c.counted.run.calls.add(due.0);
}

/// Shares to run a chain on, of which one may be out of range.
pub fn shares(random: &mut Random, m: usize, s: usize) -> Shares {
    let mut shares = [0; 5];
    for share in &mut shares[..s] {
        *share = random.below(1 << m) as u8;
    }
    if random.once_in(6) {
        let j = random.below(5);
        shares[j] = random.pick(&[1, 1 << m, (1 << m) + 1, 128, 255]);
    }
    shares
}

fn ask(c: &mut Comparison, asked: &Asked) {
    let run = |c: &mut Comparison, shares| call(c, asked.file, shares, reference::run(asked.file.bytes, shares));
    match &asked.design {
        Ok(design) => {
            for _ in 0..2 {
                let shares = shares(c.random(), design.m, design.s);
                run(c, shares);
            }
        }
        Err(_) if c.random().once_in(4) => {
            let shares = [0; 5].map(|_: u8| c.random().below(4) as u8);
            run(c, shares);
        }
        Err(_) => {}
    }
}

fn say(c: &Comparison) -> bool {
    c.counted.run.calls.say("run", &[&[0], &READING, &[15]])
}
