//! Reading.

use super::{Operation, NOTHING};
use crate::comparison::{Asked, Comparison, FILES};
use crate::counts::{Counts, READING};
use crate::hex;
use crate::make::{QUICK, SIZES};
use jestrunas::{native, STAGES_MAX};
use reference::encode;

pub const OPERATION: Operation = Operation { ask, say, ..NOTHING };

#[derive(Default)]
pub struct Counted {
    calls: Counts,
    /// The designs of each size, by their number of stages.
    sizes: [[usize; STAGES_MAX]; SIZES.len()],
}

fn ask(c: &mut Comparison, asked: &Asked) {
    let library = |[file]: [&[u8]; 1], _: &mut [u8]| {
        let r = native::read(file);
        [r.reason, r.place, r.component]
    };
    let due = asked.design.as_ref().map_or_else(|fault| [fault.reason, fault.place, 0], |_| [0, 0, 0]);
    c.call("read", [asked.file], None, library, |_| due);
    c.counted.read.calls.add(due[0]);
    if let Ok(design) = &asked.design {
        let size = SIZES.iter().position(|&size| size == (design.m, design.s)).expect("within the limits");
        c.counted.read.sizes[size][design.stages.len() - 1] += 1;
        let file = asked.file.bytes;
        if encode(design) != file {
            c.differs("one meaning has one file", &[file], "", hex(&encode(design)));
        }
    }
}

fn say(c: &Comparison) -> bool {
    let counted = &c.counted.read;
    let mut complete = counted.calls.say("read", &[&[0], &READING]);
    for ((m, s), by_stages) in SIZES.into_iter().zip(counted.sizes) {
        if by_stages.contains(&0) && (m * s <= QUICK || c.files >= FILES) {
            println!("too few designs of m {m}, s {s}: {by_stages:?} by k");
            complete = false;
        }
    }
    complete
}
