//! Producing.

use super::{Operation, NOTHING};
use crate::comparison::{Asked, Comparison};
use crate::counts::Counts;
use crate::depend::{shares_read, TRIED};
use crate::make;
use jestrunas::{native, PRODUCED_MAX};
use reference::{loads, published_placement};

pub const OPERATION: Operation = Operation { ask, edges, every, generated, say, ..NOTHING };

/// The refusals that come before that of the placement, 21, in the published order, and those that come after it.
const BEFORE: [usize; 4] = [4, 3, 5, 8];
const AFTER: [usize; 2] = [16, 17];

#[derive(Default)]
pub struct Counted {
    calls: Counts,
    /// Calls by a placement that does not load: the reason that each has by the published one.
    unplaced: Counts,
    /// Verdicts on what was produced otherwise than by the published placement.
    placed: Counts,
}

/// Producing into an output of this length: the file, if there is one.
fn call(c: &mut Comparison, m: usize, s: usize, table: &[u8], placement: &[u8], length: usize) -> Option<Vec<u8>> {
    let what = format!("produce {m} {s}, {} bytes and {}, output of {length}", table.len(), placement.len());
    let inputs = [c.input(table), c.input(placement)];
    let library = |[table, placement]: [&[u8]; 2], output: &mut [u8]| {
        let p = native::produce(m, s, table, placement, output);
        (p.reason, p.length)
    };
    let second = |output: &mut [u8]| reference::produce(m, s, table, placement, output);
    let ((reason, written), mut output) = c.call(&what, inputs, Some(length), library, second);
    c.counted.produce.calls.add(reason);
    if !published_placement(s).is_empty() && !loads(s, placement) {
        let (published, _) = reference::produce(m, s, table, &published_placement(s), &mut vec![0; length]);
        let first = if BEFORE.contains(&published) { published } else { 21 };
        if reason != first {
            c.differs(format_args!("{what}: the order of refusals"), &[table, placement], reason, first);
        }
        c.counted.produce.unplaced.add(published);
    }
    output.truncate(written);
    (reason == 0).then_some(output)
}

/// By whatever placement, component c of what is produced ignores share c.
fn ask(c: &mut Comparison, asked: &Asked) {
    let (Some(placement), Ok(design)) = (asked.placement, &asked.design) else { return };
    let (m, s, file) = (design.m, design.s, asked.file.bytes);
    if m * s <= TRIED {
        let read = shares_read(&design.stages[0], m, s);
        if read.iter().enumerate().any(|(c, read)| read.contains(&c)) {
            c.differs("component c of what is produced ignores share c", &[file], read, placement);
        }
    }
    let mut published = vec![0; PRODUCED_MAX];
    reference::produce(m, s, &design.table, &published_placement(s), &mut published);
    if published[..file.len()] != *file {
        c.counted.produce.placed.add(asked.verdict[0]);
    }
}

/// Outputs of every length up to the one that is enough, tables and placements of every length near the one due, and the published
/// placement of three shares with every single byte changed.
fn edges(c: &mut Comparison) {
    let table = make::BOX3;
    let published = published_placement(3);
    for length in 0..make::box3().len() + 3 {
        call(c, 3, 3, &table, &published, length);
    }
    for length in 0..table.len() {
        call(c, 3, 3, &table[..length], &published, PRODUCED_MAX);
    }
    for s in 3..=5 {
        let longer = [published_placement(s), vec![1; 3]].concat();
        for length in 0..=longer.len() {
            call(c, 3, s, &table, &longer[..length], PRODUCED_MAX);
        }
    }
    for at in 0..published.len() {
        for value in 0..=255 {
            let mut placement = published.clone();
            placement[at] = value;
            if let Some(file) = call(c, 3, 3, &table, &placement, PRODUCED_MAX) {
                c.ask_of_produced(&file, &placement);
            }
        }
    }
}

/// A box of degree 3 in each number of shares that it takes.
fn every(c: &mut Comparison) {
    let table = reference::samples::cubic();
    for s in [4, 5] {
        let placement = published_placement(s);
        let file = call(c, 4, s, &table, &placement, PRODUCED_MAX).expect("degree 3");
        c.ask_of_produced(&file, &placement);
    }
}

/// Numbers, a table, a placement and an output that are mostly good; a placement may be bad beside any other fault, so that the order of the
/// refusals shows. Answers what is produced, and by which placement.
pub fn any(c: &mut Comparison) -> Option<(Vec<u8>, Vec<u8>)> {
    let random = c.random();
    let (mut m, mut s) = make::size(random);
    let mut table = if random.once_in(3) { make::permutation(random, m) } else { make::shareable(random, m, s) };
    let placement = match random.below(8) {
        0 | 1 => make::bad_placement(random, s),
        2 => published_placement(s),
        _ => make::placement(random, s),
    };
    let mut length = PRODUCED_MAX;
    match random.below(12) {
        0 => m = random.pick(&[0, 7, 8, 20, 64, 255, 256, 1 << 32, usize::MAX, m + 256]),
        1 => s = random.pick(&[0, 1, 2, 6, 7, 64, 255, 256, 1 << 32, usize::MAX, s + 256]),
        2 => (m, s) = (random.below(9), random.below(8)),
        3 => table.truncate(random.below(table.len())),
        4 => {
            let n = random.pick(&[1, 2, 64, table.len()]);
            table.extend(random.bytes(n));
        }
        5 => {
            let i = random.below(table.len());
            table[i] = random.byte();
        }
        6 => table = (0..table.len()).map(|_| random.below(1 << m) as u8).collect(),
        7 => {
            // an output near the length that the file has
            let (_, exact) = reference::produce(m, s, &table, &placement, &mut vec![0; PRODUCED_MAX]);
            length = (exact + 2).saturating_sub(random.below(5));
        }
        8 => length = random.below(60),
        _ => {}
    }
    call(c, m, s, &table, &placement, length).map(|file| (file, placement))
}

fn generated(c: &mut Comparison) {
    if c.random().once_in(2) {
        any(c);
    }
}

fn say(c: &Comparison) -> bool {
    let counted = &c.counted.produce;
    let calls = counted.calls.say("produce", &[&[0], &BEFORE, &[21], &AFTER]);
    let unplaced = "produce by a placement that does not load, as by the published one";
    let unplaced = counted.unplaced.say(unplaced, &[&[0], &BEFORE, &AFTER]);
    let placed = counted.placed.say("judge, produced otherwise than by the published placement", &[&[0, 14]]);
    calls && unplaced && placed
}
