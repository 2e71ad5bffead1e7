//! The files that every operation is asked about: near the edges, all of some kinds, and generated.

use crate::comparison::Comparison;
use crate::make::{self, D, QUICK, SIZES};
use crate::operations::produce;
use jestrunas::STAGES_MAX;
use reference::samples::{chain, one_bit};
use reference::{encode, Design};

/// Of designs of more share bits than these, fewer are made.
const LARGE: usize = 12;

/// Files that end at any byte.
pub fn edges(c: &mut Comparison) {
    for whole in [&D[..], &make::box3()] {
        for length in 0..=whole.len() {
            c.ask(&whole[..length]);
        }
    }
}

pub fn every(c: &mut Comparison) {
    changes(c);
    affine(c);
    tables(c);
    large(c);
}

/// Every single byte of D changed, and lists of about as many terms as there may be.
fn changes(c: &mut Comparison) {
    for at in 0..D.len() {
        for value in 0..=255 {
            let mut file = D;
            file[at] = value;
            c.ask(&file);
        }
    }
    for file in make::long_lists(c.random()) {
        c.ask(&file);
        c.ask(&file[..file.len() / 2]);
    }
}

/// Every stage of one bit in three shares whose lists have no products, S and G the identity: its components read any shares.
fn affine(c: &mut Comparison) {
    let list = |chosen: usize| (0..4).filter(|i| chosen >> i & 1 == 1).map(|i| [0, 1, 2, 4][i]).collect();
    let lists: Vec<Vec<u32>> = (0..16).map(list).collect();
    for one in &lists {
        for two in &lists {
            for three in &lists {
                c.ask(&encode(&one_bit([one, two, three])));
            }
        }
    }
}

/// Every S, and every table for each of up to four stages, of one bit in three shares.
fn tables(c: &mut Comparison) {
    let all: [[u8; 2]; 4] = [[0, 0], [0, 1], [1, 0], [1, 1]];
    for k in 1..=STAGES_MAX {
        for chosen in 0..1usize << (2 * k) {
            let tables: Vec<&[u8]> = (0..k).map(|i| &all[chosen >> (2 * i) & 3][..]).collect();
            for table in all {
                let mut design = chain(1, 3, &tables);
                design.table = table.to_vec();
                c.ask(&encode(&design));
            }
        }
    }
}

/// Accepted designs of the larger sizes, each m, s and k at least once, and what they are when the last sharing of their last stage is
/// wrong.
fn large(c: &mut Comparison) {
    for (m, s) in SIZES {
        for k in 1..=STAGES_MAX {
            let costly = m * s > QUICK && k != 1 + (m + s) % 2;
            if !costly {
                let mut design = make::identity(m, s, k);
                c.ask(&encode(&design));
                make::wrong_at_last(&mut design.stages[k - 1], m, s, k % s, k % m);
                c.ask(&encode(&design));
            }
        }
    }
}

/// A design of this size. Of the largest sizes most are refused soon: a whole verdict takes a second there.
fn sized(c: &mut Comparison, m: usize, s: usize, k: usize) -> Design {
    let random = c.random();
    if m * s <= QUICK || random.once_in(12) {
        return make::design(random, m, s, k);
    }
    let mut design = make::identity(m, s, k);
    if random.once_in(2) {
        design.table = make::permutation(random, m);
    } else {
        let (j, bit) = (random.below(s), random.below(m));
        design.stages[0].components[j][bit].push(reference::Product::of(&[0; 5]));
    }
    design
}

/// A file that reads, if one is made, after it was asked about.
fn base(c: &mut Comparison) -> Option<Vec<u8>> {
    match c.random().below(40) {
        0..=29 => {
            let (m, s) = make::size(c.random());
            let k = if m * s > LARGE && c.random().once_in(2) { 1 } else { 1 + c.random().below(STAGES_MAX) };
            let file = encode(&sized(c, m, s, k));
            c.ask(&file);
            Some(file)
        }
        30..=36 => {
            let (file, placement) = produce::any(c)?;
            if usize::from(file[4] * file[5]) > QUICK {
                return None;
            }
            c.ask_of_produced(&file, &placement);
            Some(file)
        }
        _ => {
            let file = make::noise(c.random());
            c.ask(&file);
            None
        }
    }
}

/// A file, mostly a design, and then the design damaged in some ways.
pub fn generated(c: &mut Comparison) {
    let Some(base) = base(c) else { return };
    let large = usize::from(base[4] * base[5]) > LARGE;
    for _ in 0..if large { 2 } else { 3 } {
        let mut file = make::damaged(c.random(), &base);
        if c.random().once_in(5) && reference::read(&file).is_ok() {
            file = make::damaged(c.random(), &file);
        }
        c.ask(&file);
    }
}
