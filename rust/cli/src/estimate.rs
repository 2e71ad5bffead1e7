//! How long a verdict takes on this machine: a few blocks of sharings of the design are timed, and the others take as long.

use crate::design::{flip, Design, Stage};
use crate::why::Difference;
use jestrunas::{judge, read};
use std::hint::black_box;
use std::time::{Duration, Instant};

/// The sharings of which a verdict looks at the terms at once.
const BLOCK: usize = 64;

/// What is timed takes this long, or is all sharings.
const ENOUGH: Duration = Duration::from_millis(5);

/// The terms of all lists of a design.
pub fn terms(design: &Design) -> usize {
    design.stages.iter().flat_map(|stage| &stage.lists).map(Vec::len).sum()
}

/// The seconds that a verdict on a design takes at most: each sharing of each stage is tried twice.
pub fn seconds(design: &Design) -> f64 {
    let sharings = 1usize << (design.m * design.s);
    design.stages.iter().map(|stage| 2.0 * sharings as f64 * for_a_trial(design, stage)).sum()
}

/// The seconds for a trial of a stage.
fn for_a_trial(design: &Design, stage: &Stage) -> f64 {
    let (m, s) = (design.m, design.s);
    let sharings = 1usize << (m * s);
    let mut alone = Design { m, s, s_box: stage.table.clone(), stages: vec![stage.clone()] };
    if judge(&alone.file()).is_err_and(|refusal| refusal.trials == 0) {
        // a table that repeats an entry: no verdict tries a sharing; any permutation will do
        alone.s_box = (0..1 << m).collect();
        alone.stages[0].table = alone.s_box.clone();
    }
    // correct, so that no pass ends before its time
    if let Some(difference) = Difference::of(&alone, 0, false) {
        difference.products.iter().for_each(|product| turn(&mut alone.stages[0], m, Some(product.bit), product.term));
    }
    let mut trials = BLOCK.min(sharings);
    loop {
        // a product that is 1 at this sharing, and at none before it, ends the pass there
        let mut wrong = alone.clone();
        turn(&mut wrong.stages[0], m, None, (trials - 1) as u32);
        let file = wrong.file();
        let elapsed = time(|| judge(&file)).saturating_sub(time(|| read(&file)));
        if elapsed >= ENOUGH || trials == sharings {
            let taken = judge(&file).map_or_else(|refusal| refusal.trials, |accepted| accepted.trials);
            return elapsed.as_secs_f64() / taken.max(1) as f64;
        }
        trials = (4 * trials).min(sharings);
    }
}

/// Turns what the components sum to by a product, in one bit or in any: takes it out of a list that has it, or puts it into the shortest.
fn turn(stage: &mut Stage, m: usize, bit: Option<usize>, term: u32) {
    let lists = stage.lists.iter_mut().enumerate().filter(|(i, _)| bit.is_none_or(|bit| i % m == bit)).map(|(_, list)| list);
    if let Some(list) = lists.min_by_key(|list| (list.binary_search(&term).is_err(), list.len())) {
        flip(list, term);
    }
}

/// The shortest of three times.
fn time<T>(work: impl Fn() -> T) -> Duration {
    let timed = || {
        let began = Instant::now();
        black_box(work());
        began.elapsed()
    };
    (0..3).map(|_| timed()).min().expect("three")
}

#[cfg(test)]
mod tests {
    use super::*;

    #[test]
    fn the_estimate_is_near_the_time_that_a_verdict_takes() {
        let file = include_bytes!("../../../designs/keccak4.bin");
        let design = Design::read(file).unwrap();
        assert_eq!(terms(&design), 120);
        let (estimate, taken) = (seconds(&design), time(|| judge(file)).as_secs_f64());
        // other programs run beside the tests
        assert!(estimate > taken / 10.0 && estimate < 10.0 * taken, "{estimate} and {taken}");
    }
}
