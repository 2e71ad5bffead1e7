//! The verdict with its trials, their forecast, and running a chain (RULES 6 to 8).

use crate::design::{head, read, Design, Head, Shares, Stage};
use crate::{repeats, Answer};

fn sum(shares: &Shares) -> u8 {
    shares.iter().fold(0, |sum, share| sum ^ share)
}

/// Calls a function at every choice of values below 2^m for the shares listed (from 0), the others staying as they are,
/// until it answers false. Answers whether it never did.
fn every_choice(m: usize, free: &[usize], shares: &mut Shares, test: &mut impl FnMut(&Shares) -> bool) -> bool {
    let Some((&share, rest)) = free.split_first() else { return test(shares) };
    for value in 0..1 << m {
        shares[share] = value;
        if !every_choice(m, rest, shares, test) {
            return false;
        }
    }
    true
}

/// Calls a function at every sharing of x until it answers false: s - 1 shares are free, and the last makes up the sum.
fn every_sharing(m: usize, s: usize, x: u8, mut test: impl FnMut(&Shares) -> bool) -> bool {
    let free: Vec<usize> = (0..s - 1).collect();
    every_choice(m, &free, &mut [0; 5], &mut |chosen: &Shares| {
        let mut shares = *chosen;
        shares[s - 1] = 0;
        shares[s - 1] = x ^ sum(&shares);
        test(&shares)
    })
}

/// The number of a sharing, or of its first shares: share 1 is the lowest bits.
fn number(m: usize, shares: &[u8]) -> usize {
    shares.iter().rev().fold(0, |number, &share| number << m | usize::from(share))
}

/// The outputs of a stage at all sharings, kept so that each is computed once.
struct Outputs<'a> {
    stage: &'a Stage,
    m: usize,
    known: Vec<Option<Shares>>,
}

impl<'a> Outputs<'a> {
    fn of(stage: &'a Stage, m: usize, s: usize) -> Outputs<'a> {
        Outputs { stage, m, known: vec![None; 1 << (m * s)] }
    }

    fn at(&mut self, shares: &Shares) -> Shares {
        *self.known[number(self.m, shares)].get_or_insert_with(|| self.stage.output(shares))
    }
}

/// For every sharing of every x the components sum to G(x).
fn correct(m: usize, s: usize, outputs: &mut Outputs) -> bool {
    (0..1 << m).all(|x| {
        let due = outputs.stage.table[usize::from(x)];
        every_sharing(m, s, x, |shares| sum(&outputs.at(shares)) == due)
    })
}

/// Component j depends on share e: some change of this share alone changes the component's output.
fn depends(m: usize, s: usize, j: usize, e: usize, outputs: &mut Outputs) -> bool {
    let others: Vec<usize> = (0..s).filter(|&share| share != e).collect();
    let ignored = every_choice(m, &others, &mut [0; 5], &mut |setting: &Shares| {
        let mut shares = *setting;
        shares[e] = 0;
        let first = outputs.at(&shares)[j];
        (1..1 << m).all(|value| {
            shares[e] = value;
            outputs.at(&shares)[j] == first
        })
    });
    !ignored
}

/// No share is ignored by component j.
fn depends_on_every_share(m: usize, s: usize, j: usize, outputs: &mut Outputs) -> bool {
    (0..s).all(|e| depends(m, s, j, e, outputs))
}

/// For each x, each sharing of G(x) comes from exactly one sharing of x. The stage is known to be correct, so that the
/// outputs are sharings of G(x), each given by its first s - 1 shares.
fn uniform(m: usize, s: usize, outputs: &mut Outputs) -> bool {
    (0..1 << m).all(|x| {
        let mut comes_from = vec![0usize; 1 << (m * (s - 1))];
        every_sharing(m, s, x, |shares| {
            comes_from[number(m, &outputs.at(shares)[..s - 1])] += 1;
            true
        });
        comes_from.iter().all(|&times| times == 1)
    })
}

/// Tries the sharings by their numbers from 0 on: share 1 changes fastest. The first at which the test fails is the last that is tried.
/// Answers how many were, and whether the test held at all of them.
fn pass(m: usize, s: usize, mut test: impl FnMut(&Shares) -> bool) -> (usize, bool) {
    let slowest_first: Vec<usize> = (0..s).rev().collect();
    let mut trials = 0;
    let held = every_choice(m, &slowest_first, &mut [0; 5], &mut |shares: &Shares| {
        trials += 1;
        test(shares)
    });
    (trials, held)
}

/// The trials of correctness: up to the first sharing that is wrong.
fn correctness_trials(m: usize, s: usize, outputs: &mut Outputs) -> (usize, bool) {
    pass(m, s, |shares| sum(&outputs.at(shares)) == outputs.stage.table[usize::from(sum(shares))])
}

/// The trials of uniformity: up to the first sharing whose output was met already.
fn uniformity_trials(m: usize, s: usize, outputs: &mut Outputs) -> (usize, bool) {
    let mut met = vec![false; 1 << (m * s)];
    pass(m, s, |shares| !std::mem::replace(&mut met[number(m, &outputs.at(shares))], true))
}

/// The verdict on a design that was read, in a workspace of a given length. 11 is retired: where the chain is S, which repeats no entry,
/// no table repeats one.
pub fn verdict(design: &Design, workspace: usize) -> Answer {
    let Design { m, s, table, stages } = design;
    let (m, s) = (*m, *s);
    if repeats(table) {
        return [8, 0, 0, 0];
    }
    if workspace < (1 << (m * s)) / 8 {
        return [9, 0, 0, 0];
    }
    let through = |x: u8| stages.iter().fold(x, |x, stage| stage.table[usize::from(x)]);
    if (0..1 << m).any(|x| through(x) != table[usize::from(x)]) {
        return [10, 0, 0, 0];
    }
    let mut trials = 0;
    for (i, stage) in stages.iter().enumerate() {
        let mut outputs = Outputs::of(stage, m, s);
        let (tried, held) = correctness_trials(m, s, &mut outputs);
        trials += tried;
        assert_eq!(correct(m, s, &mut outputs), held, "trials find what correctness says");
        if !held {
            return [12, i + 1, 0, trials];
        }
        if let Some(j) = (0..s).find(|&j| depends_on_every_share(m, s, j, &mut outputs)) {
            return [13, i + 1, j + 1, trials];
        }
        let (tried, held) = uniformity_trials(m, s, &mut outputs);
        trials += tried;
        assert_eq!(uniform(m, s, &mut outputs), held, "trials find what uniformity says");
        if !held {
            return [14, i + 1, 0, trials];
        }
    }
    [0, stages.len(), 0, trials]
}

/// What a verdict on a file takes at most, from its head record: the number, the bytes of workspace, the trials.
pub fn forecast(file: &[u8]) -> [usize; 3] {
    match head(file) {
        Ok(Head { m, s, k }) => [0, (1 << (m * s)) / 8, 2 * k * (1 << (m * s))],
        Err(fault) => [fault.reason, 0, 0],
    }
}

/// The verdict on a file; the workspace becomes what RULES 6.4 says.
pub fn judge(file: &[u8], workspace: &mut [u8]) -> Answer {
    let design = match read(file) {
        Ok(design) => design,
        Err(fault) => return [fault.reason, fault.place, 0, 0],
    };
    let answer = verdict(&design, workspace.len());
    if !(1..=9).contains(&answer[0]) {
        workspace[..(1 << (design.m * design.s)) / 8].fill(0);
    }
    answer
}

/// Runs a chain: the number, and the output shares.
pub fn run(file: &[u8], shares: Shares) -> (usize, Shares) {
    let design = match read(file) {
        Ok(design) => design,
        Err(fault) => return (fault.reason, [0; 5]),
    };
    let (used, unused) = shares.split_at(design.s);
    if used.iter().any(|&share| share >> design.m != 0) || unused.iter().any(|&share| share != 0) {
        return (15, [0; 5]);
    }
    (0, design.stages.iter().fold(shares, |shares, stage| stage.output(&shares)))
}

#[cfg(test)]
mod tests {
    use super::*;

    #[test]
    fn a_pass_goes_by_numbers_from_0() {
        for (m, s) in [(1, 3), (1, 5), (2, 4), (3, 3)] {
            let mut tried = Vec::new();
            let pass_to = |last: usize, tried: &mut Vec<usize>| {
                pass(m, s, |shares| {
                    tried.push(number(m, shares));
                    tried.len() <= last
                })
            };
            assert_eq!(pass_to(1 << (m * s), &mut tried), (1 << (m * s), true));
            assert_eq!(tried, (0..1 << (m * s)).collect::<Vec<_>>());
            tried.clear();
            assert_eq!(pass_to(5, &mut tried), (6, false));
            assert_eq!(tried, [0, 1, 2, 3, 4, 5]);
        }
    }
}
