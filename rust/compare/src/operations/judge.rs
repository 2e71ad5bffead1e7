//! The verdict.

use super::{Operation, NOTHING};
use crate::comparison::{Asked, Comparison, Input};
use crate::counts::{occurred, Counts, READING};
use crate::depend::{changed_by, shares_read, TRIED};
use crate::make::{self, QUICK, SIZES};
use jestrunas::{native, WORKSPACE_MAX};
use reference::{encode, repeats, Answer, Design};

pub const OPERATION: Operation = Operation { ask, edges, say, ..NOTHING };

#[derive(Default)]
pub struct Counted {
    calls: Counts,
    /// Verdicts on designs in which the table of a stage repeats an entry, with workspace enough.
    repeating: Counts,
    correctness: Stops,
    uniformity: Stops,
    ignored: Ignored,
}

/// Where the passes over all sharings that found a fault stopped.
#[derive(Default)]
struct Stops {
    first_half: usize,
    second_half: usize,
    last: usize,
}

impl Stops {
    fn add(&mut self, trials: usize, sharings: usize) {
        if trials == sharings {
            self.last += 1;
        } else if 2 * trials > sharings {
            self.second_half += 1;
        } else {
            self.first_half += 1;
        }
    }

    /// `last_due` says whether a pass can stop at the last sharing.
    fn say(&self, what: &str, last_due: bool) -> bool {
        let Stops { first_half, second_half, last } = *self;
        println!(
            "{what}: stopped {first_half} times in the first half of the sharings, {second_half} in the second, {last} at the last"
        );
        let everywhere = first_half > 0 && second_half > 0 && last_due == (last > 0);
        occurred(everywhere, &format!("{what}: stopped too seldom, or where it cannot"))
    }
}

/// How the components of designs of few share bits ignore shares, found by trying them.
#[derive(Default)]
struct Ignored {
    accepted: usize,
    /// Accepted, though some component depends on the share of its number: it ignores another one.
    another: usize,
    refused: usize,
    /// Refused with 13, though each bit of the component named ignores a share: not all the same one.
    bit_by_bit: usize,
}

impl Ignored {
    fn add(&mut self, [reason, stage, component, _]: Answer, design: &Design) {
        let (m, s) = (design.m, design.s);
        if m * s > TRIED {
            return;
        }
        if reason == 0 {
            let another =
                design.stages.iter().any(|stage| shares_read(stage, m, s).iter().enumerate().any(|(j, read)| read.contains(&j)));
            self.accepted += 1;
            self.another += usize::from(another);
        }
        if reason == 13 {
            let changed = changed_by(&design.stages[stage - 1], m, s);
            let bit_by_bit = (0..m).all(|bit| changed.iter().any(|bits| bits[component - 1] >> bit & 1 == 0));
            self.refused += 1;
            self.bit_by_bit += usize::from(bit_by_bit);
        }
    }

    fn say(&self) -> bool {
        let Ignored { accepted, another, refused, bit_by_bit } = *self;
        println!("accepted, up to {TRIED} share bits: {accepted} designs, {another} with a component that depends on the share of its number");
        println!("13, up to {TRIED} share bits: {refused} designs, {bit_by_bit} where each bit of the component ignores a share");
        occurred(another > 0 && bit_by_bit > 0, "a way in which components ignore shares never occurred")
    }
}

/// A verdict, which is known, in a workspace of this length. From 10 on its part for the sharings is zero afterwards.
fn call(c: &mut Comparison, file: Input, due: Answer, design: Option<&Design>, length: usize) {
    let library = |[file]: [&[u8]; 1], workspace: &mut [u8]| {
        let v = native::judge(file, workspace);
        [v.reason, v.place, v.component, v.trials]
    };
    let [reason, stage, _, trials] = due;
    let zeroed = design.filter(|_| matches!(reason, 0 | 10..)).map_or(0, Design::workspace);
    let second = |workspace: &mut [u8]| {
        workspace[..zeroed].fill(0);
        due
    };
    c.call(format_args!("judge, workspace of {length}"), [file], Some(length), library, second);
    let counted = &mut c.counted.judge;
    counted.calls.add(reason);
    let sharings = 8 * zeroed;
    match reason {
        12 => counted.correctness.add(trials - 2 * (stage - 1) * sharings, sharings),
        14 => counted.uniformity.add(trials - (2 * stage - 1) * sharings, sharings),
        _ => {}
    }
}

fn ask(c: &mut Comparison, asked: &Asked) {
    let Ok(design) = &asked.design else {
        let length = if c.random().once_in(16) { 5_000 } else { c.random().below(20) };
        return call(c, asked.file, asked.verdict, None, length);
    };
    c.counted.judge.ignored.add(asked.verdict, design);
    if design.stages.iter().any(|stage| repeats(&stage.table)) {
        c.counted.judge.repeating.add(asked.verdict[0]);
    }
    let enough = design.workspace();
    let more = enough + c.random().below(3) * c.random().below(40);
    call(c, asked.file, asked.verdict, Some(design), more);
    if c.random().once_in(4) {
        let fewer = c.random().below(enough.min(40)) + 1;
        let fewer = if c.random().once_in(4) { 0 } else { enough - fewer };
        call(c, asked.file, reference::verdict(design, fewer), Some(design), fewer);
    }
}

/// Workspaces of every length near the one that a head asks for.
fn edges(c: &mut Comparison) {
    for (m, s) in SIZES {
        let accepted = make::identity(m, s, 1);
        let enough = accepted.workspace();
        let mut other_box = accepted.clone();
        other_box.table.reverse();
        let mut wrong = accepted.clone();
        wrong.stages[0].components[0][0].clear();
        let mut repeating = accepted.clone();
        repeating.table[0] = repeating.table[1];
        for design in [accepted, other_box, wrong, repeating] {
            let file = encode(&design);
            let file = c.input(&file);
            c.count_file(true);
            let full = reference::verdict(&design, enough);
            for length in enough.saturating_sub(9)..enough + 10 {
                let large = m * s > QUICK && full[0] == 0 && length.abs_diff(enough) > 1;
                if !large {
                    let due = if length < enough { reference::verdict(&design, length) } else { full };
                    call(c, file, due, Some(&design), length);
                }
            }
            call(c, file, full, Some(&design), WORKSPACE_MAX);
        }
    }
}

fn say(c: &Comparison) -> bool {
    let counted = &c.counted.judge;
    // 11 is retired: a table that repeats an entry shows in S or in the chain
    let calls = counted.calls.say("judge", &[&[0], &READING, &[8, 9, 10, 12, 13, 14]]);
    let repeating = counted.repeating.say("judge, a stage's table repeats an entry", &[&[8, 10]]);
    let correctness = counted.correctness.say("correctness", true);
    // uniformity cannot stop at the last sharing: one output would be met twice and one never, and all outputs would sum to the sum of
    // these two; but they sum to zero, since each component ignores a share
    let uniformity = counted.uniformity.say("uniformity", false);
    let ignored = counted.ignored.say();
    calls && repeating && correctness && uniformity && ignored
}
