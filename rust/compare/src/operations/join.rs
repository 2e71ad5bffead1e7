//! Joining.

use super::{run, Operation, NOTHING};
use crate::comparison::Comparison;
use crate::counts::{occurred, Counts, READING};
use crate::depend::TRIED;
use crate::make::{self, D, SIZES};
use jestrunas::{native, STAGES_MAX};
use reference::encode;
use reference::samples::chain;

pub const OPERATION: Operation = Operation { edges, every, generated, say, ..NOTHING };

#[derive(Default)]
pub struct Counted {
    /// Calls where the first file does not read, where only the second does not, and where both read.
    calls: [Counts; 3],
    together: Together,
    joined: Joined,
}

/// The refusals of joining in the published order, and how often a call had grounds for two different ones: for the one in the row,
/// which is then due, and for the later one in the column.
#[derive(Default)]
struct Together {
    calls: [[usize; REFUSALS.len()]; REFUSALS.len()],
}

const REFUSALS: [&str; 5] = ["the first", "the second", "19", "20", "17"];

impl Together {
    /// A call with these files, whose refusals of reading are known. Sizes and stages are those of the heads, where both read. An output
    /// shorter than each of the files is too short for what is joined of them, which is longer than each.
    fn add(&mut self, [first, second]: [&[u8]; 2], unreadable: [Option<usize>; 2], length: usize) {
        let heads = reference::forecast(first)[0] == 0 && reference::forecast(second)[0] == 0;
        let grounds: [Option<usize>; REFUSALS.len()] = [
            unreadable[0],
            unreadable[1],
            (heads && first[4..6] != second[4..6]).then_some(19),
            (heads && usize::from(first[6] + second[6]) > STAGES_MAX).then_some(20),
            (length < first.len().min(second.len())).then_some(17),
        ];
        for (i, earlier) in grounds.iter().enumerate() {
            for (j, later) in grounds.iter().enumerate().skip(i + 1) {
                self.calls[i][j] += usize::from(earlier.is_some() && later.is_some() && earlier != later);
            }
        }
    }

    fn say(&self) -> bool {
        let mut complete = true;
        for (i, earlier) in REFUSALS.iter().enumerate() {
            let later: Vec<String> = (i + 1..REFUSALS.len()).map(|j| format!("{}:{}", REFUSALS[j], self.calls[i][j])).collect();
            if !later.is_empty() {
                println!("join, refused for {earlier} with grounds for a later refusal too: {}", later.join(" "));
            }
            complete &= self.calls[i][i + 1..].iter().all(|&calls| calls > 0);
        }
        occurred(complete, "join: two refusals never came together")
    }
}

/// What was asked of files that were joined.
#[derive(Default)]
struct Joined {
    files: usize,
    accepted: usize,
    runs: Counts,
}

impl Joined {
    fn say(&self) -> bool {
        let Joined { files, accepted, runs } = self;
        println!("joined: {files} files judged, {accepted} of two accepted designs");
        let accepted = occurred(*accepted > 0, "joined: two accepted designs never came together");
        // the files read
        runs.say("run, joined and one after the other", &[&[0, 15]]) && accepted
    }
}

/// Joining into an output of this length: the file, if there is one. A file that is joined with itself may be lent once.
fn call(c: &mut Comparison, first: &[u8], second: &[u8], length: usize) -> Option<Vec<u8>> {
    let inputs = [c.input(first), c.input(second)];
    let once = first == second && c.random().once_in(2);
    let what = format_args!("join, {} bytes and {}, output of {length}", first.len(), second.len());
    let library = |files: [&[u8]; 2], output: &mut [u8]| {
        let p = native::join(files[0], files[usize::from(!once)], output);
        (p.reason, p.length)
    };
    let ((reason, written), mut output) =
        c.call(what, inputs, Some(length), library, |output| reference::join(first, second, output));
    let unreadable = [first, second].map(|file| reference::read(file).err().map(|fault| fault.reason));
    let counted = &mut c.counted.join;
    counted.calls[unreadable.iter().position(Option::is_some).unwrap_or(2)].add(reason);
    counted.together.add([first, second], unreadable, length);
    output.truncate(written);
    (reason == 0).then_some(output)
}

/// Joining into an output that is enough, into none, and, where the files join, into one of every length near that of the joined file.
fn into_each(c: &mut Comparison, first: &[u8], second: &[u8]) -> Option<Vec<u8>> {
    let joined = call(c, first, second, first.len() + second.len());
    call(c, first, second, 0);
    if let Some(file) = &joined {
        for length in file.len() - 2..=file.len() + 2 {
            call(c, first, second, length);
        }
    }
    joined
}

/// Outputs of every length up to the one that is always enough, and every part of the one file and of the other.
fn edges(c: &mut Comparison) {
    let one = make::box3();
    // to be joined with it: a box that does not commute with it
    let other = encode(&chain(3, 3, &[&[0, 1, 2, 4, 3, 6, 7, 5]]));
    for length in 0..one.len() + other.len() {
        call(c, &one, &other, length);
        call(c, &one[..length.min(one.len())], &other, length);
        call(c, &one, &other[..length.min(other.len())], length);
        call(c, &D[..length.min(D.len())], &other[..length.min(other.len())], length);
    }
}

/// Every two sizes and numbers of stages, the identity in each stage; and files of the longest lists with themselves.
fn every(c: &mut Comparison) {
    let designs: Vec<Vec<u8>> =
        SIZES.iter().flat_map(|&(m, s)| (1..=STAGES_MAX).map(move |k| encode(&make::identity(m, s, k)))).collect();
    for first in &designs {
        for second in &designs {
            into_each(c, first, second);
        }
    }
    for file in make::long_lists(c.random()) {
        into_each(c, &file, &file);
    }
}

/// Two generated files. Of some that join: the joined file is accepted where both are, and a run of it is a run of the second on what the
/// first gives; and everything that is asked about a file.
fn generated(c: &mut Comparison) {
    if !c.random().once_in(2) {
        return;
    }
    let [first, second] = make::pair(c.random());
    let Some(file) = into_each(c, &first, &second) else { return };
    let (m, s) = (usize::from(file[4]), usize::from(file[5]));
    if m * s > TRIED || !c.random().once_in(4) {
        return;
    }
    c.counted.join.joined.files += 1;
    if let (Ok(one), Ok(other)) = (jestrunas::judge(&first), jestrunas::judge(&second)) {
        let due = [0, one.stages + other.stages, 0];
        let numbers = jestrunas::numbers(&jestrunas::judge(&file));
        if numbers != due {
            c.differs("two accepted designs joined", &[&first, &second], numbers, due);
        }
        c.counted.join.joined.accepted += 1;
    }
    for _ in 0..4 {
        let shares = run::shares(c.random(), m, s);
        let due = jestrunas::run(&first, shares).and_then(|between| jestrunas::run(&second, between));
        let answer = jestrunas::run(&file, shares);
        if answer != due {
            c.differs(format_args!("what is joined run on {shares:?}"), &[&first, &second], answer, due);
        }
        c.counted.join.joined.runs.add(due.map_or_else(|reason| reason.number(), |_| 0));
    }
    c.ask(&file);
}

fn say(c: &Comparison) -> bool {
    let counted = &c.counted.join;
    let first = counted.calls[0].say("join, the first does not read", &[&READING]);
    let second = counted.calls[1].say("join, the second does not read", &[&READING]);
    let both = counted.calls[2].say("join, both read", &[&[0, 17, 19, 20]]);
    let together = counted.together.say();
    let joined = counted.joined.say();
    first && second && both && together && joined
}
