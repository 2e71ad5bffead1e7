//! The forecast.

use super::{Operation, NOTHING};
use crate::comparison::{Asked, Comparison, Input};
use crate::counts::Counts;
use crate::make;
use jestrunas::native;

pub const OPERATION: Operation = Operation { ask, every, generated, say, ..NOTHING };

#[derive(Default)]
pub struct Counted {
    calls: Counts,
}

fn call(c: &mut Comparison, file: Input) -> [usize; 3] {
    let library = |[file]: [&[u8]; 1], _: &mut [u8]| {
        let f = native::forecast(file);
        [f.reason, f.workspace, f.trials]
    };
    let (due, _) = c.call("forecast", [file], None, library, |_| reference::forecast(file.bytes));
    c.counted.forecast.calls.add(due[0]);
    due
}

/// The forecast of bytes that are made for it alone.
fn forecast(c: &mut Comparison, bytes: &[u8]) {
    let file = c.input(bytes);
    call(c, file);
}

/// The forecast of a file, which its verdict must hold, and of each of its first 0 to 8 bytes.
fn ask(c: &mut Comparison, asked: &Asked) {
    let forecast_of_file @ [_, workspace, most] = call(c, asked.file);
    let file = asked.file.bytes;
    if let Ok(design) = &asked.design {
        let [reason, _, _, trials] = asked.verdict;
        let holds = if reason == 0 { trials == most } else { trials <= most };
        if workspace != design.workspace() || !holds {
            c.differs("the forecast holds", &[file], forecast_of_file, asked.verdict);
        }
    }
    for length in 0..=file.len().min(8) {
        forecast(c, &file[..length]);
    }
}

/// Heads with every m and s that two bytes can say, alone or with bytes after them.
fn every(c: &mut Comparison) {
    for m in 0..=255 {
        for s in 0..=255 {
            for k in [0, 1, 4, 5, c.random().byte()] {
                let mut file = vec![3, 0, 1, 0, m, s, k];
                let n = c.random().below(2) * c.random().below(9);
                file.extend(c.random().bytes(n));
                forecast(c, &file);
            }
        }
    }
}

fn generated(c: &mut Comparison) {
    if c.random().once_in(10) {
        let file = make::head(c.random());
        forecast(c, &file);
    }
}

fn say(c: &Comparison) -> bool {
    c.counted.forecast.calls.say("forecast", &[&[0, 1, 2, 3, 4]])
}
