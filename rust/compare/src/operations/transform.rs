//! The transform.

use super::{Operation, NOTHING};
use crate::comparison::Comparison;
use crate::counts::Counts;
use jestrunas::{native, WIDTH_MAX};

pub const OPERATION: Operation = Operation { edges, generated, say, ..NOTHING };

#[derive(Default)]
pub struct Counted {
    calls: Counts,
    twice: usize,
}

/// The transform into an output of this length; and what it writes, transformed again.
fn call(c: &mut Comparison, m: usize, input: &[u8], length: usize) {
    let library = |[input]: [&[u8]; 1], output: &mut [u8]| native::transform(m, input, output);
    let given = c.input(input);
    let second = |output: &mut [u8]| reference::transform(m, input, output);
    let (reason, output) = c.call(format_args!("transform {m}, output of {length}"), [given], Some(length), library, second);
    c.counted.transform.calls.add(reason);
    if reason == 0 {
        let length = input.len() + c.random().below(9);
        let again = c.input(&output[..input.len()]);
        let the_input = |output: &mut [u8]| {
            output[..input.len()].copy_from_slice(input);
            0
        };
        c.call(format_args!("transform {m} twice, output of {length}"), [again], Some(length), library, the_input);
        c.counted.transform.calls.add(0);
        c.counted.transform.twice += 1;
    }
}

/// Inputs and outputs of every length near the one due.
fn edges(c: &mut Comparison) {
    for m in 1..=WIDTH_MAX {
        let input: Vec<u8> = (0..1 << m).rev().collect();
        let mut large = input.clone();
        large[0] = 1 << m;
        for length in 0..input.len() + 3 {
            call(c, m, &input, length);
            call(c, m, &large, length);
            call(c, m, &input[..length.min(input.len())], input.len());
        }
    }
}

/// A number, an input and an output that are mostly good; an output may be short beside any other fault, so that the order of the refusals
/// shows.
fn generated(c: &mut Comparison) {
    let random = c.random();
    let mut m = 1 + random.below(WIDTH_MAX);
    let mut input: Vec<u8> = (0..1 << m).map(|_| random.below(1 << m) as u8).collect();
    let length = if random.once_in(8) { random.below(input.len()) } else { input.len() + random.below(3) * random.below(9) };
    match random.below(12) {
        0 => m = random.pick(&[0, 7, 8, 9, 64, 255, 256, 1 << 32, usize::MAX, m + 256]),
        1 => m = random.below(9),
        2 => input.truncate(random.below(input.len())),
        3 => {
            let n = 1 + random.below(70);
            input.extend(random.bytes(n));
        }
        4 | 5 => {
            let i = random.below(input.len());
            input[i] = random.byte();
        }
        _ => {}
    }
    call(c, m, &input, length);
}

fn say(c: &Comparison) -> bool {
    let counted = &c.counted.transform;
    let calls = counted.calls.say("transform", &[&[0, 3, 4, 5, 17]]);
    println!("transform: {} outputs of the library transformed again", counted.twice);
    calls
}
