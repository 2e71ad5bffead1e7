//! Joining two designs into one (RULES 11).

use crate::design::{encode, read, Design};
use crate::produce::written;

/// S of the second after S of the first; the stages in that order.
fn joined(first: Design, second: Design) -> Design {
    let table = first.table.iter().map(|&x| second.table[usize::from(x)]).collect();
    Design { m: first.m, s: first.s, table, stages: [first.stages, second.stages].concat() }
}

/// Joins two files: the number and the length. The output becomes what RULES 11.4 says.
pub fn join(first: &[u8], second: &[u8], output: &mut [u8]) -> (usize, usize) {
    let (first, second) = match (read(first), read(second)) {
        (Err(fault), _) | (Ok(_), Err(fault)) => return (fault.reason, 0),
        (Ok(first), Ok(second)) => (first, second),
    };
    if (first.m, first.s) != (second.m, second.s) {
        return (19, 0);
    }
    if first.stages.len() + second.stages.len() > 4 {
        return (20, 0);
    }
    written(&encode(&joined(first, second)), output)
}
