//! 14: a stage is not uniform.

use crate::design::Design;
use crate::json::{Json, Object};
use crate::sharing::{self, secret, shown};
use std::collections::BTreeMap;

/// Two sharings of one secret that a stage makes one output sharing of.
#[derive(Clone, Debug, PartialEq)]
pub struct Collision {
    pub m: usize,
    pub s: usize,
    /// Counted from 0.
    pub stage: usize,
    /// The sharing at which the verdict stopped, and the one before it that has the same output sharing.
    pub sharings: [u32; 2],
    pub output: u32,
    /// How many output sharings are met how often, from never on. Of a uniform stage each is met once.
    pub times: BTreeMap<usize, usize>,
}

impl Collision {
    /// Of a stage, counted from 0; none where it meets each output sharing once.
    pub fn of(design: &Design, number: usize) -> Option<Collision> {
        let Design { m, s, .. } = *design;
        let outputs = design.stages[number].outputs(m, s);
        // of each output sharing the first sharing that has it, and how many have
        let mut met: Vec<(Option<u32>, usize)> = vec![(None, 0); outputs.len()];
        let mut first = None;
        for (sharing, &output) in (0..).zip(&outputs) {
            let (before, times) = &mut met[output as usize];
            *times += 1;
            match *before {
                None => *before = Some(sharing),
                Some(before) => first = first.or(Some(([sharing, before], output))),
            }
        }
        let (sharings, output) = first?;
        let mut times = BTreeMap::new();
        for (_, n) in met {
            *times.entry(n).or_default() += 1;
        }
        Some(Collision { m, s, stage: number, sharings, output, times })
    }

    pub fn line(&self) -> String {
        let Collision { m, s, stage, sharings: [one, other], output, .. } = *self;
        format!(
            "stage {}: the shares {} and the shares {}, both of {}, become {}, of {}",
            stage + 1,
            shown(m, s, other),
            shown(m, s, one),
            secret(m, s, one),
            shown(m, s, output),
            secret(m, s, output)
        )
    }

    pub fn lines(&self) -> Vec<String> {
        let met = |(&times, &sharings): (&usize, &usize)| match times {
            0 => format!("{sharings} never"),
            1 => format!("{sharings} once"),
            2 => format!("{sharings} twice"),
            _ => format!("{sharings} {times} times"),
        };
        vec![self.line(), format!("output sharings met: {}", self.times.iter().map(met).collect::<Vec<_>>().join(", "))]
    }

    pub fn json(&self) -> Object {
        let Collision { m, s, sharings: [one, other], output, .. } = *self;
        let met = |(&times, &sharings): (&usize, &usize)| -> Json {
            Object::new().with("times", times).with("output_sharings", sharings).into()
        };
        Object::new()
            .with("sharings", vec![sharing::json(m, s, other), sharing::json(m, s, one)])
            .with("secret", secret(m, s, one))
            .with("output", sharing::json(m, s, output))
            .with("sum", secret(m, s, output))
            .with("met", self.times.iter().map(met).collect::<Vec<Json>>())
    }
}
