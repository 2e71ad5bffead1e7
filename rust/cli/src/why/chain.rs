//! 10: the chain of tables is not S.

use crate::design::Design;
use crate::json::{list, Object};
use crate::sharing::row;

/// The lowest x at which the chain differs from S.
#[derive(Clone, Debug, PartialEq)]
pub struct Chain {
    /// x, then what each table makes of it in turn.
    pub steps: Vec<u8>,
    /// S of x.
    pub due: u8,
    /// The stages, counted from 1, whose table was left out of the text.
    pub guessed: Vec<usize>,
}

impl Chain {
    pub fn of(design: &Design, guessed: &[bool]) -> Option<Chain> {
        let guessed = (1..).zip(guessed).filter(|(_, &guessed)| guessed).map(|(stage, _)| stage).collect();
        let (steps, due) = design.s_box.iter().zip(0..=u8::MAX).find_map(|(&due, x)| {
            let mut steps = vec![x];
            for stage in &design.stages {
                steps.push(stage.table[usize::from(steps[steps.len() - 1])]);
            }
            (steps[steps.len() - 1] != due).then_some((steps, due))
        })?;
        Some(Chain { steps, due, guessed })
    }

    pub fn line(&self) -> String {
        let Chain { steps, due, guessed } = self;
        let steps: Vec<String> = steps.iter().map(u8::to_string).collect();
        let (x, end) = (&steps[0], &steps[steps.len() - 1]);
        let stages: Vec<String> = guessed.iter().map(usize::to_string).collect();
        let guessed = match stages.len() {
            0 => String::new(),
            1 => format!("; G of stage {} was left out and guessed", stages[0]),
            _ => format!("; G of the stages {} was left out and guessed", row(&stages, "and")),
        };
        format!("at {x} the chain gives {end}, S has {due}; table by table {}{guessed}", steps.join(" → "))
    }

    pub fn json(&self) -> Object {
        let (x, end) = (self.steps[0], self.steps[self.steps.len() - 1]);
        Object::new()
            .with("x", x)
            .with("chain", end)
            .with("due", self.due)
            .with("steps", list(&self.steps))
            .with("guessed", list(&self.guessed))
    }
}
