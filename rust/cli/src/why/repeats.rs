//! 8: the box repeats an entry.

use crate::json::{list, Object};

/// The first entry that stands before, and where.
#[derive(Clone, Debug, PartialEq)]
pub struct Repeats {
    pub at: [usize; 2],
    pub entry: u8,
}

impl Repeats {
    pub fn of(table: &[u8]) -> Option<Repeats> {
        let before = |&x: &usize| table[..x].iter().position(|&entry| entry == table[x]);
        let x = (0..table.len()).find(|x| before(x).is_some())?;
        Some(Repeats { at: [before(&x)?, x], entry: table[x] })
    }

    pub fn line(&self) -> String {
        let Repeats { at: [x, y], entry } = self;
        format!("S({x}) and S({y}) are both {entry}")
    }

    pub fn json(&self) -> Object {
        Object::new().with("at", list(&self.at)).with("entry", self.entry)
    }
}
