//! What a refusal says to mend: found in the design, as data; its words and its JSON are made of the data.

mod chain;
mod collision;
mod degree;
mod difference;
mod given;
mod leak;
mod repeats;

pub use chain::Chain;
pub use collision::Collision;
pub use degree::{product, Degrees};
pub use difference::{Difference, Product};
pub use given::Given;
pub use leak::{Leak, Named, Placed};
pub use repeats::Repeats;

use crate::design::Design;
use crate::json::Object;
use crate::tables::Table;
use jestrunas::{Reason, Refusal};

/// How many of a kind are told before it is only said how many more there are.
const TOLD: usize = 8;

/// What is wrong, beyond the numbers of the refusal.
#[derive(Clone, Debug, PartialEq)]
pub enum Why {
    /// 8: two entries of the box are one.
    Repeats(Repeats),
    /// 10: where the chain of tables differs from the box.
    Chain(Chain),
    /// 12: the products by which the components of a stage differ from its table.
    Difference(Difference),
    /// 13: the terms by which a component depends on each share.
    Leak(Leak),
    /// 14: two sharings with one output sharing.
    Collision(Collision),
    /// 16: the degrees of the output bits.
    Degrees(Degrees),
    /// 3, 4, 5, 15, 19, 20, 21: which of the given numbers, and what is allowed.
    Given(Given),
}

impl Why {
    /// What is wrong with a design that reads. For each stage it is known whether its G was left out of the text and guessed.
    pub fn of(design: &Design, guessed: &[bool], refusal: &Refusal) -> Option<Why> {
        let stage = refusal.place.wrapping_sub(1);
        match refusal.reason {
            Reason::BoxRepeats => Repeats::of(&design.s_box).map(Why::Repeats),
            Reason::ChainIsNotBox => Chain::of(design, guessed).map(Why::Chain),
            Reason::NotCorrect => Difference::of(design, stage, guessed.get(stage) == Some(&true)).map(Why::Difference),
            Reason::NotNonComplete => Some(Why::Leak(Leak::of(design, stage, refusal.component - 1))),
            Reason::NotUniform => Collision::of(design, stage).map(Why::Collision),
            _ => None,
        }
    }

    /// What is wrong with a file that does not read, where there is more to say than what the refusal says.
    pub fn of_unread(file: &[u8], refusal: &Refusal) -> Option<Why> {
        match refusal.reason {
            Reason::LimitBroken => Given::head(file).map(Why::Given),
            Reason::EntryTooLarge => {
                let m = usize::from(file[4]);
                let table = &file[refusal.place + 4..][..1 << m];
                Given::entry(m, table.iter().map(|&entry| entry.into())).map(Why::Given)
            }
            _ => None,
        }
    }

    /// What is wrong with what was given to produce a sharing of a table, or to transform one.
    pub fn of_given(s: usize, table: &Table, placement: &[u8], reason: Reason) -> Option<Why> {
        let Table { m, ref entries, ref written } = *table;
        match reason {
            Reason::LimitBroken => Given::limit(m, s).map(Why::Given),
            Reason::WrongLength => Given::entries(m, entries.len()).map(Why::Given),
            Reason::EntryTooLarge => Given::entry(m, written.iter().copied()).map(Why::Given),
            Reason::BoxRepeats => Repeats::of(entries).map(Why::Repeats),
            Reason::DegreeTooHigh => {
                let mut words = vec![0; entries.len()];
                jestrunas::transform(m, entries, &mut words).ok()?;
                Some(Why::Degrees(Degrees::of(m, &words)))
            }
            Reason::BadPlacement => Given::placement(s, placement).map(Why::Given),
            _ => None,
        }
    }

    /// What keeps two designs from being joined.
    pub fn of_joining(first: &Design, second: &Design, reason: Reason) -> Option<Why> {
        match reason {
            Reason::SharesDiffer => Some(Why::Given(Given::sizes(first, second))),
            Reason::TooManyStages => Some(Why::Given(Given::together(first, second))),
            _ => None,
        }
    }

    /// The most important of it, in one line.
    pub fn line(&self) -> String {
        match self {
            Why::Repeats(why) => why.line(),
            Why::Chain(why) => why.line(),
            Why::Difference(why) => why.line(),
            Why::Leak(why) => why.line(),
            Why::Collision(why) => why.line(),
            Why::Degrees(why) => why.line(),
            Why::Given(why) => why.line(),
        }
    }

    /// All of it, a line each.
    pub fn lines(&self) -> Vec<String> {
        match self {
            Why::Difference(why) => why.lines(),
            Why::Leak(why) => why.lines(),
            Why::Collision(why) => why.lines(),
            other => vec![other.line()],
        }
    }

    pub fn json(&self) -> Object {
        match self {
            Why::Repeats(why) => why.json(),
            Why::Chain(why) => why.json(),
            Why::Difference(why) => why.json(),
            Why::Leak(why) => why.json(),
            Why::Collision(why) => why.json(),
            Why::Degrees(why) => why.json(),
            Why::Given(why) => why.json(),
        }
    }
}

/// What is said behind the first few of a kind.
fn more(of: usize) -> Option<String> {
    (of > TOLD).then(|| format!("and {} more", of - TOLD))
}
