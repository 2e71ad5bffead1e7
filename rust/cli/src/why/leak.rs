//! 13: a component depends on every share.

use super::{more, TOLD};
use crate::design::Design;
use crate::json::{list, Json, Object};
use crate::sharing::{name, named_by, row, term};
use crate::verdict::counted;

/// The terms by which a component depends on each share.
#[derive(Clone, Debug, PartialEq)]
pub struct Leak {
    pub m: usize,
    /// Stage and component, counted from 0.
    pub stage: usize,
    pub component: usize,
    /// A row for each share, the cheapest to free the component of first: the one with the fewest terms that no other component may have,
    /// of these the one with the fewest terms.
    pub shares: Vec<Named>,
}

/// A share, and the terms of the component that name it.
#[derive(Clone, Debug, PartialEq)]
pub struct Named {
    /// Counted from 0.
    pub share: usize,
    pub terms: Vec<Placed>,
}

/// A term, and where it could go instead.
#[derive(Clone, Debug, PartialEq)]
pub struct Placed {
    pub bit: usize,
    pub term: u32,
    /// The components, counted from 0, that may have it: whichever is taken for each term of the row, each of these components still
    /// ignores a share.
    pub to: Vec<usize>,
    /// The components that may have this one term, if none of the row is moved but this.
    pub alone: Vec<usize>,
}

impl Leak {
    /// Of a component of a stage, both counted from 0.
    pub fn of(design: &Design, stage: usize, component: usize) -> Leak {
        let mut shares: Vec<Named> = (0..design.s).map(|share| Named::of(design, stage, component, share)).collect();
        shares
            .sort_by_key(|named| (named.terms.iter().filter(|term| term.to.is_empty()).count(), named.terms.len(), named.share));
        Leak { m: design.m, stage, component, shares }
    }

    pub fn line(&self) -> String {
        let lines = self.shares.first().map_or(Vec::new(), |named| self.share(named));
        lines.iter().map(|line| line.trim_start()).collect::<Vec<_>>().join("; ")
    }

    pub fn lines(&self) -> Vec<String> {
        self.shares.iter().flat_map(|named| self.share(named)).collect()
    }

    fn bit(&self, bit: usize) -> String {
        name('y', self.m, self.component * self.m + bit)
    }

    fn placed(&self, placed: &Placed) -> String {
        let may = |to: &[usize]| row(&to.iter().map(|component| (component + 1).to_string()).collect::<Vec<_>>(), "or");
        let to = match placed {
            Placed { to, .. } if !to.is_empty() => format!("component {} may have it", may(to)),
            Placed { alone, .. } if !alone.is_empty() => {
                format!("component {} may have it, but not with those before", may(alone))
            }
            _ => "no other component may have it".to_owned(),
        };
        format!("{}: {}; {to}", self.bit(placed.bit), term(self.m, placed.term))
    }

    /// What is told of a share: a line, and where it has more than one term a line for each.
    fn share(&self, named: &Named) -> Vec<String> {
        let start = format!("share {} stands in {}: ", named.share + 1, counted(named.terms.len(), "term"));
        if let [one] = &named.terms[..] {
            return vec![start + &self.placed(one)];
        }
        let of = |bit: usize| Some(named.terms.iter().filter(|term| term.bit == bit).count()).filter(|&n| n > 0);
        let bits: Vec<String> = (0..self.m).filter_map(|bit| Some(format!("{} of {}", of(bit)?, self.bit(bit)))).collect();
        let mut lines = vec![start + &row(&bits, "and")];
        lines.extend(named.terms.iter().take(TOLD).map(|term| format!("  {}", self.placed(term))));
        lines.extend(more(named.terms.len()).map(|more| format!("  {more}")));
        lines
    }

    pub fn json(&self) -> Object {
        let placed = |placed: &Placed| -> Json {
            let to = |components: &[usize]| list(&components.iter().map(|component| component + 1).collect::<Vec<usize>>());
            Object::new()
                .with("bit", placed.bit)
                .with("term", term(self.m, placed.term))
                .with("to", to(&placed.to))
                .with("alone", to(&placed.alone))
                .into()
        };
        let named = |named: &Named| -> Json {
            let terms = named.terms.iter().take(TOLD).map(placed).collect::<Vec<Json>>();
            let more = named.terms.len().saturating_sub(TOLD);
            Object::new().with("share", named.share + 1).with("terms", terms).with("more", more).into()
        };
        Object::new().with("shares", self.shares.iter().map(named).collect::<Vec<Json>>())
    }
}

impl Named {
    fn of(design: &Design, stage: usize, component: usize, share: usize) -> Named {
        let Design { m, s, .. } = *design;
        let stage = &design.stages[stage];
        let lists = stage.lists[component * m..][..m].iter().enumerate();
        let terms = lists.flat_map(|(bit, list)| list.iter().map(move |&term| (bit, term)));
        let terms: Vec<(usize, u32)> = terms.filter(|&(_, term)| named_by(m, s, term) >> share & 1 == 1).collect();
        // the shares that each other component ignores, and those that it would ignore with all that was said to be for it
        let ignored: Vec<u32> =
            (0..s).map(|j| (0..s).filter(|&i| !stage.depends(m, j, i)).fold(0, |set, i| set | 1 << i)).collect();
        let mut kept = ignored.clone();
        let may = |ignored: &[u32], term: u32| -> Vec<usize> {
            (0..s).filter(|&j| j != component && ignored[j] & !named_by(m, s, term) != 0).collect()
        };
        let placed = |&(bit, term): &(usize, u32)| {
            let to = may(&kept, term);
            to.iter().for_each(|&j| kept[j] &= !named_by(m, s, term));
            Placed { bit, term, to, alone: may(&ignored, term) }
        };
        Named { share, terms: terms.iter().map(placed).collect() }
    }
}
