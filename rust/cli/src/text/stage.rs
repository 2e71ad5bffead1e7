//! A stage of a text.

use super::formula::{Terms, Variables};
use super::reader::{fault, Reader};
use super::signs::Sign;
use super::{Fault, Place};
use crate::design::Stage;
use crate::sharing::{name, row, secret};

const SIGN: &str = "a sign or the end of the line";

/// What was read of a stage.
struct Parts {
    /// G as numbers.
    table: Option<Vec<u8>>,
    /// G as formulas, one for each bit.
    formulas: Vec<Option<Terms>>,
    lists: Vec<Option<Terms>>,
    cyclic: bool,
}

impl Reader<'_> {
    /// Stage number n, counted from 1, and whether its G was left out.
    pub fn stage(&mut self, n: usize) -> Result<(Stage, bool), Fault> {
        self.signs.pass_line_ends();
        let (place, _) = self.signs.peek();
        self.word("stage")?;
        self.line_end()?;
        let (m, s) = (self.m, self.s);
        let mut parts = Parts { table: None, formulas: vec![None; m], lists: vec![None; m * s], cyclic: false };
        loop {
            self.signs.pass_line_ends();
            match self.signs.peek().1 {
                Sign::Word("G") => self.g(&mut parts)?,
                Sign::Word("y") => self.y(&mut parts)?,
                Sign::Word("cyclic") => self.cyclic(&mut parts)?,
                Sign::Word("stage") | Sign::TextEnd => break,
                _ => return Err(self.signs.due("'G', 'y', 'cyclic', 'stage' or the end of the text")),
            }
        }
        self.note_left_out(n, place, &parts);
        if parts.cyclic {
            for i in m..m * s {
                let rotated = |term: u32| (term << m | term >> (m * (s - 1))) & (((1u64 << (m * s)) - 1) as u32);
                parts.lists[i] = parts.lists[i - m].as_ref().map(|terms| terms.iter().map(|&term| rotated(term)).collect());
            }
        }
        let list = |terms: Option<Terms>| terms.unwrap_or_default().into_iter().collect();
        let mut stage = Stage { table: Vec::new(), lists: parts.lists.into_iter().map(list).collect() };
        let formulas = parts.formulas.iter().any(Option::is_some).then_some(parts.formulas);
        let guessed = parts.table.is_none() && formulas.is_none();
        // share 1 is x, the others are 0
        let guess = |stage: &Stage| (0..1 << m).map(|x| secret(m, s, stage.output(x))).collect();
        stage.table = parts.table.or(formulas.map(|formulas| of_formulas(m, &formulas))).unwrap_or_else(|| guess(&stage));
        Ok((stage, guessed))
    }

    /// `G` and a table, or `G[b] =` and a formula.
    fn g(&mut self, parts: &mut Parts) -> Result<(), Fault> {
        let (place, _) = self.signs.take();
        if self.signs.peek().1 != Sign::Mark('[') {
            if parts.table.is_some() || parts.formulas.iter().any(Option::is_some) {
                return fault(place, "G stands in this stage before".to_owned());
            }
            parts.table = Some(self.table("G")?);
            return Ok(());
        }
        let bit = self.bit_in_brackets()?;
        if parts.table.is_some() {
            return fault(place, "G stands in this stage before".to_owned());
        }
        if parts.formulas[bit].is_some() {
            return fault(place, format!("G[{bit}] stands in this stage before"));
        }
        self.mark('=')?;
        parts.formulas[bit] = Some(self.formula(Variables::OfSecret)?);
        self.line_end_or(SIGN)
    }

    /// An output bit and its formula.
    fn y(&mut self, parts: &mut Parts) -> Result<(), Fault> {
        let (place, bit) = self.bit(Variables::OfShares)?;
        let text = name('y', self.m, bit);
        if parts.lists[bit].is_some() {
            return fault(place, format!("{text} stands in this stage before"));
        }
        if parts.cyclic && bit >= self.m {
            return fault(place, format!("this stage is cyclic, so {text} follows from {}", name('y', self.m, bit % self.m)));
        }
        self.mark('=')?;
        parts.lists[bit] = Some(self.formula(Variables::OfShares)?);
        self.line_end_or(SIGN)
    }

    /// `cyclic`: what the components behind the first one give follows from it by rotating the shares.
    fn cyclic(&mut self, parts: &mut Parts) -> Result<(), Fault> {
        let (place, _) = self.signs.take();
        if parts.cyclic {
            return fault(place, "cyclic stands in this stage before".to_owned());
        }
        if let Some(bit) = (self.m..parts.lists.len()).find(|&bit| parts.lists[bit].is_some()) {
            return fault(
                place,
                format!("{} stands in this stage before, and follows where a stage is cyclic", name('y', self.m, bit)),
            );
        }
        parts.cyclic = true;
        self.line_end()
    }

    /// Notes the bits that are left out while others of the same component, or of G, are given.
    fn note_left_out(&mut self, n: usize, place: Place, parts: &Parts) {
        let m = self.m;
        let components = parts.lists.chunks(m).enumerate().map(|(j, lists)| (lists, Some(j)));
        for (lists, component) in components.chain([(&parts.formulas[..], None)]) {
            if lists.iter().all(Option::is_none) {
                continue;
            }
            let text = |bit: usize| component.map_or(format!("G[{bit}]"), |j| name('y', m, j * m + bit));
            let left: Vec<String> = (0..m).filter(|&bit| lists[bit].is_none()).map(text).collect();
            let are = if left.len() == 1 { "is" } else { "are" };
            if !left.is_empty() {
                let words = format!("stage {n} leaves out {}, which {are} then 0", row(&left, "and"));
                self.left_out.push(Fault { place, words });
            }
        }
    }
}

/// The table of formulas, one for each bit.
fn of_formulas(m: usize, formulas: &[Option<Terms>]) -> Vec<u8> {
    let is_one = |terms: &Terms, x: u32| terms.iter().filter(|&term| term & !x == 0).count() % 2 == 1;
    let entry = |x: u32| {
        let ones = formulas.iter().enumerate().filter(|(_, terms)| terms.as_ref().is_some_and(|terms| is_one(terms, x)));
        ones.fold(0, |entry, (bit, _)| entry | 1 << bit)
    };
    (0..1 << m).map(entry).collect()
}
