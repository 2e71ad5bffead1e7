//! A formula of a text: a sum of products, multiplied out.

use super::reader::{fault, Reader};
use super::signs::Sign;
use super::{Fault, Place};
use crate::sharing::name;
use jestrunas::TERMS_MAX;
use std::collections::{BTreeSet, HashSet};

/// The terms of a sum; a term that is added twice is none.
pub type Terms = BTreeSet<u32>;

/// What a formula is over: `x2[0]`, a bit of a share, or `x[0]`, a bit of what is shared.
#[derive(Clone, Copy, PartialEq, Eq)]
pub enum Variables {
    OfShares,
    OfSecret,
}

const SUM: [char; 3] = ['+', '^', '⊕'];
const PRODUCT: [char; 3] = ['·', '*', '&'];

/// Adds terms to a sum.
fn add(sum: &mut Terms, terms: impl IntoIterator<Item = u32>) {
    for term in terms {
        if !sum.remove(&term) {
            sum.insert(term);
        }
    }
}

/// A product as far as it was read.
struct Product {
    /// Multiplied out.
    terms: Terms,
    /// The variables that stand in it without brackets.
    variables: u32,
    /// Whether nothing else stands in it.
    plain: bool,
}

impl Reader<'_> {
    /// A formula: `0`, or a sum. It goes on in the next line where a sign of a sum or a product stands before or behind the end of the line.
    pub fn formula(&mut self, of: Variables) -> Result<Terms, Fault> {
        self.signs.pass_line_ends();
        if let Sign::Number("0") = self.signs.peek().1 {
            self.signs.take();
            return Ok(Terms::new());
        }
        self.sum(of)
    }

    /// A sum of terms, none of which stands in it twice as it is written.
    fn sum(&mut self, of: Variables) -> Result<Terms, Fault> {
        let mut sum = Terms::new();
        let mut plain = HashSet::new();
        loop {
            let (place, product) = self.term(of)?;
            if product.plain && !plain.insert(product.variables) {
                return fault(place, "this term stands in this formula before".to_owned());
            }
            add(&mut sum, product.terms);
            if sum.len() > TERMS_MAX {
                return fault(place, format!("a formula has at most {TERMS_MAX} terms, and this is one more"));
            }
            if !self.go_on(&SUM) {
                return Ok(sum);
            }
        }
    }

    /// Takes one of these marks, with the ends of lines before and behind it, if it is in front.
    fn go_on(&mut self, marks: &[char]) -> bool {
        let mut signs = self.signs.clone();
        signs.pass_line_ends();
        match signs.take().1 {
            Sign::Mark(mark) if marks.contains(&mark) => {
                signs.pass_line_ends();
                self.signs = signs;
                true
            }
            _ => false,
        }
    }

    /// The constant, or a product of factors, with its place.
    fn term(&mut self, of: Variables) -> Result<(Place, Product), Fault> {
        let (start, sign) = self.signs.peek();
        let mut product = Product { terms: Terms::from([0]), variables: 0, plain: true };
        match sign {
            Sign::Number("1") => {
                self.signs.take();
                return Ok((start, product));
            }
            sign if starts_factor(sign) => {}
            _ => return Err(self.signs.due("a term")),
        }
        loop {
            self.factor(of, &mut product)?;
            let marked = self.go_on(&PRODUCT);
            match self.signs.peek().1 {
                sign if starts_factor(sign) => {}
                _ if marked => return Err(self.signs.due("a factor")),
                _ => return Ok((start, product)),
            }
        }
    }

    /// A variable, or a sum in brackets, either with `~` in front, and multiplies with it. A variable may not stand in a product twice.
    fn factor(&mut self, of: Variables, product: &mut Product) -> Result<(), Fault> {
        let (place, _) = self.signs.peek();
        let mut negated = false;
        while let Sign::Mark('~') = self.signs.peek().1 {
            self.signs.take();
            negated = !negated;
        }
        let mut factor = match self.signs.peek().1 {
            Sign::Mark('(') => {
                self.signs.take();
                self.signs.pass_line_ends();
                let sum = self.sum(of)?;
                self.signs.pass_line_ends();
                self.bracket_end()?;
                product.plain = false;
                sum
            }
            Sign::Word("x") => {
                let (place, bit) = self.bit(of)?;
                if product.variables >> bit & 1 == 1 {
                    let text = if of == Variables::OfShares { name('x', self.m, bit) } else { format!("x[{bit}]") };
                    return fault(place, format!("{text} stands in this term before"));
                }
                product.variables |= 1 << bit;
                Terms::from([1 << bit])
            }
            _ => return Err(self.signs.due("a variable or '('")),
        };
        if negated {
            product.plain = false;
            add(&mut factor, [0]);
        }
        let mut terms = Terms::new();
        for one in &product.terms {
            add(&mut terms, factor.iter().map(|other| one | other));
        }
        if terms.len() > TERMS_MAX {
            return fault(place, format!("a formula has at most {TERMS_MAX} terms, and multiplied out this product has more"));
        }
        product.terms = terms;
        Ok(())
    }

    fn bracket_end(&mut self) -> Result<(), Fault> {
        match self.signs.peek().1 {
            Sign::Mark(')') => drop(self.signs.take()),
            _ => return Err(self.signs.due("a sign or ')'")),
        }
        Ok(())
    }

    /// A bit with its place: a letter, the share where it is one of a share, and the bit in brackets. Answers (j - 1) * m + b for bit b of
    /// share j.
    pub fn bit(&mut self, of: Variables) -> Result<(Place, usize), Fault> {
        let (place, _) = self.signs.take();
        let share = if of == Variables::OfShares { self.number("a share", 1..=self.s)? } else { 1 };
        Ok((place, (share - 1) * self.m + self.bit_in_brackets()?))
    }

    pub fn bit_in_brackets(&mut self) -> Result<usize, Fault> {
        self.mark('[')?;
        let bit = self.number("a bit", 0..=self.m - 1)?;
        self.mark(']')?;
        Ok(bit)
    }
}

fn starts_factor(sign: Sign) -> bool {
    matches!(sign, Sign::Word("x") | Sign::Mark('~' | '('))
}
