//! 12: a stage is not correct. A list of terms says one function and no other, so a stage is correct exactly when the lists of each bit sum
//! to its table, multiplied out over the shares; the products that stand in one of the two and not in the other are what is wrong.

use super::{more, TOLD};
use crate::design::Design;
use crate::json::{Json, Object};
use crate::sharing::{self, name, row, secret, shown, term};
use std::collections::{BTreeMap, BTreeSet};

#[derive(Clone, Debug, PartialEq)]
pub struct Difference {
    pub m: usize,
    pub s: usize,
    /// Counted from 0.
    pub stage: usize,
    /// Their bits rising, those of one bit by their numbers.
    pub products: Vec<Product>,
    /// The first sharing for which the components do not sum to the table's entry.
    pub sharing: u32,
    /// What the components make of it.
    pub output: u32,
    /// What the table has.
    pub due: u8,
    /// Whether the table was left out of the text.
    pub guessed: bool,
}

/// A product that stands in a wrong number of components: added to one of them or taken away from one of them, it is right.
#[derive(Clone, Debug, PartialEq)]
pub struct Product {
    pub bit: usize,
    pub term: u32,
    /// The components that have it, counted from 0.
    pub components: Vec<usize>,
    /// Whether the table has it, and so an odd number of components should.
    pub due: bool,
}

/// The products of a bit of a table, multiplied out over the shares: of each variable of each of its terms one share.
fn multiplied_out(m: usize, s: usize, words: &[u8], bit: usize) -> BTreeSet<u32> {
    let mut products = BTreeSet::new();
    for (set, _) in words.iter().enumerate().filter(|(_, word)| *word >> bit & 1 == 1) {
        let mut some = vec![0u32];
        for variable in (0..m).filter(|variable| set >> variable & 1 == 1) {
            some = some.iter().flat_map(|product| (0..s).map(move |j| product | 1 << (j * m + variable))).collect();
        }
        products.extend(some);
    }
    products
}

impl Difference {
    /// Of a stage, counted from 0; none where it is correct.
    pub fn of(design: &Design, number: usize, guessed: bool) -> Option<Difference> {
        let Design { m, s, .. } = *design;
        let stage = &design.stages[number];
        let mut words = vec![0; 1 << m];
        jestrunas::transform(m, &stage.table, &mut words).expect("a table of a design that reads");
        let mut products = Vec::new();
        for bit in 0..m {
            let due = multiplied_out(m, s, &words, bit);
            let mut had: BTreeMap<u32, Vec<usize>> = due.iter().map(|&term| (term, Vec::new())).collect();
            for component in 0..s {
                for &term in &stage.lists[component * m + bit] {
                    had.entry(term).or_default().push(component);
                }
            }
            let wrong = |(term, components): (u32, Vec<usize>)| {
                let due = due.contains(&term);
                (due != (components.len() % 2 == 1)).then_some(Product { bit, term, components, due })
            };
            products.extend(had.into_iter().filter_map(wrong));
        }
        // below the least of them no other one is 1, so there the sum is wrong, and before it right
        let sharing = products.iter().map(|product| product.term).min()?;
        let due = stage.table[usize::from(secret(m, s, sharing))];
        Some(Difference { m, s, stage: number, products, sharing, output: stage.output(sharing), due, guessed })
    }

    /// Where a product stands, and that it should not.
    fn product(&self, product: &Product) -> String {
        let Product { bit, term: number, components, due } = product;
        let stands: Vec<String> = components.iter().map(|component| name('y', self.m, component * self.m + bit)).collect();
        let start = format!("the product {} stands in", term(self.m, *number));
        let stands = row(&stands, "and");
        match (due, components.len()) {
            (true, 0) => format!("{start} no component"),
            (true, _) => format!("{start} {stands}, an even number"),
            (false, 1) => format!("{start} {stands}, and G has it not"),
            (false, _) => format!("{start} {stands}, an odd number, and G has it not"),
        }
    }

    /// What is told of the stage behind its products.
    fn rest(&self) -> Vec<String> {
        let Difference { m, s, sharing, output, due, .. } = *self;
        let (x, sum) = (secret(m, s, sharing), secret(m, s, output));
        let (given, made) = (shown(m, s, sharing), shown(m, s, output));
        let mut lines: Vec<String> = more(self.products.len()).into_iter().collect();
        lines.push(format!("the shares {given} of {x} become {made}, which sum to {sum}, and G({x}) is {due}"));
        if self.guessed {
            lines.push(
                "G was left out and guessed: what the components sum to where share 1 is x and the others are 0".to_owned(),
            );
        }
        lines
    }

    fn place(&self, bit: usize) -> String {
        format!("stage {}, bit {bit}: ", self.stage + 1)
    }

    /// In one line, which names each bit once.
    pub fn line(&self) -> String {
        let mut parts = Vec::new();
        let mut bit = None;
        for product in self.products.iter().take(TOLD) {
            let place = if bit == Some(product.bit) { String::new() } else { self.place(product.bit) };
            parts.push(place + &self.product(product));
            bit = Some(product.bit);
        }
        parts.extend(self.rest());
        parts.join("; ")
    }

    pub fn lines(&self) -> Vec<String> {
        let told = self.products.iter().take(TOLD);
        told.map(|product| self.place(product.bit) + &self.product(product)).chain(self.rest()).collect()
    }

    pub fn json(&self) -> Object {
        let Difference { m, s, sharing, output, due, .. } = *self;
        let product = |product: &Product| -> Json {
            let components = product.components.iter().map(|component| (component + 1).into()).collect::<Vec<Json>>();
            let named = Object::new().with("bit", product.bit).with("product", term(m, product.term));
            named.with("components", components).with("due", product.due).into()
        };
        let products = self.products.iter().take(TOLD).map(product).collect::<Vec<Json>>();
        Object::new()
            .with("products", products)
            .with("more", self.products.len().saturating_sub(TOLD))
            .with("sharing", sharing::json(m, s, sharing))
            .with("secret", secret(m, s, sharing))
            .with("output", sharing::json(m, s, output))
            .with("sum", secret(m, s, output))
            .with("due", due)
            .with("guessed", self.guessed)
    }
}
