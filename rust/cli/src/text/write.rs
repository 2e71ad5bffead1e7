//! A design as text.

use crate::design::{Design, Stage};
use crate::sharing::{name, term};
use crate::why::{product, Degrees};
use std::fmt::Write;

/// No line is longer, but where one term is.
const WIDTH: usize = 100;

/// Writes parts one after the other, and goes on in a line of its own where one would pass the width.
fn wrapped(text: &mut String, start: &str, parts: impl Iterator<Item = String>) {
    let indent = start.chars().count();
    text.push_str(start);
    let mut column = indent;
    for part in parts {
        let width = part.chars().count();
        if column + width > WIDTH && column > indent {
            let _ = write!(text, "\n{:indent$}", "");
            column = indent;
        }
        text.push_str(&part);
        column += width;
    }
    text.push('\n');
}

fn table(text: &mut String, name: &str, entries: &[u8]) {
    wrapped(text, name, entries.iter().map(|entry| format!(" {entry}")));
}

/// Terms with the signs in front of them.
fn signed(terms: impl Iterator<Item = String>) -> impl Iterator<Item = String> {
    terms.enumerate().map(|(i, term)| format!("{}{term}", if i == 0 { " = " } else { " + " }))
}

fn formula(text: &mut String, start: &str, m: usize, list: &[u32]) {
    if list.is_empty() {
        return wrapped(text, start, [" = 0".to_owned()].into_iter());
    }
    wrapped(text, start, signed(list.iter().map(|&number| term(m, number))));
}

/// A formula, in one line.
pub fn sum(m: usize, list: &[u32]) -> String {
    if list.is_empty() {
        return "0".to_owned();
    }
    list.iter().map(|&number| term(m, number)).collect::<Vec<_>>().join(" + ")
}

/// The products of a bit of a table that has these coefficient words, the shortest first.
fn products(words: &[u8], bit: usize) -> Vec<String> {
    let mut sets: Vec<usize> = (0..words.len()).filter(|&set| words[set] >> bit & 1 == 1).collect();
    sets.sort_by_key(|set| (set.count_ones(), *set));
    sets.into_iter().map(product).collect()
}

/// The formula of a bit of a table that has these coefficient words, in one line.
pub fn polynomial(words: &[u8], bit: usize) -> String {
    let products = products(words, bit);
    if products.is_empty() {
        "0".to_owned()
    } else {
        products.join(" + ")
    }
}

/// The formulas of all bits, as lines for a G, each with its degree.
pub fn polynomials(m: usize, words: &[u8]) -> String {
    let mut text = String::new();
    for (bit, (degree, term)) in Degrees::of(m, words).bits.iter().enumerate() {
        let mut parts = if term.is_none() { vec![" = 0".to_owned()] } else { signed(products(words, bit).into_iter()).collect() };
        parts.push(format!("  # degree {degree}"));
        wrapped(&mut text, &format!("G[{bit}]"), parts.into_iter());
    }
    text
}

/// The text of a design.
pub fn written(design: &Design) -> String {
    let Design { m, s, s_box, stages } = design;
    let mut text = format!("m {m}\ns {s}\n");
    table(&mut text, "S", s_box);
    for stage in stages {
        text.push_str("\nstage\n");
        table(&mut text, "G", &stage.table);
        for (i, list) in stage.lists.iter().enumerate() {
            formula(&mut text, &name('y', *m, i), *m, list);
        }
    }
    text
}

/// The components of a stage against the shares on which they depend.
fn grid(text: &mut String, design: &Design, stage: &Stage) {
    let Design { m, s, .. } = *design;
    let shares: String = (1..=s).map(|share| format!(" x{share}")).collect();
    let _ = writeln!(text, "#    {shares}");
    for component in 0..s {
        let depends: Vec<bool> = (0..s).map(|share| stage.depends(m, component, share)).collect();
        let marks: String = depends.iter().map(|&depends| if depends { "  x" } else { "  ." }).collect();
        let all = if depends.contains(&false) { "" } else { "  every share" };
        let _ = writeln!(text, "#  y{}{marks}{all}", component + 1);
    }
}

/// The text of a design, then, as comments, for each stage the shares on which its components depend, the verdict, and what else is told.
pub fn explained(design: &Design, verdict: &str, why: &[String]) -> String {
    let mut text = written(design);
    for (i, stage) in design.stages.iter().enumerate() {
        let _ = writeln!(text, "\n# stage {}: each component, and the shares on which it depends", i + 1);
        grid(&mut text, design, stage);
    }
    let _ = writeln!(text, "\n# verdict: {verdict}");
    for line in why {
        let _ = writeln!(text, "#   {line}");
    }
    text
}
