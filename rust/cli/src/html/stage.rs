//! A stage on a page: its table, which component reads which share, its terms.

use super::parts::{cell, degrees, end, head, row, table};
use crate::design::{Design, Stage};
use crate::sharing::name;
use std::fmt::Write;

/// A cell of a grid: an x where it reads, else a point.
fn mark(reads: bool) -> String {
    if reads { "<td class=\"reads\">x</td>" } else { "<td>.</td>" }.to_owned()
}

/// The components against the shares.
fn grid(page: &mut String, m: usize, s: usize, stage: &Stage) {
    let caption = "Each component, and an x for each share on which it depends";
    head(page, caption, "component", (1..=s).map(|share| format!("x{share}")).chain(["ignores".to_owned()]));
    for component in 0..s {
        let depends: Vec<bool> = (0..s).map(|share| stage.depends(m, component, share)).collect();
        let ignored: Vec<String> =
            depends.iter().enumerate().filter(|(_, &depends)| !depends).map(|(i, _)| format!("x{}", i + 1)).collect();
        let words = if ignored.is_empty() { "no share".to_owned() } else { ignored.join(", ") };
        let class = if ignored.is_empty() { " class=\"every\"" } else { "" };
        let marks: String = depends.into_iter().map(mark).collect();
        let _ = writeln!(page, "<tr{class}><th scope=\"row\">y{}</th>{marks}<td>{words}</td></tr>", component + 1);
    }
    end(page);
}

/// The bits of components against the bits of shares.
fn bits(page: &mut String, m: usize, s: usize, stage: &Stage) {
    page.push_str("<details><summary>Each bit</summary>\n");
    let caption = "Each bit of a component, and an x for each bit of a share on which it depends";
    head(page, caption, "bit", (0..m * s).map(|variable| name('x', m, variable)));
    for (i, list) in stage.lists.iter().enumerate() {
        let named = list.iter().fold(0, |named, term| named | term);
        row(page, &name('y', m, i), &(0..m * s).map(|variable| mark(named >> variable & 1 == 1)).collect::<Vec<String>>());
    }
    end(page);
    page.push_str("</details>\n");
}

/// How many terms each formula has, and its degree.
fn terms(page: &mut String, m: usize, s: usize, stage: &Stage) {
    let caption = "Each bit of a component: how many terms its formula has, and its degree";
    let degree = |list: &[u32]| list.iter().map(|term| term.count_ones()).max().unwrap_or(0);
    head(page, caption, "component", (0..m).map(|bit| format!("bit {bit}")).chain(["terms".to_owned()]));
    for component in 0..s {
        let lists = &stage.lists[component * m..][..m];
        let mut cells: Vec<String> = lists.iter().map(|list| cell(format!("{}, degree {}", list.len(), degree(list)))).collect();
        cells.push(cell(lists.iter().map(Vec::len).sum::<usize>()));
        row(page, &format!("y{}", component + 1), &cells);
    }
    end(page);
}

/// The section of a stage.
pub fn section(page: &mut String, design: &Design, number: usize) {
    let Design { m, s, .. } = *design;
    let stage = &design.stages[number];
    let _ = writeln!(page, "<h2>Stage {}</h2>", number + 1);
    grid(page, m, s, stage);
    bits(page, m, s, stage);
    table(page, "G", &stage.table);
    degrees(page, m, &stage.table);
    terms(page, m, s, stage);
}
