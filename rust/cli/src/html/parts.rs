//! What a page is made of.

use crate::why::Degrees;
use std::fmt::Write;

/// A text in HTML, outside of tags.
pub fn escaped(text: &str) -> String {
    text.replace('&', "&amp;").replace('<', "&lt;").replace('>', "&gt;")
}

/// A row: its head and its cells, which are HTML.
pub fn row(page: &mut String, head: &str, cells: &[String]) {
    let _ = writeln!(page, "<tr><th scope=\"row\">{head}</th>{}</tr>", cells.concat());
}

/// The head of a table: its caption, what stands above the rows' heads, and the columns' heads.
pub fn head(page: &mut String, caption: &str, corner: &str, columns: impl Iterator<Item = String>) {
    let columns: String = columns.map(|column| format!("<th scope=\"col\">{column}</th>")).collect();
    let _ = writeln!(
        page,
        "<div class=\"wide\"><table><caption>{caption}</caption>\n\
         <thead><tr><th scope=\"col\">{corner}</th>{columns}</tr></thead>\n<tbody>"
    );
}

/// The end of a table.
pub fn end(page: &mut String) {
    page.push_str("</tbody></table></div>\n");
}

/// A cell with a number.
pub fn cell(number: impl std::fmt::Display) -> String {
    format!("<td>{number}</td>")
}

/// A table of 2^m entries, sixteen in a row.
pub fn table(page: &mut String, name: &str, entries: &[u8]) {
    let columns = entries.len().min(16);
    let rows = if entries.len() > columns { ", the sum of the head of the row and that of the column" } else { "" };
    head(page, &format!("{name} of x{rows}"), "x", (0..columns).map(|x| x.to_string()));
    for (number, entries) in entries.chunks(columns).enumerate() {
        row(page, &(number * columns).to_string(), &entries.iter().map(cell).collect::<Vec<String>>());
    }
    end(page);
}

/// The degree of a table of m bits, and those of its bits.
pub fn degrees(page: &mut String, m: usize, entries: &[u8]) {
    let mut words = vec![0; entries.len()];
    jestrunas::transform(m, entries, &mut words).expect("a table of a design that reads");
    let degrees = Degrees::of(m, &words);
    let bits: Vec<String> = degrees.bits.iter().enumerate().map(|(bit, (degree, _))| format!("bit {bit}: {degree}")).collect();
    let _ = writeln!(page, "<p>Degree {} ({}).</p>", degrees.degree(), bits.join(", "));
}
