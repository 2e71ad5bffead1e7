//! Why a design is refused, on a page.

use super::parts::{cell, end, escaped, head, row};
use crate::why::{Collision, Why};
use std::fmt::Write;
use std::iter;

/// How many blocks the longest bar has.
const BAR: usize = 40;

/// How many output sharings are met how often, from never on, with a bar each.
fn histogram(page: &mut String, collision: &Collision) {
    let Collision { stage, ref times, .. } = *collision;
    let most = times.values().max().copied().unwrap_or(1);
    let caption = format!("How often the output sharings of stage {} are met; of a uniform stage each once", stage + 1);
    head(page, &caption, "met", ["output sharings".to_owned(), "bar".to_owned()].into_iter());
    for (&met, &sharings) in times {
        let words = match met {
            0 => "never".to_owned(),
            1 => "once".to_owned(),
            2 => "twice".to_owned(),
            _ => format!("{met} times"),
        };
        // a bar that is not empty has a block
        let bar = "█".repeat((sharings * BAR).div_ceil(most));
        row(page, &words, &[cell(sharings), format!("<td class=\"bar\">{bar}</td>")]);
    }
    end(page);
}

/// The section of a cause.
pub fn section(page: &mut String, why: &Why) {
    page.push_str("<h2>Why it is refused</h2>\n<ul>\n");
    let lines = match why {
        Why::Collision(collision) => vec![collision.line()],
        other => other.lines(),
    };
    // lines that are indented are parts of the one before
    let mut lines = lines.iter().peekable();
    while let Some(line) = lines.next() {
        let _ = write!(page, "<li>{}", escaped(line));
        let parts: Vec<&String> = iter::from_fn(|| lines.next_if(|line| line.starts_with(' '))).collect();
        if !parts.is_empty() {
            let parts: String = parts.iter().map(|part| format!("<li>{}</li>\n", escaped(part.trim_start()))).collect();
            let _ = write!(page, "\n<ul>\n{parts}</ul>");
        }
        page.push_str("</li>\n");
    }
    page.push_str("</ul>\n");
    if let Why::Collision(collision) = why {
        histogram(page, collision);
    }
}
