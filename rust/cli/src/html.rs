//! A design as a page of HTML: one file without scripts, which a browser, a text browser and paper show alike.

mod cause;
mod parts;
mod stage;

use crate::design::Design;
use crate::verdict::{self, counted};
use crate::why::Why;
use crate::{files, text};
use jestrunas::Verdict;
use parts::{degrees, escaped, table};
use std::ffi::OsStr;
use std::fmt::Write;

/// How a page looks.
const STYLE: &str = include_str!("html/style.css");

/// The page of a design, of its file's name, its verdict, and the cause where it is refused.
pub fn page(name: &OsStr, design: &Design, verdict: &Verdict, why: Option<&Why>) -> String {
    let Design { m, s, ref s_box, ref stages } = *design;
    let name = escaped(&files::shown(name));
    let mut page = format!(
        "<!DOCTYPE html>\n<html lang=\"en\"><head>\n<meta charset=\"utf-8\">\n\
         <meta name=\"viewport\" content=\"width=device-width\">\n<title>{name}</title>\n\
         <style>\n{STYLE}</style>\n</head>\n<body>\n<h1>{name}</h1>\n\
         <p>An S-box of {} in {}, a chain of {}.</p>\n",
        counted(m, "bit"),
        counted(s, "share"),
        counted(stages.len(), "stage"),
    );
    let class = if verdict.is_ok() { "accepted" } else { "refused" };
    let _ = writeln!(page, "<p class=\"{class}\"><strong>Verdict:</strong> {}</p>", escaped(&verdict::words(verdict)));
    if let Some(why) = why {
        cause::section(&mut page, why);
    }
    page.push_str("<h2>The box S</h2>\n");
    table(&mut page, "S", s_box);
    degrees(&mut page, m, s_box);
    for number in 0..stages.len() {
        stage::section(&mut page, design, number);
    }
    let text = escaped(&text::written(design));
    let _ = write!(page, "<h2>The design as text</h2>\n<pre>{text}</pre>\n</body></html>\n");
    page
}
