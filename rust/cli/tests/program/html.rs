//! `explain --html` as a person meets it; tests/html shows the page in browsers.

use crate::shell::{misuses, prints, shell, Folder};
use std::fs;

fn page(file: &str) -> String {
    let shown = shell(&format!("jestrunas explain --html {file}"));
    assert_eq!((shown.status, shown.err.as_str()), (0, ""));
    shown.out
}

#[test]
fn a_page() {
    let folder = Folder::new();
    let file = folder.of("present.html");
    prints(&format!("jestrunas explain --html designs/present.bin -o {file}"), "");
    let page = page("designs/present.bin");
    assert_eq!(fs::read_to_string(file).unwrap(), page);
    for part in [
        "<title>designs/present.bin</title>",
        "<p>An S-box of 4 bits in 3 shares, a chain of 2 stages.</p>",
        "<p class=\"accepted\"><strong>Verdict:</strong> 0 2 0, 16384 trials: accepted, 2 stages</p>",
        "<p>Degree 3 (bit 0: 2, bit 1: 3, bit 2: 3, bit 3: 3).</p>",
        "<tr><th scope=\"row\">y1</th><td>.</td><td class=\"reads\">x</td><td class=\"reads\">x</td><td>x1</td></tr>",
        "<tr><th scope=\"row\">y1</th><td>11, degree 2</td><td>9, degree 2</td><td>3, degree 1</td><td>3, degree 1</td><td>26</td></tr>",
    ] {
        assert!(page.contains(part), "{part}");
    }
    let text = shell("jestrunas explain designs/present.bin").out;
    let (text, _) = text.split_once("\n# stage").unwrap();
    assert!(page.contains(&format!("<pre>{text}</pre>")));
}

#[test]
fn a_page_is_one_file_without_scripts() {
    let page = page("designs/keccak3.bin");
    for part in ["<script", "http", "src=", "href", "url(", "@import"] {
        assert!(!page.contains(part), "{part}");
    }
}

#[test]
fn a_component_that_reads_every_share_stands_out() {
    let page = page("designs/leaks.bin");
    assert!(page.contains("<p class=\"refused\">"));
    let row =
        format!("<tr class=\"every\"><th scope=\"row\">y2</th>{}<td>no share</td></tr>", "<td class=\"reads\">x</td>".repeat(3));
    assert!(page.contains(&row));
}

#[test]
fn why_it_is_refused() {
    let page = page("designs/leaks.bin");
    let (_, why) = page.split_once("<h2>Why it is refused</h2>\n<ul>\n").unwrap();
    let (why, _) = why.split_once("<h2>").unwrap();
    // the same as `explain` tells, its indented lines a list in a list
    let text: String =
        why.lines().filter_map(|line| line.strip_prefix("<li>")).map(|line| line.replace("</li>", "") + "\n").collect();
    let explained = shell("jestrunas explain designs/leaks.bin").out;
    let told = explained.lines().skip_while(|line| !line.starts_with("# verdict")).skip(1);
    let told: Vec<&str> = told.map(|line| line.strip_prefix("#   ").unwrap()).collect();
    assert_eq!(text, told.iter().map(|line| line.trim_start().to_owned() + "\n").collect::<String>());
    assert_eq!(told.iter().filter(|line| line.starts_with("  ")).count(), 8);
    assert_eq!((why.matches("\n<ul>\n").count(), why.matches("\n</ul></li>\n").count()), (2, 2));
    assert!(!self::page("designs/d.bin").contains("Why it is refused"));
}

#[test]
fn the_histogram_of_a_stage_that_is_not_uniform() {
    let page = page("designs/uneven.bin");
    for (times, sharings, blocks) in
        [("never", 126, 18), ("once", 295, 40), ("twice", 63, 9), ("3 times", 21, 3), ("4 times", 7, 1)]
    {
        let bar = "█".repeat(blocks);
        let row = format!("<tr><th scope=\"row\">{times}</th><td>{sharings}</td><td class=\"bar\">{bar}</td></tr>\n");
        assert!(page.contains(&row), "{row}");
    }
    assert_eq!(page.matches("class=\"bar\"").count(), 5);
}

#[test]
fn a_file_name_is_text() {
    let folder = Folder::new();
    let name = folder.write("<b>&.bin", &fs::read(crate::shell::root().join("designs/d.bin")).unwrap());
    let page = page(&format!("'{name}'"));
    assert!(page.contains("/&lt;b&gt;&amp;.bin</title>") && !page.contains("<b>"));
}

#[test]
fn text_into_a_file() {
    let folder = Folder::new();
    let file = folder.of("d.txt");
    prints(&format!("jestrunas explain designs/d.bin -o {file} && jestrunas explain designs/d.bin | cmp - {file}"), "");
}

#[test]
fn wrong_use() {
    misuses("explain", "--json --html designs/d.bin", "--json and --html do not go together");
    misuses("explain", "--json designs/d.bin -o -", "--json and -o do not go together");
}
