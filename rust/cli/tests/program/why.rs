//! What is told of a refused design, beyond its verdict.

use crate::samples::sample;
use crate::shell::{prints, shell, shell_with, shown, Folder};

/// PRESENT's text with one part replaced by another, as a file.
fn present(folder: &Folder, from: &str, to: &str) -> String {
    let text = shell("jestrunas explain designs/present.bin").out;
    assert!(text.contains(from), "{from}");
    let file = folder.of("present");
    let assembled = shell_with(&format!("jestrunas assemble - -o {file}"), text.replacen(from, to, 1).as_bytes());
    assert_eq!(assembled, shown(0, "", ""));
    file
}

/// What `judge --why` and `explain` tell behind the verdict: one line, and lines.
fn why(file: &str) -> (String, String) {
    let judged = shell(&format!("jestrunas judge --why {file}"));
    let explained = shell(&format!("jestrunas explain {file}"));
    assert_eq!((judged.status, explained.status), (1, 0));
    let (_, lines) = explained.out.rsplit_once("# verdict: ").unwrap();
    let lines: String = lines.lines().skip(1).map(|line| line.strip_prefix("#   ").unwrap().to_owned() + "\n").collect();
    let line = judged.out.lines().nth(1).unwrap().strip_prefix("  ").unwrap().to_owned();
    assert_eq!(judged.out.lines().count(), 2);
    (line, lines)
}

#[test]
fn a_wrong_index() {
    let folder = Folder::new();
    let file = present(&folder, "x2[3]·x3[2]", "x2[3]·x3[3]");
    let lines = "\
stage 1, bit 0: the product x2[3]·x3[2] stands in no component
stage 1, bit 0: the product x2[3]·x3[3] stands in y1[0], and G has it not
the shares 0 8 4 of 12 become 5 12 0, which sum to 9, and G(12) is 8
";
    assert_eq!(why(&file), (lines.trim_end().replace("\nstage 1, bit 0: ", "; ").replace('\n', "; "), lines.to_owned()));
    let json = shell(&format!("jestrunas judge --why --json {file}")).out;
    assert!(json.ends_with(
        "\"words\":\"stage 1 is not correct\",\"why\":{\"products\":[{\"bit\":0,\"product\":\"x2[3]·x3[2]\",\"components\":[],\"due\":true},\
         {\"bit\":0,\"product\":\"x2[3]·x3[3]\",\"components\":[1],\"due\":false}],\"more\":0,\"sharing\":[0,8,4],\"secret\":12,\
         \"output\":[5,12,0],\"sum\":9,\"due\":8,\"guessed\":false}}\n"
    ));
}

#[test]
fn a_product_in_two_components() {
    let folder = Folder::new();
    // x3[0] stands in y1[0], and once more
    let file = present(&folder, "y3[0] =", "y3[0] = x2[3]·x3[2] +");
    let (line, _) = why(&file);
    assert!(
        line.starts_with("stage 1, bit 0: the product x2[3]·x3[2] stands in y1[0] and y3[0], an even number; the shares "),
        "{line}"
    );
    // and one that G has not
    let file = present(&folder, "y3[0] =", "y3[0] = x1[0]·x1[1]·x1[2]·x2[3] +");
    let (line, _) = why(&file);
    assert!(
        line.starts_with("stage 1, bit 0: the product x1[0]·x1[1]·x1[2]·x2[3] stands in y3[0], and G has it not; the "),
        "{line}"
    );
}

#[test]
fn at_most_eight_products_are_told() {
    // G is x, and all formulas are 0: three products a bit are missing
    let text = "m 3\ns 3\nS 0 1 2 3 4 5 6 7\nstage\nG 0 1 2 3 4 5 6 7\n";
    let explained = shell_with("jestrunas assemble - -o - | jestrunas explain -", text.as_bytes()).out;
    assert_eq!(explained.lines().filter(|line| line.ends_with("stands in no component")).count(), 8);
    assert!(
        explained.contains("\n#   and 1 more\n#   the shares 1 0 0 of 1 become 0 0 0, which sum to 0, and G(1) is 1\n"),
        "{explained}"
    );
}

#[test]
fn a_component_that_depends_on_every_share() {
    // that of a sample is told as `explain` shows it; this is the identity with twelve terms of share 1 in y2[0], and again in y3[0]
    let of_share_1 = ["x1[0]", "x1[1]", "x1[2]", "x1[0]·x1[1]", "x1[0]·x1[2]", "x1[1]·x1[2]"];
    let terms = of_share_1.map(|term| format!("{term} + x2[0]·{term}")).join(" + ");
    let mut text = "m 3\ns 3\nS 0 1 2 3 4 5 6 7\nstage\n".to_owned();
    text += &format!("y1[0] = x2[0]\ny2[0] = x3[0] + {terms}\ny3[0] = {}\n", terms.replacen("x1[0] + ", "", 1));
    for bit in 1..3 {
        text += &format!("y1[{bit}] = x2[{bit}]\ny2[{bit}] = x3[{bit}]\ny3[{bit}] = x1[{bit}]\n");
    }
    let folder = Folder::new();
    let file = folder.of("file");
    assert_eq!(shell_with(&format!("jestrunas assemble - -o {file}"), text.as_bytes()), shown(0, "", ""));
    let (line, lines) = why(&file);
    assert!(
        line.starts_with(
            "share 3 stands in 3 terms: 1 of y2[0], 1 of y2[1] and 1 of y2[2]; y2[0]: x3[0]; component 1 may have it;"
        ),
        "{line}"
    );
    assert!(lines.contains("share 1 stands in 12 terms: 12 of y2[0]\n"), "{lines}");
    assert!(lines.contains("  and 4 more\n"), "{lines}");
}

#[test]
fn two_sharings_with_one_output() {
    let (line, lines) = why("designs/uneven.bin");
    let due = "stage 1: the shares 4 7 1 and the shares 1 1 2, both of 2, become 6 5 1, of 2";
    assert_eq!(line, due);
    assert_eq!(lines, format!("{due}\noutput sharings met: 126 never, 295 once, 63 twice, 21 3 times, 7 4 times\n"));
    for shares in ["4 7 1", "1 1 2"] {
        prints(&format!("jestrunas run designs/uneven.bin {shares}"), "shares 6 5 1\nsum 2\nS(2) 2\n");
    }
    let json = shell("jestrunas explain --json designs/uneven.bin").out;
    assert!(json.contains(
        "\"why\":{\"sharings\":[[4,7,1],[1,1,2]],\"secret\":2,\"output\":[6,5,1],\"sum\":2,\"met\":[{\"times\":0,\"output_sharings\":126},"
    ));
}

#[test]
fn the_chain_table_by_table() {
    let text = shell("jestrunas explain designs/present.bin").out.replacen("\nS 12 5 ", "\nS 5 12 ", 1);
    let judged = shell_with("jestrunas assemble - -o - | jestrunas judge --why -", text.as_bytes());
    let due =
        "-: 10 0 0, 0 trials: the chain of tables is not S\n  at 0 the chain gives 12, S has 5; table by table 0 → 7 → 12\n";
    assert_eq!(judged, shown(1, due, ""));
    assert_eq!(sample("present.bin")[11..13], [12, 5]);
}

#[test]
fn a_component_that_may_have_each_term_but_not_all() {
    // y2 ignores the shares 1 and 3, and y3 ignores share 2
    let text = "\
m 3
s 3
S 0 1 2 7 4 5 6 3
stage # bit 2 becomes x[2] + x[0]·x[1]
y1[2] = x1[0]·x2[1] + x2[0]·x1[1] + x2[0]·x3[1] + x3[0]·x2[1]
y2[2] = x2[2] + x2[0]·x2[1]
y3[2] = x1[2] + x3[2] + x1[0]·x3[1] + x3[0]·x1[1] + x1[0]·x1[1] + x3[0]·x3[1]
y2[0] = x2[0]
y3[0] = x1[0] + x3[0]
y2[1] = x2[1]
y3[1] = x1[1] + x3[1]
";
    let explained = shell_with("jestrunas explain - 2> /dev/null", text.as_bytes()).out;
    let due = "\
# verdict: 13 1 1, 512 trials: component 1 of stage 1 depends on every share
#   share 1 stands in 2 terms: 2 of y1[2]
#     y1[2]: x1[1]·x2[0]; component 2 may have it
#     y1[2]: x1[0]·x2[1]; component 2 may have it
#   share 3 stands in 2 terms: 2 of y1[2]
#     y1[2]: x2[1]·x3[0]; component 2 may have it
#     y1[2]: x2[0]·x3[1]; component 2 may have it
#   share 2 stands in 4 terms: 4 of y1[2]
#     y1[2]: x1[1]·x2[0]; component 2 may have it
#     y1[2]: x1[0]·x2[1]; component 2 may have it
#     y1[2]: x2[1]·x3[0]; component 2 may have it, but not with those before
#     y1[2]: x2[0]·x3[1]; component 2 may have it, but not with those before
";
    assert!(explained.ends_with(due), "{explained}");
    let json = shell_with("jestrunas judge --why --json - 2> /dev/null", text.as_bytes()).out;
    assert!(json.contains("{\"bit\":2,\"term\":\"x2[1]·x3[0]\",\"to\":[],\"alone\":[2]}"), "{json}");
}

#[test]
fn a_product_in_all_components() {
    let text = "m 1\ns 3\nS 01\nstage\nG 01\ncyclic\ny1[0] = ~x2[0]\n";
    let judged = shell_with("jestrunas judge --why -", text.as_bytes()).out;
    let due = "stage 1, bit 0: the product 1 stands in y1[0], y2[0] and y3[0], an odd number, and G has it not; ";
    assert!(judged.contains(due), "{judged}");
}

#[test]
fn tables_that_were_guessed() {
    let text = "m 1\ns 3\nS 10\nstage\ncyclic\ny1[0] = x2[0]\nstage\ncyclic\ny1[0] = x2[0]\n";
    let judged = shell_with("jestrunas judge --why -", text.as_bytes()).out;
    let due = "  at 0 the chain gives 0, S has 1; table by table 0 → 0 → 0; G of the stages 1 and 2 was left out and guessed\n";
    assert!(judged.ends_with(due), "{judged}");
}
