//! Texts: their shorter forms, and that every command that reads a design takes one.

use crate::shell::{prints, refuses, shell, shell_with, shown, Folder};

/// The text of one formula, of the first bit of a stage with m 3 and s 3.
fn formula(formula: &str) -> String {
    let text = format!("m 3\ns 3\nS 01234567\nstage\ny1[0] = {formula}\ny1[1] = 0\ny1[2] = 0\n");
    let shown = shell_with("jestrunas assemble - -o - | jestrunas explain -", text.as_bytes());
    assert_eq!((shown.status, shown.err.as_str()), (0, ""), "{formula}");
    shown.out.lines().find_map(|line| line.strip_prefix("y1[0] = ")).unwrap().to_owned()
}

#[test]
fn formulas_are_multiplied_out() {
    for (written, due) in [
        ("x2[0] ⊕ x3[0] ^ x2[1]&x3[1]", "x2[0] + x3[0] + x2[1]·x3[1]"),
        ("(x2[0] + x3[0])·(x2[1] + x3[1])", "x2[0]·x2[1] + x2[1]·x3[0] + x2[0]·x3[1] + x3[0]·x3[1]"),
        ("(x2[0] + x3[0])(x2[1] + x3[1])", "x2[0]·x2[1] + x2[1]·x3[0] + x2[0]·x3[1] + x3[0]·x3[1]"),
        ("~x2[0]", "1 + x2[0]"),
        ("~~x2[0]", "x2[0]"),
        ("~x2[0] & ~x3[1]", "1 + x2[0] + x3[1] + x2[0]·x3[1]"),
        ("x2[0]~x3[1]", "x2[0] + x2[0]·x3[1]"),
        ("~(x2[0] ^ x3[0])", "1 + x2[0] + x3[0]"),
        // what stands twice once it is multiplied out is gone
        ("(x2[0] + x3[0]) + x3[0]", "x2[0]"),
        ("(x2[0] + 1)·(x2[0])", "0"),
        ("(x2[0] + x3[0])·(x2[0] + x3[0])", "x2[0] + x3[0]"),
        ("((x2[0]))", "x2[0]"),
        ("(\n  x2[0]\n  + x3[0]\n)\n  · x2[1]", "x2[0]·x2[1] + x2[1]·x3[0]"),
    ] {
        assert_eq!(formula(written), due, "{written}");
    }
}

#[test]
fn a_text_begins_behind_a_byte_order_mark() {
    let text = "\u{feff}m 1\ns 3\nS 01\nstage\ncyclic\ny1[0] = x2[0]\n";
    let shown = shell_with("jestrunas assemble - -o - | cmp - designs/d.bin", text.as_bytes());
    assert_eq!((shown.status, shown.err.as_str()), (0, ""));
    // the mark is no column
    let shown = shell_with("jestrunas judge -", text.replace("m 1", "m 9").as_bytes());
    assert_eq!(
        (shown.status, shown.err.as_str()),
        (1, "jestrunas: -:1:3: m, a number from 1 to 6, was due, and '9' stands here\n")
    );
}

#[test]
fn a_product_is_not_longer_than_a_formula() {
    // thirteen sums of a variable and 1: 8,192 terms
    let product: Vec<String> = (0..13).map(|i| format!("~x{}[{}]", i / 5 + 1, i % 5)).collect();
    let text =
        format!("m 5\ns 3\nS {}\nstage\ny1[0] = {}\n", (0..32).map(|x| format!("{x} ")).collect::<String>(), product.join("·"));
    let shown = shell_with("jestrunas assemble - -o -", text.as_bytes());
    assert_eq!(shown.status, 1);
    assert!(
        shown.err.ends_with(": a formula has at most 4096 terms, and multiplied out this product has more\n"),
        "{}",
        shown.err
    );
}

/// Assembles both and compares.
fn same(one: &str, other: &str) {
    let folder = Folder::new();
    let file = folder.of("file");
    assert_eq!(shell_with(&format!("jestrunas assemble - -o {file}"), one.as_bytes()), shown(0, "", ""));
    assert_eq!(shell_with(&format!("jestrunas assemble - -o - | cmp - {file}"), other.as_bytes()), shown(0, "", ""));
}

#[test]
fn g_as_formulas_and_cyclic_stages() {
    let text = |stage: &str| format!("m 2\ns 3\nS 0 1 3 2\nstage\n{stage}");
    let g = "G 0 1 3 2\n";
    let y = "y1[0] = x2[0] + x2[1]\ny1[1] = x2[1] + x2[0]·x3[1] + 1\n";
    let all = format!(
        "{y}y2[0] = x3[0] + x3[1]\ny2[1] = x3[1] + x3[0]·x1[1] + 1\ny3[0] = x1[0] + x1[1]\ny3[1] = x1[1] + x1[0]·x2[1] + 1\n"
    );
    same(&text(&format!("{g}{all}")), &text(&format!("G[1] = x[1]\ncyclic\nG[0] = x[0] + x[1]\n{y}")));
    same(&text(&format!("{g}{all}")), &text(&format!("{y}cyclic\nG 0132")));
    // five shares, and a table of two digits an entry
    let wide = "m 4\ns 5\nS 0123456789abcdef\nstage\ncyclic\n";
    let bits: String = (0..4).map(|b| format!("y1[{b}] = x2[{b}]\n")).collect();
    let due: String = (1..=5).flat_map(|j| (0..4).map(move |b| format!("y{j}[{b}] = x{}[{b}]\n", j % 5 + 1))).collect();
    same(
        &format!("{wide}{bits}"),
        &format!("{}{due}", wide.replace("cyclic\n", "").replace("0123456789abcdef", "0 1 2 3 4 5 6 7 8 9 10 11 12 13 14 15")),
    );
    let packed: String = (0..32).map(|x| format!("{x:02X}")).collect();
    let numbers: String = (0..32).map(|x| format!(" {x}")).collect();
    same(&format!("m 5\ns 3\nS {packed}\nstage\n"), &format!("m 5\ns 3\nS{numbers}\nstage\nG{}\n", " 0".repeat(32)));
}

#[test]
fn every_command_that_reads_a_design_takes_a_text() {
    let folder = Folder::new();
    let texts = ["d", "box3", "present_g", "present_f"].map(|name| {
        let text = shell(&format!("jestrunas explain designs/{name}.bin")).out;
        folder.write(name, text.as_bytes())
    });
    let [d, box3, g, f] = &texts;
    prints(
        &format!("jestrunas judge {d} - < {box3}"),
        &format!("{d}: 0 1 0, 16 trials: accepted, 1 stage\n-: 0 1 0, 1024 trials: accepted, 1 stage\n"),
    );
    prints(&format!("jestrunas explain {box3} | cmp - {box3}"), "");
    prints(&format!("jestrunas run {box3} 6 1 1"), "shares 1 1 7\nsum 7\nS(6) 7\n");
    prints(&format!("jestrunas join {g} {f} -o - | cmp - designs/present.bin"), "");
    prints(&format!("jestrunas forecast {d} | head -n 3"), "workspace 1\ntrials 16\nterms 3\n");
    refuses("jestrunas assemble designs/d.bin -o -", "jestrunas: designs/d.bin: it is a design file already");
}

#[test]
fn a_text_that_is_refused() {
    let fault = "jestrunas: -:1:1: 'm' was due, and 'M' stands here\n";
    for command in ["judge -", "explain -", "run - 0 0 0", "join - designs/d.bin -o -", "forecast -", "assemble - -o -"] {
        assert_eq!(shell_with(&format!("jestrunas {command}"), b"M 3\n"), shown(1, "", fault), "{command}");
    }
    // `judge` goes on behind it
    let judged = shell_with("jestrunas judge - designs/d.bin", b"M 3\n");
    assert_eq!(judged, shown(1, "designs/d.bin: 0 1 0, 16 trials: accepted, 1 stage\n", fault));
    let json = shell_with("jestrunas judge --json -", b"M 3\n");
    assert_eq!(json, shown(1, "{\"file\":\"-\",\"line\":1,\"column\":1,\"words\":\"'m' was due, and 'M' stands here\"}\n", ""));
    // bytes that no text begins with are a design file
    assert_eq!(shell_with("jestrunas judge -", b"").out, "-: 1 0 0, 0 trials: the record at byte 0 is cut short\n");
    assert_eq!(
        shell_with("jestrunas judge -", b"m 3\0").out,
        "-: 2 0 0, 0 trials: the kind of the record at byte 0 is not the one due\n"
    );
}

#[test]
fn a_g_that_was_guessed_is_told() {
    // y3[0] is lost, so the components sum to 0 where share 1 is x
    let text = "m 1\ns 3\nS 01\nstage\nG 01\nstage\ny1[0] = x2[0]\ny2[0] = x3[0]\n";
    let judged = shell_with("jestrunas judge --why -", text.replace("stage\nG 01\n", "").as_bytes());
    assert_eq!(
        judged.out,
        "-: 10 0 0, 0 trials: the chain of tables is not S\n  at 1 the chain gives 0, S has 1; table by table 1 → 0; G of stage 1 was left out and guessed\n"
    );
    let text = "m 1\ns 3\nS 01\nstage\ny1[0] = x1[0]\ny2[0] = x2[0]·x3[0]\ny3[0] = x3[0]\n";
    let explained = shell_with("jestrunas explain -", text.as_bytes());
    let due = "\
# verdict: 12 1 0, 3 trials: stage 1 is not correct
#   stage 1, bit 0: the product x2[0] stands in no component
#   stage 1, bit 0: the product x2[0]·x3[0] stands in y2[0], and G has it not
#   the shares 0 1 0 of 1 become 0 0 0, which sum to 0, and G(1) is 1
#   G was left out and guessed: what the components sum to where share 1 is x and the others are 0
";
    assert!(explained.out.ends_with(due), "{}", explained.out);
    let json = shell_with("jestrunas judge --why --json -", text.as_bytes()).out;
    assert!(json.ends_with("\"due\":1,\"guessed\":true}}\n"), "{json}");
}

#[test]
fn what_a_text_leaves_out_is_told_by_each_command() {
    let text = "m 2\ns 3\nS 0123\nstage\ny1[0] = x2[0]\n";
    let told = "jestrunas: -:4:1: stage 1 leaves out y1[1], which is then 0\n";
    for command in ["judge -", "judge --json -", "explain -", "run - 0 0 0", "join - - -o -", "forecast -", "assemble - -o -"] {
        let command = command.replace("join - -", "join - /dev/null");
        assert!(shell_with(&format!("jestrunas {command}"), text.as_bytes()).err.starts_with(told), "{command}");
    }
}
