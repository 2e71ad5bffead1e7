//! The words behind `jestrunas`: commands, options, operands.

use crate::shell::{misuses, prints, shell, tells, Folder};

#[test]
fn wrong_use() {
    let misused = |line: &str, words: &str| tells(line, 2, &format!("jestrunas: {words}; see 'jestrunas --help'"));
    misused("jestrunas", "a command is due");
    misused("jestrunas jugde designs/d.bin", "there is no command jugde; the nearest is judge");
    misused("jestrunas frobnicate", "there is no command frobnicate");
    misused("jestrunas -x", "there is no option -x");
    misused("jestrunas --vresion", "there is no option --vresion; the nearest is --version");
    tells("jestrunas help jion", 2, "jestrunas help: there is no command jion; the nearest is join; see 'jestrunas help --help'");
    for (command, line, words) in [
        ("judge", "", "a design file is due"),
        ("judge", "- designs/d.bin -", "standard input can be read once"),
        ("judge", "--jsno designs/d.bin", "there is no option --jsno; the nearest is --json"),
        ("judge", "--json=yes designs/d.bin", "--json takes no value"),
        ("judge", "-3 designs/d.bin", "there is no option -3"),
        ("judge", "--jobs 0 designs/d.bin", "--jobs is 0, and 1 is the least"),
        ("judge", "-j two designs/d.bin", "--jobs is a number, and 'two' is none"),
        ("explain", "", "a design file is due"),
        ("explain", "designs/d.bin designs/d.bin", "'designs/d.bin' is one word too many"),
        ("assemble", "-o -", "a text is due"),
        ("assemble", "-", "-o is due"),
        ("forecast", "", "a design file is due"),
        ("help", "judge run", "'run' is one word too many"),
        ("completions", "", "a shell is due"),
        ("completions", "csh", "a shell is bash, zsh or fish, and 'csh' is none; the nearest is zsh"),
        ("man", "judge", "'judge' is one word too many"),
    ] {
        misuses(command, line, words);
    }
}

#[test]
fn a_value_stands_behind_its_option_in_each_known_way() {
    for options in ["-m 3 -s 3 -o -", "-m3 -s3 -o-", "-m=3 -s=3 --output=-", "--output - -s3 -m 3"] {
        prints(&format!("jestrunas produce {options} 01234576 | cmp - designs/box3.bin"), "");
    }
    misuses("produce", "-m3 -m=3 -s 3 01 -o -", "-m stands twice");
    misuses("produce", "-s 3 01 -o- --output -", "-o stands twice");
    misuses("produce", "-s 3 01 --output= -m", "-m has no value");
}

#[test]
fn help_and_version() {
    let version = format!("jestrunas {}\n", env!("CARGO_PKG_VERSION"));
    for line in ["jestrunas --version", "jestrunas -V", "jestrunas judge -V", "jestrunas produce one two --version"] {
        prints(line, &version);
    }
    let all = shell("jestrunas --help").out;
    prints("jestrunas -h", &all);
    prints("jestrunas help", &all);
    let judge = shell("jestrunas judge --help").out;
    prints("jestrunas judge -h", &judge);
    prints("jestrunas help judge", &judge);
}

/// What bash offers for the last of these words.
fn offered(words: &str) -> Vec<String> {
    let line = format!(
        "source <(jestrunas completions bash); COMP_WORDS=({words}); COMP_CWORD=$((${{#COMP_WORDS[@]}} - 1)); _jestrunas; \
         printf '%s\\n' \"${{COMPREPLY[@]}}\""
    );
    let shown = shell(&line);
    assert_eq!((shown.status, shown.err.as_str()), (0, ""));
    let mut offered: Vec<String> = shown.out.lines().map(str::to_owned).collect();
    offered.sort();
    offered
}

#[test]
fn bash_completes() {
    assert_eq!(offered("jestrunas j"), ["join", "judge"]);
    assert_eq!(offered("jestrunas help pr"), ["produce"]);
    assert_eq!(offered("jestrunas completions ''").len(), 3);
    assert_eq!(offered("jestrunas judge --js"), ["--json"]);
    assert_eq!(offered("jestrunas judge designs/present_"), ["designs/present_f.bin", "designs/present_g.bin"]);
    assert_eq!(offered("jestrunas produce -o designs/present_").len(), 2);
    // a name with a space is one
    let folder = Folder::new();
    let file = folder.write("a b", b"");
    assert_eq!(offered(&format!("jestrunas judge {}", folder.of("a"))), [file]);
    // a number is not to be completed
    assert_eq!(offered("jestrunas produce -m ''"), [""]);
}

#[test]
fn every_shell_is_told_every_command_and_option() {
    let pages: Vec<String> = ["bash", "zsh", "fish"].map(|of| shell(&format!("jestrunas completions {of}")).out).to_vec();
    let all = shell("jestrunas --help").out;
    let man = shell("jestrunas man").out;
    for line in all.lines().filter_map(|line| line.strip_prefix("  jestrunas ")) {
        let name = line.split(' ').next().unwrap();
        let page = shell(&format!("jestrunas {name} -h")).out;
        let options = page.split_whitespace().filter_map(|word| word.strip_prefix("--")).map(|word| word.trim_end_matches(','));
        for word in options.chain([name]).filter(|word| word.chars().all(char::is_alphabetic) && !word.is_empty()) {
            assert!(pages.iter().all(|page| page.contains(word)), "{word}");
            assert!(man.contains(word), "{word}");
        }
    }
}

#[test]
fn the_man_page_is_set_without_a_warning() {
    assert!(shell("jestrunas man").out.starts_with(".TH JESTRUNAS 1\n"));
    // no line is taken for a request that is none of these
    let requests: Vec<String> =
        shell("jestrunas man | grep -o '^[.][A-Za-z]*' | sort -u").out.lines().map(str::to_owned).collect();
    assert_eq!(requests, [".PP", ".RE", ".RS", ".SH", ".SS", ".TH", ".TP", ".fi", ".nf"]);
}

#[test]
fn answers_as_json() {
    for (line, due) in [
        ("forecast - < <(head -c 7 designs/d.bin)", r#"{"file":"-","workspace":1,"trials":16}"#),
        ("run designs/box3.bin 6 1 1", r#"{"file":"designs/box3.bin","shares":[1,1,7],"sum":7,"secret":6,"due":7}"#),
        ("transform 01234576", r#"{"m":3,"words":[0,1,2,0,4,0,1,0]}"#),
        ("produce -s 3 01234576 -o /dev/null", r#"{"file":"/dev/null","bytes":143}"#),
        ("join designs/d.bin designs/d.bin -o /dev/null", r#"{"file":"/dev/null","bytes":77}"#),
        (
            "explain designs/d.bin",
            "{\"file\":\"designs/d.bin\",\"reason\":0,\"place\":1,\"component\":0,\"trials\":16,\"words\":\"accepted, 1 stage\",\
             \"m\":1,\"s\":3,\"S\":[0,1],\"stages\":[{\"G\":[0,1],\"components\":[{\"depends\":[2],\"formulas\":[\"x2[0]\"]},\
             {\"depends\":[3],\"formulas\":[\"x3[0]\"]},{\"depends\":[1],\"formulas\":[\"x1[0]\"]}]}]}",
        ),
    ] {
        prints(&format!("jestrunas {line} --json"), &format!("{due}\n"));
    }
    prints(
        "jestrunas explain designs/d.bin | jestrunas assemble --json -o /dev/null -",
        "{\"file\":\"/dev/null\",\"bytes\":47}\n",
    );
    misuses("join", "--json designs/d.bin designs/d.bin -o -", "--json and '-o -' would both write to standard output");
}

#[test]
fn refusals_as_json() {
    for (line, status, due) in [
        (
            "explain - < /dev/zero",
            1,
            r#"{"file":"-","reason":2,"place":0,"component":0,"words":"the kind of the record at byte 0 is not the one due"}"#,
        ),
        ("produce -s 3 00 -o none", 1, r#"{"reason":8,"words":"the box repeats an entry","why":{"at":[0,1],"entry":0}}"#),
        ("forecast none.bin", 2, r#"{"file":"none.bin","error":"No such file or directory (os error 2)"}"#),
        (
            "assemble - -o none < /dev/null",
            1,
            r#"{"file":"-","line":1,"column":1,"words":"'m' was due, and the text ends here"}"#,
        ),
        (
            "join designs/d.bin designs/box3.bin -o none",
            1,
            r#"{"reason":19,"words":"the widths or the share counts of the two designs differ","why":{"m":[1,3],"s":[3,3]}}"#,
        ),
    ] {
        let (command, rest) = line.split_once(' ').unwrap();
        let shown = shell(&format!("jestrunas {command} --json {rest}"));
        assert_eq!((shown.status, shown.err.as_str(), shown.out), (status, "", format!("{due}\n")), "{line}");
    }
}
