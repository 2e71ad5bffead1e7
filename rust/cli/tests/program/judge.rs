//! The command `judge`.

use crate::samples::{one_bit, sample};
use crate::shell::{prints, shell, shell_with, shown, Folder, NO_FILE};

#[test]
fn judge() {
    prints("jestrunas judge designs/present.bin", "designs/present.bin: 0 2 0, 16384 trials: accepted, 2 stages\n");
    assert_eq!(
        shell("jestrunas judge designs/uneven.bin designs/d.bin"),
        shown(
            1,
            "designs/uneven.bin: 14 1 0, 650 trials: stage 1 is not uniform\n\
             designs/d.bin: 0 1 0, 16 trials: accepted, 1 stage\n",
            ""
        )
    );
    assert_eq!(
        shell_with("jestrunas judge - designs/d.bin", &sample("d.bin")[..40]),
        shown(
            1,
            "-: 1 35 0, 0 trials: the record at byte 35 is cut short\n\
             designs/d.bin: 0 1 0, 16 trials: accepted, 1 stage\n",
            ""
        )
    );
}

#[test]
fn judge_says_what_the_samples_say() {
    let list = |name| String::from_utf8(sample(name)).unwrap();
    let (verdicts, trials) = (list("verdicts.txt"), list("trials.txt"));
    let all = shell("cd designs && jestrunas judge $(cut -d ' ' -f 1 verdicts.txt)");
    assert_eq!((all.status, all.err.as_str()), (1, ""));
    let said: Vec<&str> = all.out.lines().map(|line| line.rsplit_once(": ").unwrap().0).collect();
    let due = |(verdict, trials): (&str, &str)| {
        format!("{}, {} trials", verdict.replacen(' ', ": ", 1), trials.rsplit_once(' ').unwrap().1)
    };
    assert_eq!(said, verdicts.lines().zip(trials.lines()).map(due).collect::<Vec<String>>());
}

#[test]
fn judge_tells_each_refusal() {
    let end = [0, 0, 4, 0];
    for (file, due, why) in [
        (vec![3, 0, 1], "1 0 0, 0 trials: the record at byte 0 is cut short", ""),
        (one_bit([0, 1], [0, 1], &[0, 0, 2, 0]), "2 43 0, 0 trials: the kind of the record at byte 43 is not the one due", ""),
        (one_bit([0, 1], [0, 1], &[1, 0, 4, 0]), "3 43 0, 0 trials: the length of the record at byte 43 is not the one due", ""),
        (vec![3, 0, 1, 0, 7, 3, 1], "4 0 0, 0 trials: a number of the head breaks a limit", "m is 7, and 1 to 6 are allowed"),
        (one_bit([0, 1], [0, 2], &end), "5 13 0, 0 trials: the table at byte 13 has an entry that is 2^m or more", "the entry of 1 is 2, at most 1, which is 2^m - 1"),
        (
            [&one_bit([0, 1], [0, 1], &[])[..35], &[4, 0, 3, 0, 8, 0, 0, 0]].concat(),
            "6 35 0, 0 trials: the list at byte 35 has a term beyond m * s or one that does not rise",
            "",
        ),
        (one_bit([0, 1], [0, 1], &[0, 0, 4, 0, 7]), "7 47 0, 0 trials: bytes follow the end, from byte 47", ""),
        (one_bit([1, 1], [0, 1], &end), "8 0 0, 0 trials: the box repeats an entry", "S(0) and S(1) are both 1"),
        (one_bit([1, 0], [0, 1], &end), "10 0 0, 0 trials: the chain of tables is not S", "at 0 the chain gives 0, S has 1; table by table 0 → 0"),
        (
            one_bit([1, 0], [1, 0], &end),
            "12 1 0, 1 trial: stage 1 is not correct",
            "stage 1, bit 0: the product 1 stands in no component; the shares 0 0 0 of 0 become 0 0 0, which sum to 0, and G(0) is 1",
        ),
    ] {
        assert_eq!(shell_with("jestrunas judge -", &file), shown(1, &format!("-: {due}\n"), ""));
        let why = if why.is_empty() { String::new() } else { format!("  {why}\n") };
        assert_eq!(shell_with("jestrunas judge --why -", &file), shown(1, &format!("-: {due}\n{why}"), ""));
    }
    // 13 and 14 are those of samples
}

#[test]
fn judge_goes_on_behind_a_file_that_cannot_be_had() {
    let accepted = "designs/d.bin: 0 1 0, 16 trials: accepted, 1 stage\n";
    assert_eq!(
        shell("jestrunas judge designs/none.bin designs/d.bin"),
        shown(2, accepted, &format!("jestrunas: designs/none.bin: {NO_FILE}\n"))
    );
    // 2 stands for all that went wrong
    let both = shell("jestrunas judge designs designs/leaks.bin");
    assert_eq!((both.status, both.err.as_str()), (2, "jestrunas: designs: Is a directory (os error 21)\n"));
}

#[test]
fn judge_as_json() {
    assert_eq!(
        shell("jestrunas judge --json designs/d.bin designs/leaks.bin"),
        shown(
            1,
            "{\"file\":\"designs/d.bin\",\"reason\":0,\"place\":1,\"component\":0,\"trials\":16,\"words\":\"accepted, 1 stage\"}\n\
             {\"file\":\"designs/leaks.bin\",\"reason\":13,\"place\":1,\"component\":2,\"trials\":512,\
             \"words\":\"component 2 of stage 1 depends on every share\"}\n",
            ""
        )
    );
    assert_eq!(
        shell("jestrunas judge none.bin --json"),
        shown(2, &format!("{{\"file\":\"none.bin\",\"error\":\"{NO_FILE}\"}}\n"), "")
    );
}

#[test]
fn judging_side_by_side_prints_in_order() {
    // the first ones take longest, and one cannot be had
    let names = ["keccak4", "keccak4_placed", "none", "placed", "present", "box3", "leaks", "d"]
        .map(|name| format!("designs/{name}.bin"));
    let files = names.join(" ");
    let one = shell(&format!("jestrunas judge --why --jobs 1 {files}"));
    assert_eq!((one.status, one.out.lines().count()), (2, 8));
    for jobs in ["-j2", "--jobs=4", "--jobs 100", ""] {
        assert_eq!(shell(&format!("jestrunas judge --why {jobs} {files}")), one, "{jobs}");
    }
}

#[test]
fn progress_shows_on_a_terminal_alone() {
    let files = "designs/d.bin ".repeat(20);
    let lines = "designs/d.bin: 0 1 0, 16 trials: accepted, 1 stage\n".repeat(20);
    prints(&format!("jestrunas judge {files}"), &lines);
    // standard error is a terminal, standard output is none
    let on_terminal = |files: &str| {
        let folder = Folder::new();
        let out = folder.of("out");
        let terminal = shell(&format!("script -qec 'jestrunas judge {files} > {out}' /dev/null < /dev/null"));
        assert_eq!(std::fs::read_to_string(out).unwrap().lines().count(), files.split_whitespace().count());
        terminal.out
    };
    let clear = "\r\x1b[K";
    let shown: String = (1..20).map(|i| format!("{clear}{i} of 20, 1 s left{clear}")).collect();
    assert_eq!(on_terminal(&files), format!("{clear}{shown}"));
    // a list that is not long
    assert_eq!(on_terminal("designs/d.bin"), "");
    // both are a terminal: a line takes the place of the progress before it
    let both = shell(&format!("script -qec 'jestrunas judge {files}' /dev/null < /dev/null")).out;
    let line = "designs/d.bin: 0 1 0, 16 trials: accepted, 1 stage\r\n";
    assert_eq!(both.matches(line).count(), 20);
    assert_eq!(both.replace(line, ""), format!("{clear}{shown}"));
}
