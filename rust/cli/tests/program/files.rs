//! Files that are read and written.

use crate::samples::{longest, sample};
use crate::shell::{prints, refuses, root, shell, shown, tells, Folder, NO_FILE, PROGRAM};
use std::process::{Command, Stdio};

#[test]
fn any_name_stays_in_its_line() {
    let folder = Folder::new();
    folder.write("a \"b\"\\c\nd", b"");
    let place = folder.of("");
    assert_eq!(
        shell(&format!("cd {place} && jestrunas judge *")),
        shown(1, "a \"b\"\\c\\nd: 1 0 0, 0 trials: the record at byte 0 is cut short\n", "")
    );
    assert_eq!(
        shell(&format!("cd {place} && jestrunas judge --json -- *")).out,
        "{\"file\":\"a \\\"b\\\"\\\\c\\u000ad\",\"reason\":1,\"place\":0,\"component\":0,\"trials\":0,\
         \"words\":\"the record at byte 0 is cut short\"}\n"
    );
    // a name that is no UTF-8, and one that looks like an option
    assert_eq!(
        shell(&format!("cd {place} && cp /dev/null $'\\xff' && jestrunas judge $'\\xff'")).out,
        "\u{fffd}: 1 0 0, 0 trials: the record at byte 0 is cut short\n"
    );
    let json = |name: &str| shell(&format!("cd {place} && cp /dev/null {name} && jestrunas judge --json {name}")).out;
    let due = |bytes: &str| {
        format!("{{\"file\":\"\u{fffd}\"{bytes},\"reason\":1,\"place\":0,\"component\":0,\"trials\":0,\"words\":\"the record at byte 0 is cut short\"}}\n")
    };
    // two such names, and a name that looks as they do
    assert_eq!(json("$'\\xff'"), due(",\"file_bytes\":[255]"));
    assert_eq!(json("$'\\xfe'"), due(",\"file_bytes\":[254]"));
    assert_eq!(json("\u{fffd}"), due(""));
    assert_eq!(
        shell(&format!("cd {place} && cp /dev/null ./--json && jestrunas judge -- --json")).out,
        "--json: 1 0 0, 0 trials: the record at byte 0 is cut short\n"
    );
}

#[test]
fn a_long_file_is_refused_as_the_whole_of_it() {
    let folder = Folder::new();
    let longest = longest();
    let file = folder.write("longest", &longest);
    assert_eq!(shell(&format!("jestrunas forecast {file} | head -n 3")).out, "workspace 131072\ntrials 8388608\nterms 327680\n");
    prints(&format!("jestrunas forecast {file} | tail -n 1 | grep -c '^seconds [0-9.]*[1-9]'"), "1\n");
    // it reads: its chain is S, and its first stage is not correct
    assert_eq!(shell(&format!("jestrunas judge {file}")).out, format!("{file}: 12 1 0, 2 trials: stage 1 is not correct\n"));
    for more in [1, 2, 1_000_000] {
        let file = folder.write("longer", &[&longest[..], &vec![0; more]].concat());
        let due = format!("{file}: 7 {} 0, 0 trials: bytes follow the end, from byte {0}\n", longest.len());
        assert_eq!(shell(&format!("jestrunas judge {file}")).out, due);
    }
    // an input without end
    assert_eq!(
        shell("cat designs/d.bin /dev/zero | jestrunas judge -; true").out,
        "-: 7 47 0, 0 trials: bytes follow the end, from byte 47\n"
    );
}

#[test]
fn what_fails_writes_no_file() {
    let folder = Folder::new();
    let text = folder.write("text", b"m 3\ns 3\nS 0 1 2 3 4 5 7 8\n");
    let old = folder.write("old", b"what was there");
    let none = folder.of("none");
    let due = "3:17: S of 7, a number from 0 to 7, was due, and '8' stands here";
    for file in [&none, &old] {
        refuses(&format!("jestrunas assemble {text} -o {file}"), &format!("jestrunas: {text}:{due}"));
        refuses(
            &format!("jestrunas produce -m 4 -s 3 0123456789ABCDFE -o {file}"),
            "jestrunas: 16: the degree is the number of shares or more: bit 0 has degree 3 by x[1]·x[2]·x[3], bit 1 has degree 1 by \
             x[1], bit 2 has degree 1 by x[2] and bit 3 has degree 1 by x[3]; 4 shares would do",
        );
        refuses(
            &format!("jestrunas join designs/d.bin designs/box3.bin -o {file}"),
            "jestrunas: 19: the widths or the share counts of the two designs differ: m is 1 and s is 3 in the first, m is 3 and s is 3 in \
             the second",
        );
    }
    assert_eq!(std::fs::read(&old).unwrap(), b"what was there");
    assert_eq!(folder.names(), ["old", "text"]);

    // a file that cannot be written
    let produce = "jestrunas produce -m 1 -s 3 01 -o";
    tells(&format!("{produce} {none}/box"), 2, &format!("jestrunas: {none}/box: {NO_FILE}"));
    tells(&format!("{produce} {old}/box"), 2, &format!("jestrunas: {old}/box: Not a directory (os error 20)"));
    tells(&format!("{produce} /dev/full"), 2, "jestrunas: /dev/full: No space left on device (os error 28)");
    tells(&format!("{produce} - > /dev/full"), 2, "jestrunas: standard output: No space left on device (os error 28)");
    let folder_path = folder.of("");
    tells(&format!("{produce} {folder_path}"), 2, &format!("jestrunas: {folder_path}: Is a directory (os error 21)"));
    // one that breaks off: the limit lets a file grow to 0 bytes alone, and its signal is ignored
    tells(
        &format!("trap '' XFSZ; ulimit -f 0; {produce} {none}"),
        2,
        &format!("jestrunas: {none}: File too large (os error 27)"),
    );
    assert_eq!(folder.names(), ["old", "text"]);
}

#[test]
fn nothing_is_written_over_an_input() {
    let folder = Folder::new();
    let box3 = folder.write("box3", &sample("box3.bin"));
    let text = folder.write("text", shell("jestrunas explain designs/d.bin").out.as_bytes());
    let words = "it is an input, and nothing is written over an input";
    for link in ["hard", "soft"] {
        let name = folder.of(link);
        prints(&format!("ln {} {text} {name}", if link == "soft" { "-s" } else { "" }), "");
        tells(&format!("jestrunas assemble {text} -o {name}"), 2, &format!("jestrunas: {name}: {words}"));
    }
    tells(&format!("jestrunas assemble {text} -o {text}"), 2, &format!("jestrunas: {text}: {words}"));
    tells(&format!("jestrunas assemble - -o {text} < {text}"), 2, &format!("jestrunas: {text}: {words}"));
    for [first, second] in [[&box3, "designs/box3.bin"], ["designs/box3.bin", &box3]] {
        tells(&format!("jestrunas join {first} {second} -o {box3}"), 2, &format!("jestrunas: {box3}: {words}"));
    }
    assert_eq!(std::fs::read(&box3).unwrap(), sample("box3.bin"));
    assert!(std::fs::read(&text).unwrap().starts_with(b"m 1\n"));
}

#[test]
fn a_file_is_replaced() {
    let folder = Folder::new();
    let file = folder.write("file", b"what was there");
    let link = folder.of("link");
    prints(&format!("chmod 640 {file} && ln -s {file} {link}"), "");
    // through a link too, which stays one
    prints(
        &format!("jestrunas produce -m 3 -s 3 01234576 -o {link} && cmp {file} designs/box3.bin && stat -c %a {file}"),
        "640\n",
    );
    prints(&format!("readlink {link}"), &format!("{file}\n"));
    assert_eq!(folder.names(), ["file", "link"]);
    // a new file is as the shell would make it
    let other = folder.of("other");
    prints(&format!("umask 027; jestrunas produce -m 3 -s 3 01234576 -o {other} && stat -c %a {other}"), "640\n");
}

#[test]
fn an_output_that_nobody_reads_ends_it() {
    let mut child = Command::new(PROGRAM)
        .args(["explain", "designs/keccak4.bin"])
        .current_dir(root())
        .stdout(Stdio::piped())
        .stderr(Stdio::piped())
        .spawn()
        .unwrap();
    drop(child.stdout.take());
    let done = child.wait_with_output().unwrap();
    assert_eq!((done.status.code(), done.stderr.len()), (Some(2), 0));
    // where nothing can be told, the status still says it
    assert_eq!(shell("jestrunas judge none.bin 2> /dev/full").status, 2);
    assert_eq!(shell("jestrunas jugde 2> /dev/full").status, 2);
}
