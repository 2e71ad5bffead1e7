//! The command `explain`.

use crate::samples::{longest, sample, samples};
use crate::shell::{prints, shell, shell_with, shown, tells, Folder, NO_FILE};

#[test]
fn explain() {
    let leaks = shell("jestrunas explain designs/leaks.bin");
    assert_eq!((leaks.status, leaks.err.as_str()), (0, ""));
    let grid = "\
# stage 1: each component, and the shares on which it depends
#     x1 x2 x3
#  y1  .  x  x
#  y2  x  x  x  every share
#  y3  x  x  .

# verdict: 13 1 2, 512 trials: component 2 of stage 1 depends on every share
#   share 2 stands in 1 term: y2[0]: x2[1]·x2[2]; component 1 or 3 may have it
#   share 1 stands in 2 terms: 2 of y2[0]
#     y2[0]: x1[2]·x3[1]; no other component may have it
#     y2[0]: x1[1]·x3[2]; no other component may have it
#   share 3 stands in 6 terms: 4 of y2[0], 1 of y2[1] and 1 of y2[2]
#     y2[0]: x3[0]; component 1 may have it
#     y2[0]: x1[2]·x3[1]; no other component may have it
#     y2[0]: x1[1]·x3[2]; no other component may have it
#     y2[0]: x3[1]·x3[2]; component 1 may have it
#     y2[1]: x3[1]; component 1 may have it
#     y2[2]: x3[2]; component 1 may have it
";
    assert!(leaks.out.ends_with(grid), "{}", leaks.out);
    // a long formula goes on in a line of its own
    let present = shell("jestrunas explain designs/present.bin").out;
    assert!(present.lines().all(|line| line.chars().count() <= 100), "{present}");
    assert!(present.contains("\n      + x"), "{present}");
    let cut = shell_with("jestrunas explain -", &sample("d.bin")[..40]);
    assert_eq!(cut, shown(1, "", "jestrunas: -: 1 35 0: the record at byte 35 is cut short\n"));
    tells("jestrunas explain none.bin", 2, &format!("jestrunas: none.bin: {NO_FILE}"));
}

#[test]
fn what_is_explained_is_assembled_again() {
    let folder = Folder::new();
    let (text, file) = (folder.of("text"), folder.of("file"));
    for name in samples() {
        let line = format!(
            "jestrunas explain designs/{name} > {text} && jestrunas assemble {text} -o {file} && cmp {file} designs/{name}"
        );
        prints(&line, "");
        assert_eq!(shell(&format!("jestrunas explain {file} | cmp - {text}")).status, 0);
    }
    assert_eq!(folder.names(), ["file", "text"]);
}

#[test]
fn the_text_of_the_longest_file_can_be_assembled() {
    let folder = Folder::new();
    let file = folder.write("longest", &longest());
    let line = format!("jestrunas explain {file} | jestrunas assemble - -o - | cmp - {file}");
    prints(&line, "");
}
