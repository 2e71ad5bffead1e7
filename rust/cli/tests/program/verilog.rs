//! `verilog` as a person meets it; tests/verilog simulates what it writes.

use crate::shell::{misuses, prints, refuses, tells, Folder, NO_FILE};
use std::fs;

#[test]
fn verilog() {
    let folder = Folder::new();
    let made = folder.of("made/there");
    prints(&format!("jestrunas verilog designs/present.bin -o {made} && ls {made}"), "present.v\npresent_test.v\n");
    prints(
        &format!("jestrunas verilog --yosys --name p2 designs/present.bin -o {made} && ls {made}"),
        "p2.v\np2.ys\np2_test.v\npresent.v\npresent_test.v\n",
    );
    let modules = fs::read_to_string(format!("{made}/p2.v")).unwrap();
    assert!(modules.contains("// verdict: 0 2 0, 16384 trials: accepted, 2 stages\n"));
    assert_eq!(modules.matches("\nmodule p2_").count(), 7);
    // without attributes, the synthesis is free to merge
    assert_eq!(modules.matches("keep_hierarchy = \"yes\"").count(), 7);
    assert!(modules.lines().all(|line| line.len() <= 110));
    let one = folder.of("one");
    let json = format!("{{\"file\":\"{one}\",\"name\":\"d\",\"files\":[\"d.v\",\"d_test.v\"]}}\n");
    prints(&format!("jestrunas verilog designs/d.bin --json -o {one}"), &json);
}

#[test]
fn names() {
    let folder = Folder::new();
    let written = |line: &str, names: &str| prints(&format!("cd {} && {line} && ls -d *.v", folder.of("")), names);
    let design = std::path::Path::new(env!("CARGO_MANIFEST_DIR")).join("../../designs/d.bin");
    let design = design.display();
    written(
        &format!("cp {design} 3-bits.x.bin && jestrunas verilog 3-bits.x.bin -o ."),
        "design3_bits_x.v\ndesign3_bits_x_test.v\n",
    );
    written(&format!("rm *.v; jestrunas verilog - -o . < {design}"), "design.v\ndesign_test.v\n");
    written("rm *.v; jestrunas explain 3-bits.x.bin > text.txt && jestrunas verilog text.txt -o .", "text.v\ntext_test.v\n");
    written("rm *.v; cp 3-bits.x.bin _a.bin && jestrunas verilog _a.bin -o .", "_a.v\n_a_test.v\n");
}

#[test]
fn what_is_refused_is_not_written() {
    let folder = Folder::new();
    let made = folder.of("made");
    let verdict = "13 1 2, 512 trials: component 2 of stage 1 depends on every share";
    refuses(
        &format!("jestrunas verilog designs/leaks.bin -o {made}"),
        &format!(
            "jestrunas: designs/leaks.bin: {verdict}: share 2 stands in 1 term: y2[0]: x2[1]·x2[2]; component 1 or 3 may have it; with \
             --force it is written all the same"
        ),
    );
    assert!(folder.names().is_empty());
    prints(&format!("jestrunas verilog --force designs/leaks.bin -o {made} && ls {made}"), "leaks.v\nleaks_test.v\n");
    let modules = fs::read_to_string(format!("{made}/leaks.v")).unwrap();
    assert!(modules.contains(&format!("// verdict: {verdict}\n")));
    assert!(modules.contains("// component 2 of stage 1: it reads x1, x2 and x3, every share: it is not non-complete\n"));
    refuses(
        &format!("head -c 40 designs/d.bin | jestrunas verilog --force - -o {made}"),
        "jestrunas: -: 1 35 0: the record at byte 35 is cut short",
    );
}

#[test]
fn wrong_use() {
    tells("jestrunas verilog none.bin -o target", 2, &format!("jestrunas: none.bin: {NO_FILE}"));
    tells("jestrunas verilog designs/d.bin -o designs/d.bin", 2, "jestrunas: designs/d.bin: File exists (os error 17)");
    misuses("verilog", "designs/d.bin", "-o is due");
    for name in ["3x", "a-b", "", "ä"] {
        misuses(
            "verilog",
            &format!("designs/d.bin -o target --name '{name}'"),
            &format!("--name has letters, digits and _, and no digit first: '{name}' is none"),
        );
    }
}
