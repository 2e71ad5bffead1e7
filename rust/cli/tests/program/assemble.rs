//! The command `assemble`.

use crate::samples::{term, text_head};
use crate::shell::{refuses, shell, shell_with, shown, tells, Folder, NO_FILE};

#[test]
fn assemble() {
    let folder = Folder::new();
    let file = folder.of("file");
    let text = "m 1 # one bit\ns 3\r\n\nS 0\n1\nstage\ny3[0]=x1[0]\n y1[0] = # share 2\n x2[0]\ny2[0] = x3[0]";
    let assembled = shell_with(&format!("jestrunas assemble - -o {file} && cmp {file} designs/d.bin"), text.as_bytes());
    assert_eq!(assembled, shown(0, "", ""));
    tells("jestrunas assemble none.txt -o -", 2, &format!("jestrunas: none.txt: {NO_FILE}"));
    refuses(
        "(echo 'm 3'; printf '# caf\\xe9') | jestrunas assemble - -o -",
        "jestrunas: -:2:6: UTF-8 was due, and a byte that is none stands here",
    );
    refuses("printf '\\0' | jestrunas assemble - -o -", "jestrunas: -:1:1: 'm' was due, and '\\0' stands here");
    refuses(
        "echo aaaaaaaaaaaaaaaaaaaaaaaaa | jestrunas assemble - -o -",
        "jestrunas: -:1:1: 'm' was due, and 'aaaaaaaaaaaaaaaaaaaa...' stands here",
    );
    // an input without end
    assert_eq!(shell("yes '#' | jestrunas assemble - -o -; true").err, "jestrunas: -: the text is longer than 67108864 bytes\n");
    // 4,096 terms of 12 variables, and one more
    let terms: Vec<String> = (0..4097).map(term).collect();
    let formula = |terms: &[String]| format!("{}\nstage\ny1[0] = {}", text_head(), terms.join("\n^ "));
    let most = shell_with("jestrunas assemble - -o - | jestrunas forecast - | head -n 3", formula(&terms[..4096]).as_bytes());
    let left_out = "jestrunas: -:4:1: stage 1 leaves out y1[1], y1[2], y1[3] and y1[4], which are then 0\n";
    assert_eq!(most, shown(0, "workspace 4096\ntrials 65536\nterms 4096\n", left_out));
    assert_eq!(
        shell_with("jestrunas assemble - -o -", formula(&terms).as_bytes()),
        shown(1, "", "jestrunas: -:4101:3: a formula has at most 4096 terms, and this is one more\n")
    );
}
