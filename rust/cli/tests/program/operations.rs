//! The commands that ask one operation of the library.

use crate::samples::sample;
use crate::shell::{misuses, prints, refuses, shell, tells, NO_FILE};

#[test]
fn produce() {
    prints("jestrunas produce -m 3 -s 3 01234576 -o - | cmp - designs/box3.bin", "");
    prints("jestrunas produce 01234576 -o - -s 3 -m 3 --placement 313221 | cmp - designs/box3.bin", "");
    prints("jestrunas produce --placement 41322143313221 -m 3 -s 4 01243675 -o - | cmp - designs/placed.bin", "");
    let keccak = "0009120B050C160F0a0318010D041E0714150617111002131A1B08191D1C0E1F";
    prints(&format!("jestrunas produce -m 5 -s 3 {keccak} -o - | cmp - designs/keccak3.bin"), "");
    // the width follows from the length, and both notations are one
    prints("jestrunas produce -s 3 01234576 -o - | cmp - designs/box3.bin", "");
    prints("jestrunas produce -s 3 ' 0 1  2 3 4 5 7 6' -o - | cmp - designs/box3.bin", "");
    prints(&format!("jestrunas produce -s 3 {keccak} -o - | cmp - designs/keccak3.bin"), "");
    for (line, words) in [
        ("-s 3 0123456", "3: a length is not the one due: 7 entries of 8, which is 2^m"),
        ("-s 3 '0 1 2 3 4 5 6'", "3: a length is not the one due: 7 entries of 8, which is 2^m"),
        ("-s 3 '0 256'", "5: an entry is 2^m or more: the entry of 1 is 256, at most 1, which is 2^m - 1"),
        ("-m 1 -s 2 01", "4: a number breaks a limit: s is 2, and 3 to 5 are allowed"),
        ("-m 5 -s 5 01", "4: a number breaks a limit: s is 5 and m is 5: m × s is 25, at most 20"),
        ("-m 0 -s 3 0", "4: a number breaks a limit: m is 0, and 1 to 6 are allowed"),
        ("-m 99999999999999999999 -s 3 01", "4: a number breaks a limit: m is 18446744073709551615, and 1 to 6 are allowed"),
        ("-m 1 -s 3 010", "3: a length is not the one due: 3 entries of 2, which is 2^m"),
        ("-m 1 -s 3 ''", "3: a length is not the one due: 0 entries of 2, which is 2^m"),
        ("-m 1 -s 3 02", "5: an entry is 2^m or more: the entry of 1 is 2, at most 1, which is 2^m - 1"),
        ("-m 1 -s 3 00", "8: the box repeats an entry: S(0) and S(1) are both 0"),
        (
            "-m 4 -s 3 0123456789ABCDFE",
            "16: the degree is the number of shares or more: bit 0 has degree 3 by x[1]·x[2]·x[3], bit 1 has degree 1 by x[1], bit 2 has \
             degree 1 by x[2] and bit 3 has degree 1 by x[3]; 4 shares would do",
        ),
        (
            "-m 6 -s 3 000102030405060708090A0B0C0D0E0F101112131415161718191A1B1C1D1E1F202122232425262728292A2B2C2D2E2F3031323334353637\
             38393A3B3C3D3F3E",
            "16: the degree is the number of shares or more: bit 0 has degree 5 by x[1]·x[2]·x[3]·x[4]·x[5], bit 1 has degree 1 by x[1], \
             bit 2 has degree 1 by x[2], bit 3 has degree 1 by x[3], bit 4 has degree 1 by x[4] and bit 5 has degree 1 by x[5]; 6 shares \
             would do, but s is at most 5 and m × s at most 20: a chain of stages of lower degree may",
        ),
        (
            "-m 3 -s 3 01234576 --placement 31322",
            "21: the placement does not load: its length is not 2^s - 2, or a byte is not a component outside its set: 5 bytes of \
             6, which is 2^s - 2",
        ),
        (
            "-m 3 -s 3 01234576 --placement 313220",
            "21: the placement does not load: its length is not 2^s - 2, or a byte is not a component outside its set: byte 6, \
             of shares 2 and 3, is 0, and may be 1",
        ),
        (
            "-m 3 -s 3 01234576 --placement 113221",
            "21: the placement does not load: its length is not 2^s - 2, or a byte is not a component outside its set: byte 1, \
             of share 1, is 1, and may be 2 or 3",
        ),
    ] {
        refuses(&format!("jestrunas produce {line} -o -"), &format!("jestrunas: {words}"));
    }
    let misused = |line: &str, words: &str| misuses("produce", line, words);
    misused("-m 1 01 -o -", "-s is due");
    misused("-m 1 -s 3 01", "-o is due");
    misused("-m 1 -s 3 -o -", "a table is due");
    misused("-m 1 -s 3 01 10 -o -", "'10' is one word too many");
    misused("-m one -s 3 01 -o -", "-m is a number, and 'one' is none");
    misused("-m 1 -s +3 01 -o -", "-s is a number, and '+3' is none");
    misused("-m '' -s 3 01 -o -", "-m is a number, and '' is none");
    misused("-m 1 -s 3 0g -o -", "a table has hexadecimal digits alone, and 'g' is none");
    misused("-m 1 -s 3 01 --placement a13221 -o -", "a placement has decimal digits alone, and 'a' is none");
    misused("-m 5 -s 3 010 -o -", "a table has two digits an entry, as m is above 4, and the last entry has one");
    misused("-m 1 -s 3 01 -o", "-o has no value");
    misused("-m 1 -m 1 -s 3 01 -o -", "-m stands twice");
}

#[test]
fn run() {
    for shares in [[1, 2, 4], [0, 0, 7], [15, 15, 7]] {
        let [a, b, c] = shares;
        let (_, [x, y, z, ..]) = reference::run(&sample("present.bin"), [a, b, c, 0, 0]);
        // PRESENT sends 7 to 13
        prints(&format!("jestrunas run designs/present.bin {a} {b} {c}"), &format!("shares {x} {y} {z}\nsum 13\nS(7) 13\n"));
    }
    // a design that is not correct at this sharing
    prints(
        "printf 'm 1\\ns 3\\nS 0 1\\nstage\\nG 0 1\\n' | jestrunas assemble - -o - | jestrunas run - 1 0 0",
        "shares 0 0 0\nsum 0\nS(1) 1\n",
    );
    for share in ["8", "255", "256", "4294967296"] {
        refuses(
            &format!("jestrunas run designs/box3.bin 0 {share} 8"),
            &format!("jestrunas: 15: a used share is 2^m or more, or an unused one is not 0: share 2 is {share}, at most 7, which is 2^m - 1"),
        );
    }
    assert_eq!(shell("jestrunas run designs/box3.bin 0 0 99999999999999999999").status, 1);
    refuses("head -c 40 designs/d.bin | jestrunas run - 0 0 0", "jestrunas: -: 1 35 0: the record at byte 35 is cut short");
    tells("jestrunas run none.bin 0 0 0", 2, &format!("jestrunas: none.bin: {NO_FILE}"));
    let misused = |line: &str, words: &str| misuses("run", line, words);
    misused("", "a design file is due");
    misused("designs/d.bin 0 0", "the design has 3 shares, and 2 are given");
    misused("designs/d.bin 0 0 0 0", "the design has 3 shares, and 4 are given");
    misused("designs/d.bin 0 0 0x1", "a share is a number, and '0x1' is none");
}

#[test]
fn forecast() {
    prints("jestrunas forecast designs/keccak4.bin | head -n 3", "workspace 131072\ntrials 2097152\nterms 120\n");
    prints("jestrunas forecast designs/keccak4.bin | tail -n 1 | grep -cE '^seconds [0-9.]+$'", "1\n");
    prints(
        "jestrunas forecast --json designs/keccak4.bin | sed 's/\"seconds\":[0-9.]*[1-9][0-9.]*/SECONDS/'",
        "{\"file\":\"designs/keccak4.bin\",\"workspace\":131072,\"trials\":2097152,\"terms\":120,SECONDS}\n",
    );
    // the head record is enough, and of a file that does not read there is no more
    prints("head -c 7 designs/keccak4.bin | jestrunas forecast -", "workspace 131072\ntrials 2097152\n");
    prints("head -c 100 designs/keccak4.bin | jestrunas forecast -", "workspace 131072\ntrials 2097152\n");
    // a design of which no sharing is tried, since a table repeats an entry, and one that is not correct
    for stage in ["G 00", "G 10\\ny1[0] = x2[0]·x3[0]", "y1[0] = x1[0]"] {
        let terms = usize::from(stage.contains('x'));
        let text = format!("printf 'm 1\\ns 3\\nS 01\\nstage\\n{stage}\\n'");
        prints(&format!("{text} | jestrunas forecast - | head -n 3"), &format!("workspace 1\ntrials 16\nterms {terms}\n"));
    }
    refuses("head -c 6 designs/d.bin | jestrunas forecast -", "jestrunas: -: 1: a record is cut short");
    for (numbers, words) in [
        ("\\7\\3\\1", "m is 7, and 1 to 6 are allowed"),
        ("\\1\\2\\1", "s is 2, and 3 to 5 are allowed"),
        ("\\6\\4\\1", "s is 4 and m is 6: m × s is 24, at most 20"),
        ("\\1\\3\\5", "k is 5, and 1 to 4 are allowed"),
    ] {
        let head = format!("printf '\\3\\0\\1\\0{numbers}' | jestrunas");
        refuses(&format!("{head} forecast -"), &format!("jestrunas: -: 4: a number breaks a limit: {words}"));
        refuses(&format!("{head} explain -"), &format!("jestrunas: -: 4 0 0: a number of the head breaks a limit: {words}"));
    }
    refuses("printf '\\3\\0\\2\\0\\1\\3\\1' | jestrunas forecast -", "jestrunas: -: 2: a record's kind is not the one due");
    tells("jestrunas forecast none.bin", 2, &format!("jestrunas: none.bin: {NO_FILE}"));
}

#[test]
fn join() {
    prints("jestrunas join designs/present_g.bin - -o - < designs/present_f.bin | cmp - designs/present.bin", "");
    refuses(
        "jestrunas join designs/d.bin designs/box3.bin -o -",
        "jestrunas: 19: the widths or the share counts of the two designs differ: m is 1 and s is 3 in the first, m is 3 and s is 3 in the \
         second",
    );
    refuses(
        "jestrunas join designs/present.bin designs/present.bin -o - | jestrunas join - designs/present.bin -o -",
        "jestrunas: 20: the two designs have more than four stages together: 4 stages and 2 stages: 6, at most 4",
    );
    // the file at fault is named
    refuses(
        "head -c 40 designs/d.bin | jestrunas join - designs/d.bin -o -",
        "jestrunas: -: 1 35 0: the record at byte 35 is cut short",
    );
    refuses(
        "head -c 40 designs/d.bin | jestrunas join designs/d.bin - -o -",
        "jestrunas: -: 1 35 0: the record at byte 35 is cut short",
    );
    tells("jestrunas join designs/d.bin none.bin -o -", 2, &format!("jestrunas: none.bin: {NO_FILE}"));
    let misused = |line: &str, words: &str| misuses("join", line, words);
    misused("-o -", "a first design file is due");
    misused("designs/d.bin -o -", "a second design file is due");
    misused("- - -o -", "standard input can be read once");
    misused("designs/d.bin designs/d.bin", "-o is due");
}

#[test]
fn transform() {
    prints("jestrunas transform 3 01204010", "01234576\n");
    // the width follows from the length, and both notations are one
    prints("jestrunas transform '0 1 2 0 4 0 1 0'", "01234576\n");
    prints("jestrunas transform 01", "01\n");
    prints(
        &format!("jestrunas transform '{}'", (0..64).map(|x| x.to_string()).collect::<Vec<_>>().join(" ")),
        &format!("000102{}04{}08{}10{}20{}\n", "00", "000000", "00".repeat(7), "00".repeat(15), "00".repeat(31)),
    );
    let twice = "jestrunas transform 5 $(jestrunas transform 5 1109171B18021D13051C0B06140F1916120304011F0C0A0D00101E1A1507080E)";
    prints(twice, "1109171B18021D13051C0B06140F1916120304011F0C0A0D00101E1A1507080E\n");
    let formulas = "G[0] = x[0] + x[1]·x[2]  # degree 2\nG[1] = x[1]  # degree 1\nG[2] = x[2]  # degree 1\n";
    prints("jestrunas transform --formulas 01234576", formulas);
    prints("jestrunas transform 1 --formulas 00", "G[0] = 0  # degree 0\n");
    prints("jestrunas transform 1 --formulas 11", "G[0] = 1  # degree 0\n");
    prints(
        "jestrunas transform --formulas --json 10",
        "{\"m\":1,\"words\":[1,1],\"formulas\":[{\"formula\":\"1 + x[0]\",\"degree\":1}]}\n",
    );
    // they are lines for a text
    let keccak = "0009120B050C160F0A0318010D041E0714150617111002131A1B08191D1C0E1F";
    let text = format!("printf 'm 5\\ns 3\\nS {keccak}\\nstage\\n'; jestrunas transform --formulas {keccak}");
    let packed = shell(&format!("({text}) | jestrunas explain --json - | grep -o '\"G\":[^]]*'")).out;
    let numbers: Vec<String> = (0..32).map(|x| u8::from_str_radix(&keccak[2 * x..2 * x + 2], 16).unwrap().to_string()).collect();
    assert_eq!(packed, format!("\"G\":[{}\n", numbers.join(",")));
    refuses("jestrunas transform 7 01", "jestrunas: 4: a number breaks a limit: m is 7, and 1 to 6 are allowed");
    refuses("jestrunas transform 1 012", "jestrunas: 3: a length is not the one due: 3 entries of 2, which is 2^m");
    refuses(
        "jestrunas transform 1 02",
        "jestrunas: 5: an entry is 2^m or more: the entry of 1 is 2, at most 1, which is 2^m - 1",
    );
    let misused = |line: &str, words: &str| misuses("transform", line, words);
    misused("", "a table or coefficient words is due");
    misused("3 '0 1 2 3 x 5 7 6'", "a table with spaces has decimal numbers, and 'x' is none");
    misused("3 0123457x", "a table has hexadecimal digits alone, and 'x' is none");
}
