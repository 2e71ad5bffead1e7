//! `produce` by a search of placements and by the universal construction.

use crate::shell::{misuses, prints, refuses, shell, shown, Folder};

/// A box that is uniform in four shares by some placements, and not by the published one; in three shares by none.
const BOX: &str = "01243675";

#[test]
fn search() {
    let folder = Folder::new();
    let file = folder.of("found.bin");
    let line = format!("jestrunas produce -s 4 --search 100 {BOX} -o {file}");
    let found = shell(&line);
    assert_eq!((found.status, found.err.as_str()), (0, ""));
    let (placement, rest) = found.out.strip_prefix("placement ").unwrap().split_once(", try ").unwrap();
    let tries: usize = rest.strip_suffix(" of 100: accepted\n").unwrap().parse().unwrap();
    assert!((2..=100).contains(&tries));
    prints(&format!("jestrunas judge {file}"), &format!("{file}: 0 1 0, 8192 trials: accepted, 1 stage\n"));
    // the placement that is printed makes the same file, and the same seed finds the same
    prints(&format!("jestrunas produce -s 4 --placement {placement} {BOX} -o - | cmp - {file}"), "");
    prints(&format!("{line} --seed 0"), &found.out);
    assert_ne!(shell(&format!("{line} --seed 1")).out, found.out);
    // beside a design on standard output it is told on standard error
    let beside = shell(&format!("jestrunas produce -s 4 --search 100 --seed 0 {BOX} -o - | jestrunas judge -"));
    assert_eq!(beside, shown(0, "-: 0 1 0, 8192 trials: accepted, 1 stage\n", &found.out));
    let digits: Vec<String> = placement.chars().map(String::from).collect();
    let bytes = std::fs::metadata(&file).unwrap().len();
    let json = format!("{{\"file\":\"{file}\",\"bytes\":{bytes},\"placement\":[{}],\"tries\":{tries}}}\n", digits.join(","));
    prints(&format!("{line} --json"), &json);
    // one try fewer finds none, and then nothing is written
    let short = format!("jestrunas produce -s 4 --search {} {BOX} -o {}", tries - 1, folder.of("none.bin"));
    refuses(&short, &format!("jestrunas: none of {} placements makes it uniform; there are more", tries - 1));
    assert_eq!(folder.names(), ["found.bin"]);
}

#[test]
fn search_takes_the_published_placement_first() {
    let line = "jestrunas produce -s 3 --search 1 01234576 -o -";
    assert_eq!(shell(&format!("{line} | cmp - designs/box3.bin")), shown(0, "", "placement 313221, try 1 of 1: accepted\n"));
}

#[test]
fn search_says_that_none_is_accepted() {
    let line = format!("jestrunas produce -s 3 --search 1000 {BOX} -o none");
    refuses(&line, "jestrunas: none of the 8 placements that there are makes it uniform");
    let json = r#"{"words":"none of the 8 placements that there are makes it uniform","tries":8,"all":true}"#;
    assert_eq!(shell(&format!("{line} --json")), shown(1, &format!("{json}\n"), ""));
    let line = format!("jestrunas produce -s 4 --search 1 {BOX} -o none");
    refuses(&line, "jestrunas: none of 1 placement makes it uniform; there are more");
}

#[test]
fn universal() {
    for (s, table) in [(4, BOX), (5, "0123456789ABCDFE"), (3, "10325476")] {
        let judged = shell(&format!("jestrunas produce -s {s} --universal {table} -o - | jestrunas judge -"));
        assert_eq!((judged.status, judged.err.as_str()), (0, ""), "{table}");
    }
    let refused = |line: &str, words: &str| {
        refuses(&format!("jestrunas produce --universal {line} -o none"), &format!("jestrunas: {words}"))
    };
    refused(
        "-s 4 0123456789ABCDFE",
        "the degree is 3, and the universal construction in 4 shares takes at most 2; 5 shares would do",
    );
}

#[test]
fn what_is_given_is_refused_as_without_them() {
    let five_bits = (0..32).map(|x| x.to_string()).collect::<Vec<_>>().join(" ");
    let lines = ["-s 6 01", "-s 3 0123456", "-s 3 01234567 -m 7", "-s 3 02", "-s 3 00", "-s 3 0123456789ABCDFF"];
    let wide = format!("-s 5 '{five_bits}'");
    for line in lines.into_iter().chain([wide.as_str(), "-s 3 0123456789ABCDFE"]) {
        let produce = |way: &str| shell(&format!("jestrunas produce {line} -o none {way}"));
        let plain = produce("");
        assert_eq!((plain.status, plain.out.as_str()), (1, ""), "{line}");
        assert_eq!(produce("--search 9"), plain, "{line}");
        // the degree of the last is too high for each, by other bounds
        assert_eq!(produce("--universal") == plain, !line.ends_with("FE"), "{line}");
    }
    let wide = shell(&format!("jestrunas produce {wide} --universal -o none")).err;
    assert_eq!(wide, "jestrunas: 4: a number breaks a limit: s is 5 and m is 5: m × s is 25, at most 20\n");
}

#[test]
fn wrong_use() {
    let misused = |line: &str, words: &str| misuses("produce", &format!("-s 3 01 -o - {line}"), words);
    misused("--universal --search 3", "--search and --universal are two ways to a sharing");
    misused("--placement 313221 --universal", "--placement and --universal are two ways to a sharing");
    misused("--placement 313221 --search 3", "--placement and --search are two ways to a sharing");
    misused("--seed 3", "--seed is of --search");
    misused("--seed 3 --universal", "--seed is of --search");
    misused("--search 0", "--search is 1 or more");
    misused("--search x", "--search is a number, and 'x' is none");
    misused("--search 3 --seed -1", "--seed is a number, and '-1' is none");
}
