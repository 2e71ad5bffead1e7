//! The input of the program `bench_designs` is made of samples and of published tables, and its output is what this implementation says.

use reference::rows::{line_of, Outcome, Row, Tally};
use reference::{judge, samples};

const INPUT: &str = include_str!("../../../crates/bench_designs/stdin");
const OUTPUT: &str = include_str!("../../../crates/bench_designs/stdout");

/// In five shares the verdicts on files of more bytes take minutes together: nineteen twentieths of the work. They are not computed here again,
/// as the bin `rows` does.
const LONG: usize = 2_048;

/// The verdict that a line of the output has: its last three numbers.
fn stored(line: &str) -> [usize; 3] {
    let mut numbers = line.rsplit(' ').map(|number| number.parse().expect("a number"));
    let [component, place, reason] = [(); 3].map(|()| numbers.next().expect("three numbers"));
    [reason, place, component]
}

#[test]
fn the_files_are_samples() {
    let files: Vec<String> = samples::files().iter().map(|file| line_of(file)).collect();
    let lines: Vec<&str> = INPUT.lines().filter(|line| line.starts_with("file")).collect();
    assert_eq!(lines, files);
}

#[test]
fn each_table_is_produced_in_three_four_and_five_shares() {
    let published = |row: &Row| matches!(row, Row::Table { placement: None, .. });
    let rows: Vec<Row> = INPUT.lines().map(Row::of).filter(published).collect();
    for three in rows.chunks(3) {
        let Row::Table { m, table, .. } = &three[0] else { unreachable!() };
        let due = [3, 4, 5].map(|s| Row::Table { m: *m, s, table: table.clone(), placement: None });
        assert_eq!(three, due);
    }
}

#[test]
fn the_output_is_what_this_implementation_says() {
    let mut output = OUTPUT.lines();
    let mut tally = Tally::default();
    for (i, line) in INPUT.lines().enumerate() {
        let row = Row::of(line);
        let due = output.next().expect("a line for each row");
        let outcome = Outcome::by(&row, |file| match row {
            Row::Table { s: 5, .. } if file.len() > LONG => stored(due),
            _ => judge(file, &mut vec![0; 131_072])[..3].try_into().expect("three numbers"),
        });
        assert_eq!(due, format!("{}{outcome}", i + 1), "{line}");
        tally.count(&outcome);
    }
    assert_eq!(output.collect::<Vec<&str>>(), [tally.to_string()]);
}
