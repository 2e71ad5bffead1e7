//! Compares the verdict program with the second implementation: the line that it prints for files on standard input.
//!
//!     program PATH [FILES [SEED]]
//!
//! The last line counts; the exit status is 1 at a difference.

use compare::{hex, make, random::Random};
use reference::encode;
use std::io::{ErrorKind, Read, Write};
use std::process::{Command, Stdio};

const MOST: usize = 32_768;

/// The line due: 18 before anything is read as a record, otherwise the verdict in a workspace of 32,768 bytes.
fn due(file: &[u8]) -> String {
    let [reason, place, component, _] = if file.len() > MOST { [18, 0, 0, 0] } else { reference::judge(file, &mut [0; MOST]) };
    format!("{reason} {place} {component}\n")
}

/// What the program prints for a file that comes in parts of this length.
fn printed(program: &str, file: &[u8], part: usize) -> String {
    let mut child = Command::new(program).stdin(Stdio::piped()).stdout(Stdio::piped()).spawn().expect("the program starts");
    let mut input = child.stdin.take().expect("piped");
    for bytes in file.chunks(part) {
        match input.write_all(bytes) {
            // a program may stop reading once it knows that the input is too long
            Err(error) if error.kind() == ErrorKind::BrokenPipe => break,
            other => other.expect("the program reads"),
        }
    }
    drop(input);
    let mut line = Vec::new();
    child.stdout.take().expect("piped").read_to_end(&mut line).expect("the program writes");
    let status = child.wait().expect("the program ends");
    if !status.success() {
        return format!("{status}, after {:?}", String::from_utf8_lossy(&line));
    }
    String::from_utf8_lossy(&line).into_owned()
}

fn main() {
    let mut arguments = std::env::args().skip(1);
    let program = arguments.next().expect("program PATH [FILES [SEED]]");
    let count = arguments.next().map_or(1_000, |n| n.parse().expect("FILES is a number"));
    let seed = arguments.next().map_or(20_261_115, |n| n.parse().expect("SEED is a number"));
    let mut random = Random::new(seed);

    let full = encode(&reference::samples::full());
    let mut files: Vec<Vec<u8>> = (0..=make::D.len()).map(|length| make::D[..length].to_vec()).collect();
    for length in [MOST - 1, MOST, MOST + 1, 2 * MOST, 200_000] {
        // a design with bytes after it, and bytes of no design
        files.push(make::D.iter().copied().chain(std::iter::repeat(7)).take(length).collect());
        files.push(random.bytes(length));
    }
    for after in 0..3 {
        files.push(full.iter().copied().chain([0; 3]).take(full.len() + after).collect());
    }
    // 20 share bits are too many for the program's workspace
    for (m, s) in make::SIZES {
        files.push(encode(&make::identity(m, s, 1)));
    }
    while files.len() < count {
        let (m, s) = make::size(&mut random);
        if m * s <= 12 {
            let k = 1 + random.below(4);
            let file = encode(&make::design(&mut random, m, s, k));
            files.push(make::damaged(&mut random, &file));
            files.push(file);
        }
        files.push(make::noise(&mut random));
    }

    let mut differences = 0;
    for file in &files {
        let part = random.pick(&[1 << 20, 4096, 1000, 64]);
        let (line, due) = (printed(&program, file, part), due(file));
        if line != due {
            println!(
                "DIFFERENCE: {} bytes in parts of {part}\n  input {}\n  program {line:?}\n  second  {due:?}",
                file.len(),
                hex(file)
            );
            differences += 1;
        }
    }
    println!("program, seed {seed}: {} files, {differences} differences", files.len());
    if differences > 0 {
        std::process::exit(1);
    }
}
