//! Compares designs as text with their files, and damages texts.
//!
//!     texts [DESIGNS [SEED]]
//!
//! Each design's text, assembled, must be its file again, and so must a text that is written here, as a person may: lines and terms in any
//! order, any signs, spaces and comments, tables in both notations, brackets, cyclic stages, and left out what need not be said. A damaged text must be refused at a place in it, or be the text
//! of a file that reads. The last line counts; the exit status is 1 at a difference.

mod by_hand;

use by_hand::by_hand;
use cli::{text, Design};
use compare::{make, random::Random};
use reference::encode;
use std::collections::BTreeMap;

/// A text with some damage.
fn damaged(random: &mut Random, text: &str) -> Vec<u8> {
    let mut bytes = text.as_bytes().to_vec();
    for _ in 0..1 + random.below(3) {
        let at = random.below(bytes.len() + 1);
        let to = (at + 1 + random.below(8)).min(bytes.len());
        match random.below(9) {
            0 => bytes.truncate(at),
            1 => drop(bytes.drain(at..to)),
            2 => {
                let part = bytes[at..to].to_vec();
                drop(bytes.splice(at..at, part));
            }
            3 => bytes.insert(at, random.byte()),
            4 if at < bytes.len() => bytes[at] = random.byte(),
            5 if at < bytes.len() => bytes[at] = random.pick(b"0123456789xyGSms[]=+^*&~()# \n"),
            6 => {
                let sign = random.pick(&[
                    "x1[0]",
                    "y1[0] = 1\n",
                    "stage\n",
                    "G",
                    "·",
                    " 99999999999999999999 ",
                    "0",
                    "+",
                    "\n",
                    "#",
                    "⊕",
                    "~",
                    "(x1[0] + ",
                    ")",
                    "cyclic\n",
                    "G[0] = x[0]\n",
                    "0123",
                    "\0",
                ]);
                drop(bytes.splice(at..at, sign.bytes()));
            }
            7 => {
                let mut lines: Vec<Vec<u8>> = bytes.split_inclusive(|&b| b == b'\n').map(<[u8]>::to_vec).collect();
                random.shuffle(&mut lines);
                bytes = lines.concat();
            }
            _ => {
                // a digit becomes another
                let digits: Vec<usize> = (0..bytes.len()).filter(|&i| bytes[i].is_ascii_digit()).collect();
                if !digits.is_empty() {
                    bytes[random.pick(&digits)] = b'0' + random.below(10) as u8;
                }
            }
        }
    }
    bytes
}

/// Whether a place is one of a text: a character of a line, or the end of one.
fn is_in(place: text::Place, bytes: &[u8]) -> bool {
    let text = String::from_utf8_lossy(bytes);
    let line = text.split('\n').nth(place.line - 1);
    line.is_some_and(|line| (1..=line.chars().count() + 1).contains(&place.column))
}

/// What was due, without what stands there, its numbers left out: one for each kind of fault.
fn kind(words: &str) -> String {
    words.split(", and ").next().unwrap().chars().filter(|c| !c.is_ascii_digit()).collect()
}

fn main() {
    let mut arguments = std::env::args().skip(1);
    let count: usize = arguments.next().map_or(100_000, |n| n.parse().expect("DESIGNS is a number"));
    let seed = arguments.next().map_or(20_261_127, |n| n.parse().expect("SEED is a number"));
    let mut random = Random::new(seed);
    let mut differences = 0;
    let mut differ = |words: String| {
        println!("DIFFERENCE: {words}");
        differences += 1;
    };
    let mut faults: BTreeMap<String, usize> = BTreeMap::new();
    let (mut refused, mut read) = (0, 0);
    for _ in 0..count {
        let (m, s) = make::size(&mut random);
        let k = 1 + random.below(4);
        let design = make::design(&mut random, m, s, k);
        let file = encode(&design);
        let explained = text::explained(&Design::read(&file).expect("it reads"), "none is asked for", &[]);
        let hand = by_hand(&mut random, &design);
        for text in [&explained, &hand] {
            match text::assemble(text.as_bytes()) {
                Ok(again) if again.file() == file => {}
                other => differ(format!("{:?} of the text\n{text}", other.map(|again| again.file()))),
            }
        }
        let whole = if random.once_in(2) { &explained } else { &hand };
        let text = damaged(&mut random, whole);
        match text::assemble(&text) {
            Ok(design) => {
                read += 1;
                let file = design.file();
                if Design::read(&file).as_ref() != Ok(&design) || text::assemble(text::written(&design).as_bytes()) != Ok(design)
                {
                    differ(format!("a file that is no design's, of the text\n{}", String::from_utf8_lossy(&text)));
                }
            }
            Err(fault) => {
                refused += 1;
                *faults.entry(kind(&fault.words)).or_default() += 1;
                if !is_in(fault.place, &text) {
                    differ(format!("{fault}: no place of the text\n{}", String::from_utf8_lossy(&text)));
                }
            }
        }
    }
    for (fault, times) in &faults {
        println!("  {times:7} {fault}");
    }
    println!("texts, seed {seed}: {count} designs, each in two texts; {count} damaged texts, {refused} refused for {} kinds of fault, {read} read; {differences} differences", faults.len());
    if differences > 0 {
        std::process::exit(1);
    }
}
