//! Designs and texts to try commands on.

use crate::shell::root;

/// A file of designs/.
pub fn sample(name: &str) -> Vec<u8> {
    std::fs::read(root().join("designs").join(name)).unwrap()
}

/// The names of the designs in designs/.
pub fn samples() -> Vec<String> {
    let verdicts = String::from_utf8(sample("verdicts.txt")).unwrap();
    verdicts.lines().map(|line| line.split(' ').next().unwrap().to_owned()).collect()
}

/// The longest file that reads: 5 bits, 4 shares, 4 stages, 4,096 terms in each list.
pub fn longest() -> Vec<u8> {
    let table = [&[32, 0, 2, 0][..], &(0..32).collect::<Vec<u8>>()].concat();
    let list = [&[0, 64, 3, 0][..], &(0..4096u32).flat_map(u32::to_le_bytes).collect::<Vec<u8>>()].concat();
    let stage = [&table[..], &list.repeat(20)].concat();
    [&[3, 0, 1, 0, 5, 4, 4][..], &table, &stage.repeat(4), &[0, 0, 4, 0]].concat()
}

/// One bit in three shares, with this S and this G, the lists of the terms 2, 4 and 1, and what stands behind these.
pub fn one_bit(s_box: [u8; 2], table: [u8; 2], end: &[u8]) -> Vec<u8> {
    let [s_box, table] = [s_box, table].map(|entries| [2, 0, 2, 0, entries[0], entries[1]]);
    let lists = [2, 4, 1].map(|term| [4, 0, 3, 0, term, 0, 0, 0]).concat();
    [&[3, 0, 1, 0, 1, 3, 1][..], &s_box, &table, &lists, end].concat()
}

/// The head of a text: 5 bits, 3 shares, the identity.
pub fn text_head() -> String {
    let entries: String = (0..32).map(|x| format!(" {x}")).collect();
    format!("m 5\ns 3\nS{entries}")
}

/// The term of this number, of 5 bits.
pub fn term(number: u32) -> String {
    let variables = (0..15).filter(|bit| number >> bit & 1 == 1);
    let term: String = variables.map(|bit| format!("x{}[{}]", bit / 5 + 1, bit % 5)).collect();
    if term.is_empty() {
        "1".to_owned()
    } else {
        term
    }
}
