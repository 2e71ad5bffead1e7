//! The limits of a design are those at which the library begins to refuse.

use jestrunas::{
    forecast, read, Reason, FILE_MAX, SHARES_MAX, SHARES_MIN, SHARE_BITS_MAX, STAGES_MAX, TERMS_MAX, WIDTH_MAX, WORKSPACE_MAX,
};

fn record(kind: u8, body: &[u8]) -> Vec<u8> {
    [&(body.len() as u16).to_le_bytes()[..], &[kind, 0], body].concat()
}

fn head(m: usize, s: usize, k: usize) -> Vec<u8> {
    record(1, &[m as u8, s as u8, k as u8])
}

/// A design file of the identity whose lists have this many terms each, those of the lowest numbers.
fn file(m: usize, s: usize, k: usize, terms: usize) -> Vec<u8> {
    let table = record(2, &(0..1 << m).collect::<Vec<u8>>());
    let list = record(3, &(0..terms as u32).flat_map(u32::to_le_bytes).collect::<Vec<u8>>());
    let stage = [table.clone(), list.repeat(m * s)].concat();
    [head(m, s, k), table, stage.repeat(k), record(4, &[])].concat()
}

fn holds(m: usize, s: usize, k: usize) -> bool {
    (1..=WIDTH_MAX).contains(&m)
        && (SHARES_MIN..=SHARES_MAX).contains(&s)
        && m * s <= SHARE_BITS_MAX
        && (1..=STAGES_MAX).contains(&k)
}

/// Every width and number of shares within the limits.
fn sizes() -> impl Iterator<Item = (usize, usize)> {
    let pairs = (1..=WIDTH_MAX).flat_map(|m| (SHARES_MIN..=SHARES_MAX).map(move |s| (m, s)));
    pairs.filter(|(m, s)| m * s <= SHARE_BITS_MAX)
}

#[test]
fn heads() {
    for m in 0..=255 {
        for s in 0..=255 {
            for k in [0, 1, STAGES_MAX, STAGES_MAX + 1, 255] {
                let answer = forecast(&head(m, s, k)).map(|_| ());
                assert_eq!(answer, if holds(m, s, k) { Ok(()) } else { Err(Reason::LimitBroken) }, "{m} {s} {k}");
            }
        }
    }
}

#[test]
fn terms_of_a_list() {
    assert_eq!(read(&file(5, 4, 1, TERMS_MAX)), Ok(()));
    let refusal = read(&file(5, 4, 1, TERMS_MAX + 1)).unwrap_err();
    assert_eq!((refusal.reason, refusal.place), (Reason::WrongLength, 7 + 2 * (4 + 32)));
}

#[test]
fn the_longest_file() {
    let length = |(m, s): &(usize, usize)| file(*m, *s, STAGES_MAX, TERMS_MAX.min(1 << (m * s))).len();
    let (m, s) = sizes().max_by_key(length).unwrap();
    let longest = file(m, s, STAGES_MAX, TERMS_MAX);
    assert_eq!((longest.len(), read(&longest)), (FILE_MAX, Ok(())));
}

#[test]
fn the_largest_workspace() {
    let largest = sizes().map(|(m, s)| forecast(&head(m, s, 1)).unwrap().workspace).max();
    assert_eq!(largest, Some(WORKSPACE_MAX));
}
