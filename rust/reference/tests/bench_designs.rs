//! The bench designs, D and its variants and published boxes, with the answers that are due.

use reference::samples::{
    bits_apart, chain, cubic, d, full, keccak_row, leaking, linear, one_bit, six_bits, twenty_share_bits, PLACEMENT, PRESENT,
    PRESENT_F, PRESENT_G,
};
use reference::{encode, forecast, join, judge, produce, published_placement, read, repeats, run, transform, Answer, Product};

const D: [u8; 47] = [
    3, 0, 1, 0, 1, 3, 1, 2, 0, 2, 0, 0, 1, 2, 0, 2, 0, 0, 1, 4, 0, 3, 0, 2, 0, 0, 0, 4, 0, 3, 0, 4, 0, 0, 0, 4, 0, 3, 0, 1, 0, 0,
    0, 0, 0, 4, 0,
];

fn verdict(file: &[u8]) -> Answer {
    judge(file, &mut [0xff; 131_072])
}

fn produced(m: usize, s: usize, table: &[u8]) -> Result<Vec<u8>, usize> {
    placed(m, s, table, &published_placement(s))
}

fn placed(m: usize, s: usize, table: &[u8], placement: &[u8]) -> Result<Vec<u8>, usize> {
    let mut output = vec![0; 20_867];
    let (reason, length) = produce(m, s, table, placement, &mut output);
    output.truncate(length);
    if reason == 0 {
        Ok(output)
    } else {
        Err(reason)
    }
}

fn digits(text: &str) -> Vec<u8> {
    text.chars().map(|c| c.to_digit(16).unwrap() as u8).collect()
}

#[test]
fn d_and_its_neighbours() {
    assert_eq!(encode(&d()), D);
    assert_eq!(encode(&one_bit([&[2], &[4], &[1]])), D);
    assert_eq!(verdict(&D), [0, 1, 0, 16]);
    assert_eq!(verdict(&encode(&one_bit([&[2], &[4], &[]]))), [12, 1, 0, 2]);
    assert_eq!(verdict(&encode(&one_bit([&[1], &[2], &[4]]))), [0, 1, 0, 16]);
    assert_eq!(verdict(&encode(&one_bit([&[1, 2, 4], &[], &[]]))), [13, 1, 1, 8]);
    assert_eq!(verdict(&encode(&one_bit([&[2, 4], &[1], &[]]))), [14, 1, 0, 13]);
    let with_box = |table: [u8; 2]| {
        let mut file = D;
        file[11..13].copy_from_slice(&table);
        file
    };
    assert_eq!(verdict(&with_box([1, 0])), [10, 0, 0, 0]);
    let with_table = |table: [u8; 2]| {
        let mut file = D;
        file[17..19].copy_from_slice(&table);
        file
    };
    assert_eq!(verdict(&with_table([0, 0])), [10, 0, 0, 0]);
    assert_eq!(verdict(&with_box([0, 0])), [8, 0, 0, 0]);
    assert_eq!(judge(&with_box([0, 0]), &mut []), [8, 0, 0, 0]);
    assert_eq!(judge(&D, &mut []), [9, 0, 0, 0]);
    assert_eq!(judge(&D, &mut [7]), [0, 1, 0, 16]);
    assert_eq!(judge(&D[..40], &mut [7]), [1, 35, 0, 0]);
    assert_eq!(run(&D, [1, 0, 0, 0, 0]), (0, [0, 0, 1, 0, 0]));
    assert_eq!(run(&D, [2, 0, 0, 0, 0]), (15, [0; 5]));
}

#[test]
fn the_workspace_afterwards() {
    let mut workspace = [9; 3];
    assert_eq!(judge(&D, &mut workspace), [0, 1, 0, 16]);
    assert_eq!(workspace, [0, 9, 9]);
}

#[test]
fn trials_of_a_later_stage() {
    // three stages of D: those before the fault take 16 trials each
    let mut stages = d();
    stages.stages = vec![stages.stages[0].clone(); 3];
    assert_eq!(verdict(&encode(&stages)), [0, 3, 0, 48]);
    let with_last = |lists| {
        let mut design = stages.clone();
        design.stages[2] = one_bit(lists).stages[0].clone();
        verdict(&encode(&design))
    };
    assert_eq!(with_last([&[2], &[4], &[]]), [12, 3, 0, 34]);
    assert_eq!(with_last([&[1], &[2], &[4]]), [0, 3, 0, 48]);
    assert_eq!(with_last([&[], &[1, 2, 4], &[]]), [13, 3, 2, 40]);
    assert_eq!(with_last([&[2, 4], &[1], &[]]), [14, 3, 0, 45]);
}

#[test]
fn trials_of_correctness() {
    // wrong where this term is 1: the constant from the first sharing on, then variables of rising numbers, all of them at the last
    let wrong_at = |factors| {
        let mut design = chain(3, 3, &[&digits("01234576")]);
        design.stages[0].components[0][0].push(Product::of(&factors));
        verdict(&encode(&design))
    };
    assert_eq!(wrong_at([0, 0, 0, 0, 0]), [12, 1, 0, 1]);
    assert_eq!(wrong_at([1, 0, 0, 0, 0]), [12, 1, 0, 2]);
    assert_eq!(wrong_at([0, 2, 0, 0, 0]), [12, 1, 0, 17]);
    assert_eq!(wrong_at([0, 0, 4, 0, 0]), [12, 1, 0, 257]);
    assert_eq!(wrong_at([7, 7, 7, 0, 0]), [12, 1, 0, 512]);
}

#[test]
fn forecasts() {
    assert_eq!(forecast(&D), [0, 1, 16]);
    assert_eq!(forecast(&[3, 0, 1, 0, 4, 5, 1]), [0, 131_072, 2_097_152]);
    assert_eq!(forecast(&[3, 0, 1, 0, 5, 5, 1]), [4, 0, 0]);
    assert_eq!(forecast(&[]), [1, 0, 0]);
    assert_eq!(forecast(&[3, 0, 2, 0, 1]), [2, 0, 0]);
    assert_eq!(forecast(&[4, 0, 1, 0, 1, 3, 1]), [3, 0, 0]);
    assert_eq!(forecast(&D[..6]), [1, 0, 0]);
    // whatever follows
    assert_eq!(forecast(&[3, 0, 1, 0, 1, 3, 1, 255, 255]), [0, 1, 16]);
    assert_eq!(forecast(&D[..7]), [0, 1, 16]);
}

#[test]
fn heads() {
    let head = |m, s| verdict(&[3, 0, 1, 0, m, s, 1]);
    assert_eq!(head(4, 5), [1, 7, 0, 0]);
    for (m, s) in [(5, 5), (6, 4), (4, 2)] {
        assert_eq!(head(m, s), [4, 0, 0, 0]);
    }
}

#[test]
fn long_lists() {
    // four bits, three shares: the first list has all 4,096 terms
    let identity: Vec<u8> = (0..16).collect();
    let mut design = chain(4, 3, &[&identity[..]]);
    let all = (0..4096).map(|number| Product::from_number(number, 4, 3).unwrap()).collect();
    design.stages[0].components[0][0] = all;
    let file = encode(&design);
    assert!(read(&file).is_ok());
    assert_eq!(verdict(&file)[0], 12);
    let mut longer = file[..47].to_vec();
    longer.extend([0x04, 0x40, 3, 0]);
    longer.extend([0; 16_388]);
    assert_eq!(verdict(&longer), [3, 47, 0, 0]);
    // a wrong kind and a body that is cut: the kind comes first
    assert_eq!(verdict(&[3, 0, 2, 0, 1]), [2, 0, 0, 0]);
}

/// The lists of the only stage of one bit.
fn lists(file: &[u8]) -> Vec<Vec<u32>> {
    let components = &read(file).unwrap().stages[0].components;
    components.iter().map(|bits| bits[0].iter().map(|product| product.number(1)).collect()).collect()
}

#[test]
fn producing() {
    let file = produced(1, 3, &[1, 0]).unwrap();
    assert_eq!(file.len(), 51);
    assert_eq!(lists(&file), [vec![0, 2], vec![4], vec![1]]);
    assert_eq!(verdict(&produced(3, 3, &digits("01234576")).unwrap()), [0, 1, 0, 1024]);
    assert_eq!(verdict(&produced(3, 3, &digits("01243675")).unwrap()), [14, 1, 0, 650]);
    assert_eq!(produced(4, 3, &cubic()), Err(16));
    assert_eq!(verdict(&produced(4, 4, &cubic()).unwrap()), [0, 1, 0, 131_072]);
}

#[test]
fn placements() {
    assert_eq!(placed(1, 3, &[1, 0], &digits("313221")), produced(1, 3, &[1, 0]));
    // the constant goes to component 1 still
    let file = placed(1, 3, &[1, 0], &digits("233121")).unwrap();
    assert_eq!(lists(&file), [vec![0, 4], vec![1], vec![2]]);
    assert_eq!(verdict(&file), [0, 1, 0, 16]);
    // shares 1 and 2 in component 3, and no share in component 1
    let file = placed(1, 3, &[1, 0], &digits("333221")).unwrap();
    assert_eq!(lists(&file), [vec![0], vec![4], vec![1, 2]]);
    assert_eq!(verdict(&file)[..3], [14, 1, 0]);
}

#[test]
fn a_placement_that_makes_boxes_uniform() {
    let uneven = digits("01243675");
    for (m, table) in [(3, &uneven), (5, &keccak_row())] {
        assert_eq!(verdict(&produced(m, 4, table).unwrap())[..3], [14, 1, 0]);
        assert_eq!(verdict(&placed(m, 4, table, &PLACEMENT).unwrap())[..3], [0, 1, 0]);
    }
    // in three shares no placement does: only those of one share's products may differ
    for singles in 0..8 {
        let placement = [[2, 3][singles & 1], [1, 3][singles >> 1 & 1], 3, [1, 2][singles >> 2], 2, 1];
        assert_eq!(verdict(&placed(3, 3, &uneven, &placement).unwrap())[..3], [14, 1, 0]);
    }
}

#[test]
fn refusals_of_placements() {
    let not = |placement| placed(1, 3, &[1, 0], &digits(placement));
    assert!(not("313221").is_ok());
    for placement in ["", "31322", "3132211", "013221", "413221", "313224", "113221", "323221", "313223"] {
        assert_eq!(not(placement), Err(21), "{placement}");
    }
    assert_eq!(placed(1, 3, &[1, 0], &published_placement(4)), Err(21));
    let mut output = [9; 51];
    assert_eq!(produce(1, 3, &[1, 0], &digits("31322"), &mut output), (21, 0));
    assert_eq!(output, [9; 51]);
    // 4, 3, 5 and 8 before 21, and 21 before 16 and 17
    let bad = digits("113221");
    assert_eq!(placed(1, 2, &[1, 0], &bad), Err(4));
    assert_eq!(placed(1, 3, &[1], &bad), Err(3));
    assert_eq!(placed(1, 3, &[1, 2], &bad), Err(5));
    assert_eq!(placed(1, 3, &[1, 1], &bad), Err(8));
    assert_eq!(placed(4, 3, &cubic(), &bad), Err(21));
    assert_eq!(produce(1, 3, &[1, 0], &bad, &mut []), (21, 0));
    assert_eq!(produce(1, 3, &[1, 0], &digits("313221"), &mut []), (17, 0));
}

fn joined(first: &[u8], second: &[u8]) -> Result<Vec<u8>, usize> {
    let mut output = vec![0; first.len() + second.len()];
    let (reason, length) = join(first, second, &mut output);
    output.truncate(length);
    if reason == 0 {
        Ok(output)
    } else {
        Err(reason)
    }
}

#[test]
fn joining() {
    let [g, f] = [PRESENT_G, PRESENT_F].map(|table| encode(&chain(4, 3, &[&table])));
    let present = encode(&chain(4, 3, &[&PRESENT_G, &PRESENT_F]));
    assert_eq!(joined(&g, &f), Ok(present.clone()));
    assert_eq!(joined(&f, &g), Ok(encode(&chain(4, 3, &[&PRESENT_F, &PRESENT_G]))));
    // one head, one box and one end fewer
    assert_eq!(present.len(), g.len() + f.len() - (16 + 15));
    // shares go through the seam as they are
    for shares in [[1, 2, 3, 0, 0], [15, 0, 7, 0, 0]] {
        assert_eq!(run(&present, shares), run(&f, run(&g, shares).1));
    }

    let mut output = vec![9; present.len() + 2];
    assert_eq!(join(&g, &f, &mut output), (0, present.len()));
    assert_eq!(output, [&present[..], &[9, 9]].concat());
    let mut output = vec![9; present.len() - 1];
    assert_eq!(join(&g, &f, &mut output), (17, 0));
    assert!(output.iter().all(|&byte| byte == 9));
}

#[test]
fn joining_asks_only_that_both_read() {
    // S of the first repeats an entry and is not its chain; the second is not correct
    let mut first = d();
    first.table = vec![1, 1];
    let mut second = one_bit([&[2], &[4], &[]]);
    second.table = vec![1, 0];
    let file = joined(&encode(&first), &encode(&second)).unwrap();
    let design = read(&file).unwrap();
    assert_eq!((design.m, design.s, &design.table[..]), (1, 3, &[0, 0][..]));
    assert_eq!(design.stages, [first.stages, second.stages].concat());
}

#[test]
fn refusals_of_joining() {
    let stages = |m: usize, s: usize, k: usize| {
        let identity: Vec<u8> = (0..1 << m).collect();
        encode(&chain(m, s, &vec![&identity[..]; k]))
    };
    for k in 1..4 {
        assert!(joined(&stages(2, 3, k), &stages(2, 3, 4 - k)).is_ok());
        assert_eq!(joined(&stages(2, 3, k), &stages(2, 3, 5 - k)), Err(20));
    }
    // 19 before 20 before 17; as many share bits, otherwise shared
    assert_eq!(joined(&stages(2, 3, 4), &stages(3, 3, 4)), Err(19));
    assert_eq!(joined(&stages(2, 3, 4), &stages(2, 4, 4)), Err(19));
    assert_eq!(joined(&stages(4, 3, 1), &stages(3, 4, 1)), Err(19));
    assert_eq!(join(&stages(2, 3, 4), &stages(3, 3, 4), &mut []), (19, 0));
    assert_eq!(join(&stages(2, 3, 4), &stages(2, 3, 4), &mut []), (20, 0));
    assert_eq!(join(&D, &D, &mut []), (17, 0));
    // the first file before the second, and both before 19
    assert_eq!(joined(&D[..46], &[3, 0, 2, 0]), Err(1));
    assert_eq!(joined(&[3, 0, 2, 0], &D[..46]), Err(2));
    assert_eq!(joined(&stages(2, 3, 4), &D[..46]), Err(1));
}

#[test]
fn coefficients() {
    let table = [0, 1, 2, 3, 4, 5, 7, 6];
    let (mut words, mut again) = ([0; 8], [0; 8]);
    assert_eq!(transform(3, &table, &mut words), 0);
    assert_eq!(words, [0, 1, 2, 0, 4, 0, 1, 0]);
    assert_eq!(transform(3, &words, &mut again), 0);
    assert_eq!(again, table);
}

#[test]
fn worked_designs() {
    let present = chain(4, 3, &[&PRESENT_G, &PRESENT_F]);
    assert_eq!(present.table, PRESENT);
    assert_eq!(verdict(&encode(&present)), [0, 2, 0, 16_384]);
    assert!(!repeats(&keccak_row()));
    assert_eq!(verdict(&encode(&leaking())), [13, 1, 2, 512]);
    assert_eq!(verdict(&encode(&linear())), [0, 1, 0, 8_192]);
    assert_eq!(verdict(&encode(&bits_apart())), [13, 1, 1, 64]);
    assert_eq!(verdict(&produced(6, 3, &six_bits()).unwrap()), [0, 1, 0, 524_288]);
    assert_eq!(encode(&full()).len(), 32_767);
    assert!(read(&encode(&full())).is_ok());
    assert!(read(&encode(&twenty_share_bits())).is_ok());
}
