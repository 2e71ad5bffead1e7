//! Designs, tables and files to compare on.

use crate::random::Random;
use jestrunas::TERMS_MAX;
use reference::samples::{chain, layer};
use reference::{direct_sharing, encode, published_placement, Design, Product, Shares, Stage};

pub const D: [u8; 47] = [
    3, 0, 1, 0, 1, 3, 1, 2, 0, 2, 0, 0, 1, 2, 0, 2, 0, 0, 1, 4, 0, 3, 0, 2, 0, 0, 0, 4, 0, 3, 0, 4, 0, 0, 0, 4, 0, 3, 0, 1, 0, 0,
    0, 0, 0, 4, 0,
];

/// Every width and number of shares, m * s rising.
pub const SIZES: [(usize, usize); 15] =
    [(1, 3), (1, 4), (1, 5), (2, 3), (2, 4), (3, 3), (2, 5), (3, 4), (4, 3), (3, 5), (5, 3), (4, 4), (6, 3), (4, 5), (5, 4)];

/// The most share bits with which a whole verdict of the second implementation takes less than a second or so.
pub const QUICK: usize = 16;

/// A box whose direct sharing in three shares is accepted.
pub const BOX3: [u8; 8] = [0, 1, 2, 3, 4, 5, 7, 6];

/// The file of this sharing.
pub fn box3() -> Vec<u8> {
    encode(&chain(3, 3, &[&BOX3]))
}

/// A width and a number of shares, mostly small ones.
pub fn size(random: &mut Random) -> (usize, usize) {
    match random.below(1000) {
        0..=399 => SIZES[random.below(5)],
        400..=749 => SIZES[5 + random.below(2)],
        750..=959 => SIZES[7 + random.below(2)],
        960..=985 => SIZES[9 + random.below(2)],
        _ => SIZES[11 + random.below(4)],
    }
}

pub fn permutation(random: &mut Random, m: usize) -> Vec<u8> {
    let mut table: Vec<u8> = (0..1 << m).collect();
    random.shuffle(&mut table);
    table
}

fn after(second: &[u8], first: &[u8]) -> Vec<u8> {
    first.iter().map(|&x| second[usize::from(x)]).collect()
}

fn affine(random: &mut Random, m: usize) -> Vec<u8> {
    loop {
        let columns: Vec<u8> = (0..m).map(|_| random.below(1 << m) as u8).collect();
        let constant = random.below(1 << m) as u8;
        let at = |x: usize| (0..m).filter(|b| x >> b & 1 == 1).fold(constant, |sum, b| sum ^ columns[b]);
        let table: Vec<u8> = (0..1 << m).map(at).collect();
        if !reference::repeats(&table) {
            return table;
        }
    }
}

/// Adds to some bits products of the others: a permutation, of the largest degree of these products.
fn step(random: &mut Random, m: usize, degree: usize) -> Vec<u8> {
    let changed = random.below((1 << m) - 1) + 1;
    let mut products = Vec::new();
    for bit in (0..m).filter(|bit| changed >> bit & 1 == 1) {
        for _ in 0..random.below(3) {
            let mut product = 0usize;
            for _ in 0..degree {
                product |= 1 << random.below(m);
            }
            if product & changed == 0 {
                products.push((bit, product));
            }
        }
    }
    (0..1usize << m).map(|x| products.iter().filter(|(_, p)| x & p == *p).fold(x, |y, (bit, _)| y ^ 1 << bit) as u8).collect()
}

/// A permutation of degree below s.
pub fn shareable(random: &mut Random, m: usize, s: usize) -> Vec<u8> {
    if m <= s && random.once_in(2) {
        return permutation(random, m);
    }
    let degree = 1 + random.below(s - 1);
    let (a, b) = (affine(random, m), affine(random, m));
    match random.below(3) {
        0 => step(random, m, degree),
        1 => b,
        _ => after(&b, &after(&step(random, m, degree), &a)),
    }
}

/// The components (from 1) outside the set of shares that has this byte of a placement, or those in it.
fn components(s: usize, byte: usize, inside: bool) -> Vec<u8> {
    (1..=s as u8).filter(|component| ((byte + 1) >> (component - 1) & 1 == 1) == inside).collect()
}

/// A placement that loads: any, or the published one with one byte changed.
pub fn placement(random: &mut Random, s: usize) -> Vec<u8> {
    let mut placement = published_placement(s);
    let bytes = if random.once_in(2) {
        let byte = random.below(placement.len());
        byte..byte + 1
    } else {
        0..placement.len()
    };
    for byte in bytes {
        placement[byte] = random.pick(&components(s, byte, false));
    }
    placement
}

/// A placement that does not load.
pub fn bad_placement(random: &mut Random, s: usize) -> Vec<u8> {
    let mut placement = placement(random, s);
    let byte = random.below(placement.len());
    match random.below(6) {
        0 => placement.truncate(byte),
        1 => {
            let n = random.pick(&[1, 2, 16, placement.len()]);
            placement.extend(random.bytes(n));
        }
        2 => placement[byte] = 0,
        3 => placement[byte] = random.pick(&[s as u8 + 1, 64, 255, placement[byte] + 32, placement[byte] + 64]),
        4 => placement[byte] = random.pick(&components(s, byte, true)),
        _ => placement = published_placement(if s == 3 { 4 } else { s - 1 }),
    }
    placement
}

fn product(random: &mut Random, m: usize, s: usize, factors: usize) -> Shares {
    let mut product = [0; 5];
    for _ in 0..factors {
        product[random.below(s)] |= 1 << random.below(m);
    }
    product
}

/// Adds a product to a list, or takes it out where it stands there.
fn flip(products: &mut Vec<Product>, product: Product) {
    match products.iter().position(|&p| p == product) {
        Some(i) => drop(products.swap_remove(i)),
        None => products.push(product),
    }
}

/// Lists that say nothing in particular.
fn any_lists(random: &mut Random, m: usize, s: usize) -> Vec<Vec<Vec<Product>>> {
    let most = random.pick(&[1, 4, 9, 20]);
    let mut list = |_| {
        let mut products = Vec::new();
        for _ in 0..random.below(most + 1) {
            let factors = random.below(4);
            flip(&mut products, Product::of(&product(random, m, s, factors)));
        }
        products
    };
    (0..s).map(|_| (0..m).map(&mut list).collect()).collect()
}

/// Moves products between components so that the sum stays: the stage is as correct as it was. With `keep_non_complete` a product has no
/// factor of the shares of the two components' numbers, so that a direct sharing stays non-complete.
fn correct(random: &mut Random, stage: &mut Stage, m: usize, s: usize, keep_non_complete: bool) {
    for _ in 0..1 + random.below(3) {
        let (a, b) = (random.below(s), random.below(s));
        let factors = random.below(s + 1);
        let mut both = product(random, m, s, factors);
        if keep_non_complete {
            both[a] = 0;
            both[b] = 0;
        }
        let bit = random.below(m);
        flip(&mut stage.components[a][bit], Product::of(&both));
        flip(&mut stage.components[b][bit], Product::of(&both));
    }
}

/// Component j of the new stage is component j of the old one on shares that were moved: still correct.
fn moved(random: &mut Random, stage: &Stage, m: usize, s: usize) -> Stage {
    let mut to: Vec<usize> = (0..s).collect();
    random.shuffle(&mut to);
    let rename = |p: &Product| {
        let number = p.number(m);
        let mut factors = [0u8; 5];
        for share in 0..s {
            factors[to[share]] = (number >> (share * m)) as u8 & ((1 << m) - 1) as u8;
        }
        Product::of(&factors)
    };
    let mut components = stage.components.clone();
    for (j, component) in stage.components.iter().enumerate() {
        let j = if random.once_in(8) { j } else { to[j] };
        components[j] = component.iter().map(|list| list.iter().map(rename).collect()).collect();
    }
    Stage { table: stage.table.clone(), components }
}

/// An affine layer in which each component reads one share alone: share j in component j, or in any order.
fn any_layer(random: &mut Random, m: usize, s: usize) -> Stage {
    let mut reads: Vec<usize> = (0..s).collect();
    if random.once_in(2) {
        random.shuffle(&mut reads);
    }
    let table = affine(random, m);
    layer(m, &table, &reads)
}

/// Shuffles the lists of each bit among the components, each bit in an order of its own: as correct and as uniform as before, but bits of
/// one component may then ignore different shares.
fn shuffle_bits(random: &mut Random, stage: &mut Stage, m: usize) {
    for bit in 0..m {
        let mut lists: Vec<Vec<Product>> = stage.components.iter().map(|bits| bits[bit].clone()).collect();
        random.shuffle(&mut lists);
        for (bits, list) in stage.components.iter_mut().zip(lists) {
            bits[bit] = list;
        }
    }
}

/// Changes one list by the term of all variables, which is 1 at the last sharing alone: a correct stage is then wrong there and nowhere
/// else.
pub fn wrong_at_last(stage: &mut Stage, m: usize, s: usize, j: usize, bit: usize) {
    let mut all = [0; 5];
    all[..s].fill(((1 << m) - 1) as u8);
    flip(&mut stage.components[j][bit], Product::of(&all));
}

/// A design with s shares of m bits and k stages, whose stages are mostly correct.
pub fn design(random: &mut Random, m: usize, s: usize, k: usize) -> Design {
    let wild = random.once_in(6);
    let mut stages: Vec<Stage> = Vec::new();
    for _ in 0..k {
        let table = if wild && random.once_in(3) {
            (0..1 << m).map(|_| random.below(1 << m) as u8).collect()
        } else {
            shareable(random, m, s)
        };
        let mut stage = if wild {
            Stage { components: any_lists(random, m, s), table }
        } else if random.once_in(6) {
            any_layer(random, m, s)
        } else {
            direct_sharing(m, s, &table, &published_placement(s))
        };
        match random.below(16) {
            0 => correct(random, &mut stage, m, s, false),
            1..=3 => correct(random, &mut stage, m, s, true),
            4 | 5 => stage = moved(random, &stage, m, s),
            6 => {
                let (j, bit) = (random.below(s), random.below(m));
                let factors = random.below(m * s + 1);
                let p = product(random, m, s, factors);
                flip(&mut stage.components[j][bit], Product::of(&p));
            }
            7 if random.once_in(2) => {
                let (j, bit) = (random.below(s), random.below(m));
                wrong_at_last(&mut stage, m, s, j, bit);
            }
            8 | 9 => random.shuffle(&mut stage.components),
            10 => shuffle_bits(random, &mut stage, m),
            _ => {}
        }
        stages.push(stage);
    }
    let identity: Vec<u8> = (0..1 << m).collect();
    let mut table = stages.iter().fold(identity, |table, stage| after(&stage.table, &table));
    match random.below(40) {
        0 => table = permutation(random, m),
        1 => {
            let from = random.below(1 << m);
            table[random.below(1 << m)] = table[from];
        }
        2 => {
            let (a, b) = (random.below(1 << m), random.below(1 << m));
            table.swap(a, b);
        }
        3 => random.shuffle(&mut stages),
        4 => {
            // the table of a stage repeats an entry
            let stage = random.below(k);
            let from = random.below(1 << m);
            let table = &mut stages[stage].table;
            table[random.below(1 << m)] = table[from];
        }
        _ => {}
    }
    Design { m, s, table, stages }
}

/// The identity in each stage: component j reads share j + 1 in the first, share j in the second, and so on in turn.
pub fn identity(m: usize, s: usize, k: usize) -> Design {
    let table: Vec<u8> = (0..1 << m).collect();
    let keep: Vec<usize> = (0..s).collect();
    let direct = direct_sharing(m, s, &table, &published_placement(s));
    let stages = [direct, layer(m, &table, &keep)].into_iter().cycle().take(k).collect();
    Design { m, s, table, stages }
}

/// Where the records of a readable file start, and its end.
fn records(file: &[u8]) -> Vec<usize> {
    let mut starts = vec![0];
    let mut at = 0;
    while at + 4 <= file.len() {
        at += 4 + usize::from(file[at]) + 256 * usize::from(file[at + 1]);
        starts.push(at);
    }
    starts
}

/// A readable file with one or two faults.
pub fn damaged(random: &mut Random, file: &[u8]) -> Vec<u8> {
    let mut file = file.to_vec();
    let starts = records(&file);
    let r = random.below(starts.len() - 1);
    let (start, end) = (starts[r], starts[r + 1]);
    match random.below(14) {
        0 | 1 => {
            let at = random.below(file.len());
            file[at] ^= 1 << random.below(8);
        }
        2 => {
            let at = random.below(file.len());
            file[at] = random.byte();
        }
        3 => file.truncate(random.below(file.len())),
        4 => drop(file.splice(start..start, file[start..end].to_vec())),
        5 => {
            let from = random.below(starts.len() - 1);
            drop(file.splice(start..start, file[starts[from]..starts[from + 1]].to_vec()));
        }
        6 => {
            let length = random.pick(&[0, 1, 2, 3, 4, 8, 16]);
            let mut record = vec![length as u8, 0, random.below(6) as u8, 0];
            record.extend(random.bytes(length));
            drop(file.splice(start..start, record));
        }
        7 => {
            let n = 1 + random.below(6);
            file.extend(random.bytes(n));
        }
        8 => drop(file.drain(start..end)),
        9 => {
            let at = start + random.below(4);
            file[at] = random.pick(&[0, 1, 2, 3, 4, 5, 8, 64, 255]);
        }
        10 => file[4 + random.below(3)] = random.below(8) as u8,
        11 => {
            // two terms of a list change places, or one stands twice
            if end - start >= 12 {
                let i = start + 4 + 4 * random.below((end - start - 4) / 4 - 1);
                if random.once_in(2) {
                    for b in i..i + 4 {
                        file.swap(b, b + 4);
                    }
                } else {
                    file.copy_within(i..i + 4, i + 4);
                }
            }
        }
        12 => {
            // an entry of a table becomes another, or too large
            let table = random.pick(&starts[1..starts.len() - 1]);
            if file[table + 2] == 2 {
                let entries = usize::from(file[table]);
                let most = random.pick(&[entries, entries + 2, 256]);
                file[table + 4 + random.below(entries)] = random.below(most) as u8;
            }
        }
        _ => {
            // a term is replaced, so that it may name a variable that there is not
            if end - start >= 8 {
                let i = start + 4 + 4 * random.below((end - start - 4) / 4);
                let wide = random.below(33) as u32;
                let term = (random.word() as u32).checked_shr(32 - wide).unwrap_or(0);
                file[i..i + 4].copy_from_slice(&term.to_le_bytes());
            }
        }
    }
    file
}

/// Two files to join. Most have one size and up to four stages together, and read; another size, more stages and damage may come together.
pub fn pair(random: &mut Random) -> [Vec<u8>; 2] {
    let one_size = size(random);
    let other_size = if random.once_in(6) { size(random) } else { one_size };
    let one_k = random.pick(&[1, 1, 1, 2, 2, 3, 3, 4]);
    let other_k = if one_k == 4 || random.once_in(6) { 5 - one_k + random.below(one_k) } else { 1 + random.below(4 - one_k) };
    [(one_size, one_k), (other_size, other_k)].map(|((m, s), k)| {
        let file = encode(&design(random, m, s, k));
        if random.once_in(5) {
            damaged(random, &file)
        } else {
            file
        }
    })
}

/// Files with a list of about as many terms as there may be.
pub fn long_lists(random: &mut Random) -> Vec<Vec<u8>> {
    let sizes = [(4, 3), (6, 3), (5, 4)];
    let terms = [TERMS_MAX - 1, TERMS_MAX, TERMS_MAX + 1];
    sizes.iter().flat_map(|&(m, s)| terms.map(|terms| long_list(random, m, s, terms))).collect()
}

/// A readable file of the identity but for one list of so many terms; with one more than there may be it does not read.
fn long_list(random: &mut Random, m: usize, s: usize, terms: usize) -> Vec<u8> {
    let mut file = encode(&identity(m, s, 1));
    let starts = records(&file);
    let r = 3 + random.below(m * s);
    let (start, end) = (starts[r], starts[r + 1]);
    let mut record = Vec::new();
    record.extend((4 * terms as u16).to_le_bytes());
    record.extend([3, 0]);
    for term in 0..terms as u32 {
        record.extend(term.to_le_bytes());
    }
    drop(file.splice(start..end, record));
    file
}

/// A head record, mostly a good one, of numbers at and near the limits, and bytes of no design after it.
pub fn head(random: &mut Random) -> Vec<u8> {
    let mut file = vec![3, 0, 1, 0, random.below(8) as u8, random.below(7) as u8, random.below(6) as u8];
    if random.once_in(4) {
        let at = random.below(file.len());
        file[at] = random.byte();
    }
    let n = random.below(12);
    file.extend(random.bytes(n));
    file
}

/// Bytes of no design, some of them after the head of one.
pub fn noise(random: &mut Random) -> Vec<u8> {
    let n = random.below(80);
    let mut file = match random.below(3) {
        0 => Vec::new(),
        1 => D[..random.below(48)].to_vec(),
        _ => vec![3, 0, 1, 0, random.below(8) as u8, random.below(7) as u8, random.below(6) as u8],
    };
    file.extend(random.bytes(n));
    if random.once_in(2) {
        for byte in &mut file[7.min(n)..] {
            *byte &= 7;
        }
    }
    file
}
