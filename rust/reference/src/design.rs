//! The design file: what it means, reading and writing (RULES 4 and 5).

use crate::within_limits;

/// Five shares, share j at j - 1, unused ones zero.
pub type Shares = [u8; 5];

/// A product of share bits: for each share the bits that are factors. No factor at all is the constant 1.
#[derive(Clone, Copy, Debug, PartialEq, Eq, PartialOrd, Ord)]
pub struct Product {
    factors: u64,
}

/// The shares side by side, eight bits for each.
pub(crate) fn beside(shares: &Shares) -> u64 {
    shares.iter().rev().fold(0, |all, &share| all << 8 | u64::from(share))
}

impl Product {
    pub fn of(factors: &Shares) -> Product {
        Product { factors: beside(factors) }
    }

    pub(crate) fn at(self, shares: u64) -> bool {
        self.factors & !shares == 0
    }

    /// The number that a file has for it: bit b of share j is bit (j - 1) * m + b.
    pub fn number(self, m: usize) -> u32 {
        let mut number = 0;
        for share in 0..5 {
            for bit in 0..m {
                if self.factors >> (8 * share + bit) & 1 == 1 {
                    number |= 1 << (share * m + bit);
                }
            }
        }
        number
    }

    /// The product that a file's number stands for, where it names no variable beyond m * s.
    pub fn from_number(number: u32, m: usize, s: usize) -> Option<Product> {
        let mut factors = 0;
        for variable in 0..32 {
            if number >> variable & 1 == 1 {
                if variable >= m * s {
                    return None;
                }
                factors |= 1 << (8 * (variable / m) + variable % m);
            }
        }
        Some(Product { factors })
    }
}

/// A stage: its table, and for each component and each of its bits the products that are summed.
#[derive(Clone, Debug, PartialEq, Eq)]
pub struct Stage {
    pub table: Vec<u8>,
    pub components: Vec<Vec<Vec<Product>>>,
}

impl Stage {
    /// The output share that a component (from 0) gives.
    pub(crate) fn component(&self, j: usize, shares: u64) -> u8 {
        let mut out = 0;
        for (bit, products) in self.components[j].iter().enumerate() {
            let odd = products.iter().filter(|product| product.at(shares)).count() % 2;
            out |= (odd as u8) << bit;
        }
        out
    }

    pub fn output(&self, shares: &Shares) -> Shares {
        let given = beside(shares);
        let mut out = [0; 5];
        for (j, share) in out.iter_mut().take(self.components.len()).enumerate() {
            *share = self.component(j, given);
        }
        out
    }
}

#[derive(Clone, Debug, PartialEq, Eq)]
pub struct Design {
    pub m: usize,
    pub s: usize,
    pub table: Vec<u8>,
    pub stages: Vec<Stage>,
}

impl Design {
    /// The bytes of workspace that a verdict needs: a bit for each sharing.
    pub fn workspace(&self) -> usize {
        (1 << (self.m * self.s)) / 8
    }
}

/// Why a file does not read: the number, and the place.
#[derive(Clone, Copy, Debug, PartialEq, Eq)]
pub struct Fault {
    pub reason: usize,
    pub place: usize,
}

/// What the head record of a file says.
pub(crate) struct Head {
    pub m: usize,
    pub s: usize,
    pub k: usize,
}

struct Reader<'a> {
    file: &'a [u8],
    at: usize,
}

impl<'a> Reader<'a> {
    /// The body of the next record, which must have this kind and a length that is due, and then a body without a fault.
    fn record<T>(
        &mut self,
        kind: u16,
        due: impl Fn(usize) -> bool,
        content: impl Fn(&'a [u8]) -> Result<T, usize>,
    ) -> Result<T, Fault> {
        let place = self.at;
        let refuse = |reason| Err(Fault { reason, place });
        let rest = &self.file[place..];
        let Some((head, rest)) = rest.split_first_chunk::<4>() else { return refuse(1) };
        if u16::from_le_bytes([head[2], head[3]]) != kind {
            return refuse(2);
        }
        let length = usize::from(u16::from_le_bytes([head[0], head[1]]));
        if !due(length) {
            return refuse(3);
        }
        let Some(body) = rest.get(..length) else { return refuse(1) };
        self.at = place + 4 + length;
        content(body).or_else(refuse)
    }

    fn head(&mut self) -> Result<Head, Fault> {
        self.record(
            1,
            |length| length == 3,
            |body| {
                let (m, s, k) = (usize::from(body[0]), usize::from(body[1]), usize::from(body[2]));
                if within_limits(m, s) && (1..=4).contains(&k) {
                    Ok(Head { m, s, k })
                } else {
                    Err(4)
                }
            },
        )
    }

    fn table(&mut self, m: usize) -> Result<Vec<u8>, Fault> {
        let entries = 1 << m;
        self.record(
            2,
            |length| length == entries,
            |body| {
                if body.iter().any(|&entry| usize::from(entry) >= entries) {
                    return Err(5);
                }
                Ok(body.to_vec())
            },
        )
    }

    fn products(&mut self, m: usize, s: usize) -> Result<Vec<Product>, Fault> {
        self.record(
            3,
            |length| length % 4 == 0 && length <= 16_384,
            |body| {
                let numbers: Vec<u32> =
                    body.chunks(4).map(|four| u32::from_le_bytes([four[0], four[1], four[2], four[3]])).collect();
                if numbers.windows(2).any(|two| two[0] >= two[1]) {
                    return Err(6);
                }
                numbers.iter().map(|&number| Product::from_number(number, m, s).ok_or(6)).collect()
            },
        )
    }
}

/// The head record of a file, whatever follows it, or its fault.
pub(crate) fn head(file: &[u8]) -> Result<Head, Fault> {
    Reader { file, at: 0 }.head()
}

/// What a file means, or its first fault.
pub fn read(file: &[u8]) -> Result<Design, Fault> {
    let mut reader = Reader { file, at: 0 };
    let Head { m, s, k } = reader.head()?;
    let table = reader.table(m)?;
    let mut stages = Vec::new();
    for _ in 0..k {
        let table = reader.table(m)?;
        let mut components = Vec::new();
        for _ in 0..s {
            let mut bits = Vec::new();
            for _ in 0..m {
                bits.push(reader.products(m, s)?);
            }
            components.push(bits);
        }
        stages.push(Stage { table, components });
    }
    reader.record(4, |length| length == 0, |_| Ok(()))?;
    if reader.at < file.len() {
        return Err(Fault { reason: 7, place: reader.at });
    }
    Ok(Design { m, s, table, stages })
}

/// The one file that means a design, whatever the order of its products here.
pub fn encode(design: &Design) -> Vec<u8> {
    fn record(file: &mut Vec<u8>, kind: u16, body: &[u8]) {
        let length = u16::try_from(body.len()).expect("a body's length has two bytes");
        file.extend(length.to_le_bytes());
        file.extend(kind.to_le_bytes());
        file.extend(body);
    }
    let mut file = Vec::new();
    record(&mut file, 1, &[design.m as u8, design.s as u8, design.stages.len() as u8]);
    record(&mut file, 2, &design.table);
    for stage in &design.stages {
        record(&mut file, 2, &stage.table);
        for products in stage.components.iter().flatten() {
            let mut numbers: Vec<u32> = products.iter().map(|product| product.number(design.m)).collect();
            numbers.sort();
            let body: Vec<u8> = numbers.iter().flat_map(|number| number.to_le_bytes()).collect();
            record(&mut file, 3, &body);
        }
    }
    record(&mut file, 4, &[]);
    file
}
