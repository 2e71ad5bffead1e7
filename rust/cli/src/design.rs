//! A design taken apart, and its file.

use crate::json::{list, Json, Object};
use crate::text;
use jestrunas::Refusal;

/// A stage: its table, and the list of terms of each bit of each component. The list of bit b of component j is at (j - 1) * m + b, its
/// terms rising.
#[derive(Clone, Debug, PartialEq, Eq)]
pub struct Stage {
    pub table: Vec<u8>,
    pub lists: Vec<Vec<u32>>,
}

/// A design that a file can hold.
#[derive(Clone, Debug, PartialEq, Eq)]
pub struct Design {
    pub m: usize,
    pub s: usize,
    pub s_box: Vec<u8>,
    pub stages: Vec<Stage>,
}

/// The body of the record in front of the rest of a file that reads.
fn body<'a>(rest: &mut &'a [u8]) -> &'a [u8] {
    let length = usize::from(u16::from_le_bytes([rest[0], rest[1]]));
    let (record, behind) = rest.split_at(4 + length);
    *rest = behind;
    &record[4..]
}

fn record(file: &mut Vec<u8>, kind: u8, body: &[u8]) {
    let length = u16::try_from(body.len()).expect("no body of a design is longer than 16,384 bytes");
    file.extend(length.to_le_bytes());
    file.extend([kind, 0]);
    file.extend(body);
}

/// Puts a term into its place in a list, or takes it out where it stands there.
pub fn flip(list: &mut Vec<u32>, term: u32) {
    match list.binary_search(&term) {
        Ok(i) => drop(list.remove(i)),
        Err(i) => list.insert(i, term),
    }
}

impl Stage {
    /// Whether a component depends on a share, both counted from 0. Each function has one list, so it depends on the variables that its
    /// terms name, and on no other.
    pub fn depends(&self, m: usize, component: usize, share: usize) -> bool {
        let variables = ((1 << m) - 1) << (share * m);
        self.lists[component * m..][..m].iter().flatten().any(|term| term & variables != 0)
    }

    /// The output sharing of a sharing.
    pub fn output(&self, sharing: u32) -> u32 {
        let is_one = |list: &[u32]| list.iter().filter(|&term| term & !sharing == 0).count() % 2 == 1;
        self.lists.iter().enumerate().filter(|(_, list)| is_one(list)).fold(0, |output, (i, _)| output | 1 << i)
    }

    /// The output sharing of each sharing: bit i of a word is first the coefficient of list i at a term, then, summed over the subsets of
    /// each sharing, its value there.
    pub fn outputs(&self, m: usize, s: usize) -> Vec<u32> {
        let mut words = vec![0; 1 << (m * s)];
        for (i, list) in self.lists.iter().enumerate() {
            for &term in list {
                words[term as usize] |= 1 << i;
            }
        }
        for variable in 0..m * s {
            for block in words.chunks_mut(2 << variable) {
                let (lower, upper) = block.split_at_mut(1 << variable);
                for (upper, lower) in upper.iter_mut().zip(lower) {
                    *upper ^= *lower;
                }
            }
        }
        words
    }
}

impl Design {
    /// The design that a file holds, or why it does not read.
    pub fn read(file: &[u8]) -> Result<Design, Refusal> {
        jestrunas::read(file)?;
        let rest = &mut &file[..];
        let head = body(rest);
        let [m, s, k] = [0, 1, 2].map(|i| usize::from(head[i]));
        let s_box = body(rest).to_vec();
        let term = |bytes: &[u8]| u32::from_le_bytes([bytes[0], bytes[1], bytes[2], bytes[3]]);
        let stages = (0..k)
            .map(|_| Stage {
                table: body(rest).to_vec(),
                lists: (0..m * s).map(|_| body(rest).chunks(4).map(term).collect()).collect(),
            })
            .collect();
        Ok(Design { m, s, s_box, stages })
    }

    /// The file of the design.
    pub fn file(&self) -> Vec<u8> {
        let mut file = Vec::new();
        record(&mut file, 1, &[self.m as u8, self.s as u8, self.stages.len() as u8]);
        record(&mut file, 2, &self.s_box);
        for stage in &self.stages {
            record(&mut file, 2, &stage.table);
            for list in &stage.lists {
                let terms: Vec<u8> = list.iter().flat_map(|term| term.to_le_bytes()).collect();
                record(&mut file, 3, &terms);
            }
        }
        record(&mut file, 4, &[]);
        file
    }

    /// The design as fields, its formulas as in a text.
    pub fn json(&self) -> Object {
        let component = |stage: &Stage, j: usize| {
            let shares = (0..self.s).filter(|&share| stage.depends(self.m, j, share)).map(|share| (share + 1).into());
            let formulas = stage.lists[j * self.m..][..self.m].iter().map(|list| text::sum(self.m, list).into());
            Object::new().with("depends", shares.collect::<Vec<Json>>()).with("formulas", formulas.collect::<Vec<Json>>()).into()
        };
        let stage = |stage: &Stage| {
            let components = (0..self.s).map(|j| component(stage, j)).collect::<Vec<Json>>();
            Object::new().with("G", list(&stage.table)).with("components", components).into()
        };
        let head = Object::new().with("m", self.m).with("s", self.s).with("S", list(&self.s_box));
        head.with("stages", self.stages.iter().map(stage).collect::<Vec<Json>>())
    }
}
