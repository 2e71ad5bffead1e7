//! Lending, calling, comparing: one call of the library after the other, each beside the second implementation.

use crate::hex;
use crate::lent::{self, Lent};
use crate::operations::{Counted, Operation, OPERATIONS};
use crate::random::Random;
use reference::{Answer, Design, Fault};
use std::fmt::{Debug, Display};

/// Bytes that an operation only reads, and whether they stand directly before the page that nobody may touch, or directly after one.
#[derive(Clone, Copy)]
pub struct Input<'a> {
    pub bytes: &'a [u8],
    at_end: bool,
}

/// A file that every operation is asked about, and what the second implementation says of it.
pub struct Asked<'a> {
    pub file: Input<'a>,
    pub design: Result<Design, Fault>,
    /// The verdict in a workspace that is enough.
    pub verdict: Answer,
    /// The placement by which the file was produced, if it was.
    pub placement: Option<&'a [u8]>,
}

/// The files that are compared, unless another number is asked for.
pub const FILES: usize = 200_000;

/// What is compared so far.
pub struct Comparison {
    /// Numbers for the files, and behind them for each operation its own: one operation more changes the files and calls of no other.
    random: Vec<Random>,
    /// Which of these are drawn from now.
    from: usize,
    pub counted: Counted,
    pub files: usize,
    pub readable: usize,
    pub differences: usize,
    inputs: [Lent; 2],
    output: Lent,
    sides: Option<[bool; 2]>,
}

impl Comparison {
    pub fn new(seed: u64) -> Comparison {
        let mut seeds = Random::new(!seed);
        let own = OPERATIONS.iter().map(|_| Random::new(seeds.word()));
        Comparison {
            random: [Random::new(seed)].into_iter().chain(own).collect(),
            from: 0,
            counted: Counted::default(),
            files: 0,
            readable: 0,
            differences: 0,
            inputs: [Lent::new(2_000_000), Lent::new(2_000_000)],
            output: Lent::new(200_000),
            sides: None,
        }
    }

    /// The numbers of the files, or of the operation whose turn it is.
    pub fn random(&mut self) -> &mut Random {
        &mut self.random[self.from]
    }

    /// Calls a function of each operation, with its own numbers.
    pub fn each(&mut self, call: impl Fn(&Operation, &mut Comparison)) {
        let before = self.from;
        for (i, operation) in OPERATIONS.iter().enumerate() {
            self.from = 1 + i;
            call(operation, self);
        }
        self.from = before;
    }

    /// Lends directly before the page that nobody may touch, or directly after one, inputs and output as the two say; by chance where
    /// none are named.
    pub fn lend_at_end(&mut self, sides: Option<[bool; 2]>) {
        self.sides = sides;
    }

    /// Bytes to be lent for reading.
    pub fn input<'a>(&mut self, bytes: &'a [u8]) -> Input<'a> {
        Input { bytes, at_end: self.sides.map_or_else(|| !self.random().once_in(4), |[input, _]| input) }
    }

    /// Lends the inputs and, where there is one, an output or a workspace of this length, which holds anything before; calls the library; and
    /// compares: its answer and the output with those of the second implementation, which has a copy of the output, and the inputs and the
    /// bytes beside all that was lent with what they were. Answers what the second implementation does, and its output.
    pub fn call<const N: usize, A: PartialEq + Debug>(
        &mut self,
        what: impl Display,
        inputs: [Input; N],
        output: Option<usize>,
        library: impl FnOnce([&[u8]; N], &mut [u8]) -> A,
        second: impl FnOnce(&mut [u8]) -> A,
    ) -> (A, Vec<u8>) {
        let mut bytes = Vec::new();
        let mut at_end = true;
        if let Some(length) = output {
            bytes = self.random().bytes(length);
            at_end = self.sides.map_or_else(|| self.random().once_in(2), |[_, output]| output);
        }
        self.output.put(&bytes, at_end);
        for (room, input) in self.inputs.iter_mut().zip(inputs) {
            room.put(input.bytes, input.at_end);
        }
        lent::remember(&inputs.map(|input| input.bytes));

        let answer = library(std::array::from_fn(|i| self.inputs[i].bytes()), self.output.bytes_mut());
        let due = second(&mut bytes);

        let given = inputs.map(|input| input.bytes);
        if answer != due {
            self.differs(&what, &given, &answer, &due);
        }
        if !self.output.is(&bytes) {
            let now = hex(self.output.bytes());
            self.differs(format_args!("{what}: the bytes lent"), &given, now, hex(&bytes));
        }
        for (i, input) in given.iter().enumerate() {
            if !self.inputs[i].is(input) {
                let now = hex(self.inputs[i].bytes());
                self.differs(format_args!("{what}: input {} is only read", i + 1), &given, now, "");
            }
        }
        (due, bytes)
    }

    /// Tells a difference; the fifth ends the comparison.
    pub fn differs(&mut self, what: impl Display, inputs: &[&[u8]], library: impl Debug, second: impl Debug) {
        println!("DIFFERENCE: {what}");
        for input in inputs {
            println!("  input {}", hex(input));
        }
        println!("  library {library:?}");
        println!("  second  {second:?}");
        self.differences += 1;
        if self.differences == 5 {
            println!("five differences: stopped after {} files", self.files);
            std::process::exit(1);
        }
    }

    /// One file more.
    pub fn count_file(&mut self, readable: bool) {
        self.files += 1;
        self.readable += usize::from(readable);
    }

    /// Asks every operation about a file.
    pub fn ask(&mut self, file: &[u8]) {
        self.ask_of(file, None);
    }

    /// Asks every operation about a file that was produced by this placement.
    pub fn ask_of_produced(&mut self, file: &[u8], placement: &[u8]) {
        self.ask_of(file, Some(placement));
    }

    fn ask_of(&mut self, file: &[u8], placement: Option<&[u8]>) {
        let file = self.input(file);
        let design = reference::read(file.bytes);
        self.count_file(design.is_ok());
        let verdict = match &design {
            Ok(design) => reference::verdict(design, design.workspace()),
            Err(fault) => [fault.reason, fault.place, 0, 0],
        };
        let asked = Asked { file, design, verdict, placement };
        self.each(|operation, c| (operation.ask)(c, &asked));
    }
}
