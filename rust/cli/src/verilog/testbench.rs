//! The testbench: sharings, and what the library answers to each.

use super::{range, shares};
use crate::design::Design;
use crate::random::Random;
use jestrunas::SHARES_MAX;
use std::fmt::Write;

/// How many sharings are tried.
const SHARINGS: usize = 200;

/// The seed of the sharings.
const SEED: u64 = 1;

/// Shares as one value of Verilog, share 1 first: `{3'd6, 3'd1, 3'd2}`.
fn value(m: usize, shares: &[u8]) -> String {
    let shares: Vec<String> = shares.iter().map(|share| format!("{m}'d{share}")).collect();
    format!("{{{}}}", shares.join(", "))
}

/// The testbench of a design, whose file is given.
pub fn testbench(name: &str, file: &[u8], design: &Design) -> String {
    let Design { m, s, ref stages, .. } = *design;
    let (k, range, last) = (stages.len(), range(m), m * s - 1);
    let (x, y) = (shares("x", s), shares("y", s));
    let mut random = Random::new(SEED);
    let mut tries = String::new();
    for i in 0..SHARINGS {
        let mut given = [0; SHARES_MAX];
        given[..s].iter_mut().for_each(|share| *share = random.below(1 << m) as u8);
        let due = jestrunas::run(file, given).expect("the file reads, and the shares are within range");
        let _ = writeln!(tries, "        given[{i}] = {}; due[{i}] = {};", value(m, &given[..s]), value(m, &due[..s]));
    }
    let ports: String = ["x", "y"].iter().flat_map(|of| (1..=s).map(move |i| format!(", .{of}{i}({of}{i})"))).collect();
    format!(
        "// {SHARINGS} sharings of {name}, a new one at each edge, and the output shares that the library answers\n\
         module {name}_test;\n\
         \x20   localparam STAGES = {k}, SHARINGS = {SHARINGS};\n\
         \x20   reg clk = 0;\n\
         \x20   reg {range} {x};\n\
         \x20   wire {range} {y};\n\
         \x20   reg [{last}:0] given [0:SHARINGS - 1], due [0:SHARINGS - 1], seen;\n\
         \x20   integer i, answer, wrong;\n\
         \n\
         \x20   {name}_top top (.clk(clk){ports});\n\
         \n\
         \x20   initial begin\n\
         {tries}\
         \x20       wrong = 0;\n\
         \x20       for (i = 0; i < SHARINGS + STAGES; i = i + 1) begin\n\
         \x20           {{{x}}} = given[i % SHARINGS];\n\
         \x20           #5 seen = {{{y}}};\n\
         \x20           answer = i - STAGES;\n\
         \x20           if (answer >= 0 && seen !== due[answer]) begin\n\
         \x20               wrong = wrong + 1;\n\
         \x20               $display(\"sharing %0d: %h seen, %h due\", answer, seen, due[answer]);\n\
         \x20           end\n\
         \x20           clk = 1;\n\
         \x20           #5 clk = 0;\n\
         \x20       end\n\
         \x20       $display(\"{name}_test: %0d sharings, %0d wrong: %0s\", SHARINGS, wrong, wrong == 0 ? \"passed\" : \"FAILED\");\n\
         \x20       $finish(0);\n\
         \x20   end\n\
         endmodule\n",
    )
}
