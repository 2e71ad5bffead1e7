//! A design as Verilog: a module for each component of each stage, whose ports are the shares that it reads and no other, a register behind
//! each stage, and a testbench that tries the library's answers (docs/HARDWARE.md).

mod modules;
mod testbench;
mod yosys;

use crate::design::Design;

/// The files of a design under one name.
pub struct Files {
    /// NAME.v: the components and the top module.
    pub modules: String,
    /// NAME_test.v: the testbench.
    pub testbench: String,
    /// NAME.ys: the script for Yosys.
    pub yosys: String,
}

/// The files of a design, whose file and verdict in words are given. The name begins those of modules.
pub fn files(name: &str, file: &[u8], design: &Design, verdict: &str) -> Files {
    Files {
        modules: modules::modules(name, design, verdict),
        testbench: testbench::testbench(name, file, design),
        yosys: yosys::script(name),
    }
}

/// Whether modules can be named by it: letters, digits and `_`, no digit first.
pub fn is_name(name: &str) -> bool {
    let mut bytes = name.bytes();
    bytes.next().is_some_and(|first| first == b'_' || first.is_ascii_alphabetic())
        && bytes.all(|byte| byte == b'_' || byte.is_ascii_alphanumeric())
}

/// The bits of a share as a range of Verilog: `[3:0]` where m is 4.
fn range(m: usize) -> String {
    format!("[{}:0]", m - 1)
}

/// The shares of an input or an output, one behind the other: `x1, x2, x3`.
fn shares(name: &str, s: usize) -> String {
    (1..=s).map(|share| format!("{name}{share}")).collect::<Vec<_>>().join(", ")
}
