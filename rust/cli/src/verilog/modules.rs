//! The modules: a component each, and the top that has the registers.

use super::{range, shares};
use crate::design::{Design, Stage};
use crate::sharing::{self, row};
use std::fmt::Write;

/// No line is longer, but where one term is.
const WIDTH: usize = 100;

/// For synthesis: a module's boundary stays, so nothing of two components is shared or simplified together.
const KEEP_MODULE: &str = "(* keep_hierarchy = \"yes\", dont_touch = \"yes\" *)";

/// For synthesis: a register stays, and is made one with no other.
const KEEP_REGISTER: &str = "(* keep = \"true\", dont_touch = \"yes\" *)";

/// The shares, counted from 1, that a component, counted from 0, reads.
fn read(m: usize, s: usize, stage: &Stage, component: usize) -> Vec<usize> {
    (1..=s).filter(|share| stage.depends(m, component, share - 1)).collect()
}

/// `x2 and x3`, or that there is none.
fn in_words(shares: &[usize]) -> String {
    match shares {
        [] => "no share".to_owned(),
        _ => row(&shares.iter().map(|share| format!("x{share}")).collect::<Vec<_>>(), "and"),
    }
}

fn term(m: usize, term: u32) -> String {
    if term == 0 {
        return "1'b1".to_owned();
    }
    let variables = (0..u32::BITS as usize).filter(|bit| term >> bit & 1 == 1);
    variables.map(|bit| sharing::name('x', m, bit)).collect::<Vec<_>>().join(" & ")
}

/// The assignment of one bit: a sum of terms, `^` of `&`, which binds tighter.
fn assignment(text: &mut String, m: usize, bit: usize, list: &[u32]) {
    let start = format!("    assign y[{bit}] =");
    let mut column = start.len();
    text.push_str(&start);
    if list.is_empty() {
        text.push_str(" 1'b0");
    }
    for (i, &number) in list.iter().enumerate() {
        let part = format!("{}{}", if i == 0 { " " } else { " ^ " }, term(m, number));
        if column + part.len() > WIDTH && i > 0 {
            text.push_str("\n       ");
            column = 7;
        }
        text.push_str(&part);
        column += part.len();
    }
    text.push_str(";\n");
}

fn component_name(name: &str, stage: usize, component: usize) -> String {
    format!("{name}_stage{stage}_component{component}")
}

fn component(text: &mut String, name: &str, design: &Design, number: usize, component: usize) {
    let Design { m, s, .. } = *design;
    let stage = &design.stages[number];
    let shares = read(m, s, stage, component);
    let range = range(m);
    let all = if shares.len() == s { ", every share: it is not non-complete" } else { "" };
    let _ = writeln!(text, "\n// component {} of stage {}: it reads {}{all}", component + 1, number + 1, in_words(&shares));
    let _ = writeln!(text, "{KEEP_MODULE}\nmodule {} (", component_name(name, number + 1, component + 1));
    for share in shares {
        let _ = writeln!(text, "    input  wire {range} x{share},");
    }
    let _ = writeln!(text, "    output wire {range} y\n);");
    for (bit, list) in stage.lists[component * m..][..m].iter().enumerate() {
        assignment(text, m, bit, list);
    }
    text.push_str("endmodule\n");
}

/// The components of a stage, fed by what has been before, and the registers behind them.
fn stage(text: &mut String, name: &str, design: &Design, number: usize) {
    let Design { m, s, .. } = *design;
    let (range, n) = (range(m), number + 1);
    let from = |share: usize| if number == 0 { format!("x{share}") } else { format!("stage{number}_y{share}") };
    let _ = writeln!(text, "\n    // stage {n}");
    for component in 0..s {
        let (c, shares) = (component + 1, read(m, s, &design.stages[number], component));
        let ports: String = shares.iter().map(|&share| format!(".x{share}({}), ", from(share))).collect();
        let _ = writeln!(text, "    wire {range} stage{n}_d{c};");
        let _ = writeln!(text, "    {} stage{n}_component{c} ({ports}.y(stage{n}_d{c}));", component_name(name, n, c));
    }
    let _ = writeln!(text, "    {KEEP_REGISTER}\n    reg {range} {};", shares(&format!("stage{n}_y"), s));
    text.push_str("    always @(posedge clk) begin\n");
    for c in 1..=s {
        let _ = writeln!(text, "        stage{n}_y{c} <= stage{n}_d{c};");
    }
    text.push_str("    end\n");
}

fn top(text: &mut String, name: &str, design: &Design) {
    let Design { m, s, ref stages, .. } = *design;
    let range = range(m);
    let _ = writeln!(text, "\n// the chain, with a register behind each stage\n{KEEP_MODULE}\nmodule {name}_top (");
    text.push_str("    input  wire clk,\n");
    for share in 1..=s {
        let _ = writeln!(text, "    input  wire {range} x{share},");
    }
    for share in 1..=s {
        let _ = writeln!(text, "    output wire {range} y{share}{}", if share < s { "," } else { "" });
    }
    text.push_str(");\n");
    for number in 0..stages.len() {
        stage(text, name, design, number);
    }
    text.push('\n');
    for share in 1..=s {
        let _ = writeln!(text, "    assign y{share} = stage{}_y{share};", stages.len());
    }
    text.push_str("endmodule\n");
}

/// The modules of a design.
pub fn modules(name: &str, design: &Design, verdict: &str) -> String {
    let Design { m, s, ref stages, ref s_box } = *design;
    let table: Vec<String> = s_box.iter().map(u8::to_string).collect();
    let cycles = if stages.len() == 1 { "A cycle".to_owned() } else { format!("{} cycles", stages.len()) };
    let mut text = format!(
        "// {name}: an S-box of {m} bits in {s} shares\n\
         // S {}\n\
         // verdict: {verdict}\n\
         //\n\
         // Give {} from registers, a uniform sharing. {cycles} later {} are a sharing of S of\n\
         // their sum; a new sharing may follow at each edge of clk. Synthesise without flattening: no component\n\
         // may be merged with another.\n",
        table.join(" "),
        shares("x", s),
        shares("y", s),
    );
    for number in 0..stages.len() {
        for j in 0..s {
            component(&mut text, name, design, number, j);
        }
    }
    top(&mut text, name, design);
    text
}
