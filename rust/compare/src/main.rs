//! Compares the library with the second implementation: every answer, and every lent byte afterwards. What is lent stands directly
//! beside a page that nobody may touch.
//!
//!     compare [FILES [SEED]]
//!
//! FILES is the number of generated files, 200,000 unless said; those at the edges come before. The last lines count what was compared; the exit
//! status is 1 at a difference (printed with the inputs and both answers), where a reason that is not due occurred, or where one that is, or
//! anything else that an operation's module in `operations` says must occur, never did.

use compare::comparison::{Comparison, FILES};
use compare::operations::OPERATIONS;
use compare::{files, lent};
use std::time::Instant;

fn main() {
    let mut arguments = std::env::args().skip(1);
    let count = arguments.next().map_or(FILES, |n| n.replace(['_', ','], "").parse().expect("FILES is a number"));
    let seed = arguments.next().map_or(20_261_115, |n| n.parse().expect("SEED is a number"));
    let start = Instant::now();
    lent::watch();
    let mut c = Comparison::new(seed);
    for sides in [[true, true], [true, false], [false, true], [false, false]] {
        c.lend_at_end(Some(sides));
        files::edges(&mut c);
        c.each(|operation, c| (operation.edges)(c));
    }
    c.lend_at_end(None);
    files::every(&mut c);
    c.each(|operation, c| (operation.every)(c));
    println!("edges, and every file and call of some kinds: {} files, {:.1} s", c.files, start.elapsed().as_secs_f64());
    let most = c.files + count;
    while c.files < most {
        files::generated(&mut c);
        c.each(|operation, c| (operation.generated)(c));
    }

    let complete = OPERATIONS.iter().fold(true, |complete, operation| (operation.say)(&c) && complete);
    println!(
        "seed {seed}: {} files ({} readable), {} differences, {:.1} s",
        c.files,
        c.readable,
        c.differences,
        start.elapsed().as_secs_f64()
    );
    if c.differences > 0 || !complete {
        std::process::exit(1);
    }
}
