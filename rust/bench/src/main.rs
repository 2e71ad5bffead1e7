//! The published operations against plain C (c/plain.c), which judges one sharing at a time, built by gcc -O3 -march=native, by gcc -O3 for any x86-64
//! with AVX2, where this machine has it, by gcc -O3 for any x86-64, as the library is, and, where it is there, by clang -O3
//! -march=native: all in one run, the best of several rounds in turn, as ratios of the library's processor time to theirs.
//!
//!     cargo run --release -p bench [-- ROUNDS]

use jestrunas::native::{Forecast, Judged, Produced, Run, Shares, Verdict};
use reference::samples::{chain, cubic, d, full, six_bits, twenty_share_bits, PRESENT_F, PRESENT_G};
use reference::{encode, published_placement, Design};
use std::hint::black_box;
use std::time::Duration;

/// The functions of include/jestrunas.h, by the names that they have behind a prefix; and the libraries, each with its prefix. So both are
/// named once.
macro_rules! operations {
    ({ $($(#[$where:meta])? $module:ident: $name:literal, $prefix:literal;)* } $functions:tt) => {
        operations!(struct $functions);
        $($(#[$where])? operations!(mod $module, $name, $prefix, $functions);)*
    };
    (struct { $(fn $function:ident($($argument:ident: $type:ty),*) -> $answer:ty;)* }) => {
        /// One library of operations.
        struct Operations {
            name: &'static str,
            $($function: unsafe extern "C" fn($($type),*) -> $answer,)*
        }
    };
    (mod $module:ident, $name:literal, $prefix:literal, { $(fn $function:ident($($argument:ident: $type:ty),*) -> $answer:ty;)* }) => {
        mod $module {
            use super::*;
            extern "C" {
                $(
                    #[link_name = concat!($prefix, stringify!($function))]
                    fn $function($($argument: $type),*) -> $answer;
                )*
            }
            pub const OPERATIONS: Operations = Operations { name: $name, $($function),* };
        }
    };
}

operations! {
    {
        library: "library", "jestrunas_";
        gcc: "gcc native", "gcc_";
        avx2: "gcc x86-64-v3", "avx2_";
        any: "gcc x86-64", "any_";
        #[cfg(clang)] clang: "clang native", "clang_";
    }
    {
        fn read(file: *const u8, file_len: usize) -> Verdict;
        fn forecast(file: *const u8, file_len: usize) -> Forecast;
        fn judge(file: *const u8, file_len: usize, workspace: *mut u8, workspace_len: usize) -> Judged;
        fn run(file: *const u8, file_len: usize, shares: Shares) -> Run;
        fn produce(
            m: usize, s: usize, table: *const u8, table_len: usize, placement: *const u8, placement_len: usize,
            output: *mut u8, output_len: usize
        ) -> Produced;
        fn join(
            first: *const u8, first_len: usize, second: *const u8, second_len: usize, output: *mut u8, output_len: usize
        ) -> Produced;
        fn transform(m: usize, input: *const u8, input_len: usize, output: *mut u8, output_len: usize) -> usize;
    }
}

/// The processor time of this thread so far, which other programs on the machine do not add to.
fn now() -> Duration {
    #[repr(C)]
    struct Time {
        seconds: i64,
        nanoseconds: i64,
    }
    extern "C" {
        fn clock_gettime(clock: i32, time: *mut Time) -> i32;
    }
    const CLOCK_THREAD_CPUTIME_ID: i32 = 3;
    let mut time = Time { seconds: 0, nanoseconds: 0 };
    assert_eq!(unsafe { clock_gettime(CLOCK_THREAD_CPUTIME_ID, &mut time) }, 0);
    Duration::new(time.seconds as u64, time.nanoseconds as u32)
}

/// The best time of some calls, of each library, over some rounds in turn; and how many calls these are.
fn best(rounds: usize, all: &[Operations], mut call: impl FnMut(&Operations)) -> (Vec<Duration>, u32) {
    // as many calls a round as take some milliseconds
    let mut calls = 1;
    loop {
        let start = now();
        (0..calls).for_each(|_| call(&all[0]));
        if now() - start > Duration::from_millis(3) {
            break;
        }
        calls *= 2;
    }
    let mut least = vec![Duration::MAX; all.len()];
    for _ in 0..rounds {
        for (operations, least) in all.iter().zip(&mut least) {
            let start = now();
            (0..calls).for_each(|_| call(operations));
            *least = (*least).min(now() - start);
        }
    }
    (least, calls)
}

fn row(what: &str, operation: &str, all: &[Operations], rounds: usize, call: impl FnMut(&Operations)) {
    let (times, calls) = best(rounds, all, call);
    let ratios: Vec<String> =
        times[1..].iter().map(|time| format!("{:.2}", times[0].as_secs_f64() / time.as_secs_f64())).collect();
    println!("| {what} | {operation} | {:.3?} | {} |", times[0] / calls, ratios.join(" | "));
}

fn main() {
    let rounds = std::env::args().nth(1).map_or(7, |n| n.parse().expect("ROUNDS is a number"));
    let mut all = vec![library::OPERATIONS, gcc::OPERATIONS];
    if is_x86_feature_detected!("avx2") && is_x86_feature_detected!("bmi2") && is_x86_feature_detected!("fma") {
        all.push(avx2::OPERATIONS);
    }
    all.push(any::OPERATIONS);
    #[cfg(clang)]
    all.push(clang::OPERATIONS);
    let names: Vec<String> = all[1..].iter().map(|operations| format!("library / {}", operations.name)).collect();
    println!("| input | operation | library | {} |", names.join(" | "));
    println!("|---|---|---|{}", "---|".repeat(names.len()));

    let identity: &[u8] = &[0, 1];
    let (cubic, six) = (cubic(), six_bits());
    let designs: [(&str, Design, Option<&[u8]>); 6] = [
        ("D", d(), Some(identity)),
        ("0123456789ABCDFE, 4 shares", chain(4, 4, &[&cubic]), Some(&cubic)),
        ("0123456789ABCDFE, 5 shares", chain(4, 5, &[&cubic]), Some(&cubic)),
        ("6 bits, quadratic, 3 shares", chain(6, 3, &[&six]), Some(&six)),
        ("20 share bits, 4 stages", twenty_share_bits(), None),
        ("full file", full(), None),
    ];
    let (mut workspace, mut output) = (vec![0u8; 131_072], vec![0u8; 32_768]);
    for (name, design, table) in &designs {
        let file = encode(design);
        let what = format!("{name} ({} bytes)", file.len());
        let mut verdicts = Vec::new();
        row(&what, "verdict", &all, rounds, |o| {
            let verdict = unsafe { (o.judge)(file.as_ptr(), file.len(), workspace.as_mut_ptr(), workspace.len()) };
            verdicts.push(verdict);
            if verdicts.len() > 8 {
                verdicts.swap_remove(0);
            }
        });
        let stages = design.stages.len();
        let due = Judged { reason: 0, place: stages, component: 0, trials: (2 * stages) << (design.m * design.s) };
        assert!(verdicts.iter().all(|&verdict| verdict == due), "{name}: {verdicts:?}");
        row(&what, "forecast", &all, rounds, |o| {
            let forecast = unsafe { (o.forecast)(file.as_ptr(), file.len()) };
            assert_eq!(black_box(forecast).trials, due.trials);
        });
        row(&what, "read", &all, rounds, |o| {
            black_box(unsafe { (o.read)(file.as_ptr(), file.len()) });
        });
        row(&what, "run", &all, rounds, |o| {
            let answer = unsafe { (o.run)(file.as_ptr(), file.len(), Shares { share: [1, 0, 1, 0, 0] }) };
            assert_eq!(black_box(answer).reason, 0);
        });
        if let Some(table) = table {
            let placement = published_placement(design.s);
            row(&what, "produce", &all, rounds, |o| {
                let answer = unsafe {
                    (o.produce)(
                        design.m,
                        design.s,
                        table.as_ptr(),
                        table.len(),
                        placement.as_ptr(),
                        placement.len(),
                        output.as_mut_ptr(),
                        output.len(),
                    )
                };
                assert_eq!(black_box(answer).length, file.len());
            });
            assert_eq!(output[..file.len()], file);
        }
    }
    let [mut first_half, mut second_half] = [full(), full()];
    first_half.stages.truncate(2);
    second_half.stages.drain(..2);
    for (name, first, second, due) in [
        ("PRESENT, G and F", chain(4, 3, &[&PRESENT_G]), chain(4, 3, &[&PRESENT_F]), chain(4, 3, &[&PRESENT_G, &PRESENT_F])),
        ("full file, its halves", first_half, second_half, full()),
    ] {
        let [first, second, due] = [first, second, due].map(|design| encode(&design));
        let call = |o: &Operations, output: &mut [u8]| unsafe {
            (o.join)(first.as_ptr(), first.len(), second.as_ptr(), second.len(), output.as_mut_ptr(), output.len())
        };
        for operations in &all {
            output.fill(0);
            assert_eq!(call(operations, &mut output), Produced { reason: 0, length: due.len() }, "{name}, {}", operations.name);
            assert_eq!(output[..due.len()], due, "{name}, {}", operations.name);
        }
        row(&format!("{name} ({} and {} bytes)", first.len(), second.len()), "join", &all, rounds, |o| {
            assert_eq!(black_box(call(o, &mut output)).length, due.len());
        });
    }
    for m in 1..=6 {
        let entries = 1 << m;
        // RC6's permutation
        let table: Vec<u8> = (0..entries).map(|x| (x * (2 * x + 1) % entries) as u8).collect();
        let mut due = vec![0; entries];
        assert_eq!(reference::transform(m, &table, &mut due), 0);
        let call = |o: &Operations, output: &mut [u8]| unsafe {
            (o.transform)(m, table.as_ptr(), table.len(), output.as_mut_ptr(), output.len())
        };
        for operations in &all {
            output.fill(0);
            assert_eq!(call(operations, &mut output), 0, "width {m}, {}", operations.name);
            assert_eq!(output[..entries], due, "width {m}, {}", operations.name);
        }
        row(&format!("width {m} ({entries} bytes)"), "transform", &all, rounds, |o| {
            assert_eq!(black_box(call(o, &mut output)), 0);
        });
    }
}
