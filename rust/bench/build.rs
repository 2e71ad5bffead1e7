// Builds c/plain.c at -O3, each time under its own prefix: with gcc for this machine, for any x86-64 with AVX2 and for any x86-64, which is
// what the library is built for, and with clang for this machine where it is there.
use std::path::Path;
use std::process::Command;

fn run(program: &str, arguments: &[&str]) -> bool {
    Command::new(program).args(arguments).status().is_ok_and(|status| status.success())
}

fn main() {
    println!("cargo::rerun-if-changed=c/plain.c");
    println!("cargo::rerun-if-changed=../../include/jestrunas.h");
    println!("cargo::rustc-check-cfg=cfg(clang)");
    let out = std::env::var("OUT_DIR").expect("cargo sets it");
    println!("cargo::rustc-link-search=native={out}");
    for (name, compiler, target) in [
        ("gcc", "gcc", "-march=native"),
        ("avx2", "gcc", "-march=x86-64-v3"),
        ("any", "gcc", "-march=x86-64"),
        ("clang", "clang", "-march=native"),
    ] {
        let object = format!("{out}/plain_{name}.o");
        let archive = format!("{out}/libplain_{name}.a");
        let prefix = format!("-DPREFIX={name}_");
        let built = run(compiler, &["-O3", target, &prefix, "-c", "c/plain.c", "-o", &object]);
        if built && run("ar", &["rcs", &archive, &object]) && Path::new(&archive).exists() {
            println!("cargo::rustc-link-lib=static=plain_{name}");
            if compiler == "clang" {
                println!("cargo::rustc-cfg=clang");
            }
        } else if compiler == "gcc" {
            panic!("gcc is needed to build bench/c/plain.c");
        }
    }
}
