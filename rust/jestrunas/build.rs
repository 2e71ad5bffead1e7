// Links libjestrunas.a: from the folder that JESTRUNAS_LIB_DIR names, or target/staticlib of the repository.
use std::path::PathBuf;

fn main() {
    println!("cargo::rerun-if-env-changed=JESTRUNAS_LIB_DIR");
    let folder = match std::env::var_os("JESTRUNAS_LIB_DIR") {
        Some(folder) => PathBuf::from(folder),
        None => PathBuf::from(std::env::var_os("CARGO_MANIFEST_DIR").expect("cargo sets it")).join("../../target/staticlib"),
    };
    let archive = folder.join("libjestrunas.a");
    println!("cargo::rerun-if-changed={}", archive.display());
    // an error, since cargo shows no warning of a package that comes from elsewhere
    if !archive.exists() {
        eprintln!(
            "{} is not there: set JESTRUNAS_LIB_DIR to the folder of libjestrunas.a, as an absolute path (after `tools/install PREFIX` of \
             Jestrunas it is PREFIX/lib), or run `tools/build library` where the repository is at hand",
            archive.display()
        );
        std::process::exit(1);
    }
    println!("cargo::rustc-link-search=native={}", folder.display());
    println!("cargo::rustc-link-lib=static=jestrunas");
}
