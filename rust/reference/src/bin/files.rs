//! Writes the lines `file HEX` of the input of the program `bench_designs` to standard output.

use reference::rows::line_of;
use reference::samples::files;

fn main() {
    for file in files() {
        println!("{}", line_of(&file));
    }
}
