//! What the comparisons share: numbers from a seed, designs and files made from them, on which shares a stage depends, memory to lend; and the
//! comparison of library and second implementation, an operation a module.

pub mod comparison;
mod counts;
mod depend;
pub mod files;
pub mod lent;
pub mod make;
pub mod operations;
pub mod random;

pub fn hex(bytes: &[u8]) -> String {
    bytes.iter().map(|byte| format!("{byte:02x}")).collect::<Vec<_>>().join(" ")
}
