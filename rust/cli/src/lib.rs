//! The program `jestrunas`: its commands, and the text form of a design (docs/TEXT.md).

mod arguments;
mod command;
mod commands;
mod design;
mod estimate;
mod failure;
mod files;
pub mod html;
mod input;
mod json;
mod near;
mod pages;
mod progress;
mod random;
pub mod search;
pub mod sharing;
mod side_by_side;
mod tables;
pub mod text;
pub mod universal;
mod verdict;
pub mod verilog;
pub mod why;

pub use commands::run;
pub use design::{flip, Design, Stage};
