//! The program as a person meets it: its commands, its pages, every exit status and message, the examples of docs/TEXT.md.

mod assemble;
mod explain;
mod files;
mod html;
mod judge;
mod operations;
mod page;
mod pages;
mod samples;
mod shell;
mod texts;
mod verilog;
mod ways;
mod why;
mod words;
