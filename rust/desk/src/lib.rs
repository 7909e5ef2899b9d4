//! Turns a readable description of a desk into `graph.bin` and `proposal.bin`, and back.
//!
#![doc = include_str!("../FORMAT.md")]
#![warn(clippy::all)]

pub mod command;
mod description;
mod folder;
mod parse;
mod print;

pub use description::{Description, Files, Refused};
pub use parse::Mistake;
