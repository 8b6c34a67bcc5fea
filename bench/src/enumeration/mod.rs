//! Planner, judge and trial finals by exhaustive enumeration, from bytes to printed bytes: document 01 and items 1, 2
//! and 4 of document 02 taken word by word, and slow.
//!
//! It shares no code and no law with `independent`. That every sequence of operations costs at least what the printed
//! plan does is not used but tested: the planner panics where it fails.
mod configuration;
pub mod finals;
mod flood;
mod judge;
mod network;
mod operation;
mod planner;
mod price;
mod reach;
mod reader;
mod records;
mod refusal;
mod restoration;
mod safety;
mod start;
mod table;
mod text;

pub use text::{mark_text, plan_text};
