//! A decoder of SHEF messages in plain Rust, to measure the proved decoder against.
//!
//! It reads by the same rules and writes the same listing lines into lent bytes. It shares no code
//! with the proved decoder.

mod calendar;
mod codes;
mod listing;
mod messages;
mod settings;
mod text;
mod values;

pub use calendar::Day;
pub use messages::{Answer, Fault, decode};
