//! An independent replica of the batch exchange.
//!
//! It was written from two documents alone, RULES.md and FORMAT.md, to be
//! compared with another implementation byte by byte. It is plain Rust over
//! `BTreeMap`, with nothing from outside the standard library.
//!
//! - `fault`: the number and the two places of a refusal.
//! - `sha256`: the hash.
//! - `reading`: from bytes to blocks and foundings (faults 1 to 7), and length.
//! - `writing`: from commands to bytes.
//! - `exchange`: the replica itself (faults 8 to 26).
//! - `digest`: the bytes of the state, and their hash.
//! - `listing`: a stream, and what it prints.
//! - `random`, `making`, `spoiling`: made streams for comparison and speed.

#![forbid(unsafe_code)]

pub mod digest;
pub mod exchange;
pub mod fault;
pub mod listing;
pub mod making;
pub mod random;
pub mod reading;
pub mod sha256;
pub mod spoiling;
pub mod writing;
