//! A telecommand receiver in plain Rust: frames, FARM-1, reassembly, packets, channels behind locks, scripts.
//!
//! It was written independently of the crates of this repository, and shares no line with them. benchmarks/run compares
//! its answers with theirs before it counts anything. It has no proofs, and aborts if memory runs out.
pub mod channel;
pub mod journal;
pub mod link;
pub mod packet;
pub mod script;
pub mod station;
