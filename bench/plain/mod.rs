//! The operations in plain safe Rust: what the kernel is measured against. Each takes the kernel's own steps, but judges an
//! input once and makes each table once; `insertion` is the textbook way beside them, `apart` the two ribbons in two calls.

pub mod apart;
pub mod checks;
pub mod classes;
pub mod insertion;
pub mod lines;
pub mod pairs;
pub mod products;
pub mod readers;
pub mod recordings;
pub mod runs;
pub mod stored;
pub mod tableaux;
pub mod words;
pub mod writers;
