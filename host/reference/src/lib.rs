//! Document 01 once more, with document 02's equal priorities (2.3), reply entries
//! (2.5), Ethernet fields (2.6) and table miss (2.7), made for tests. It shares
//! nothing with the product: not its language, not its code, not its shape. Where
//! the two differ, one of them is wrong.
//!
//! The yardstick is `bits`, `set`, `transfer`, `fabric`, `file`, `forward`, `index`,
//! `trace`, `calls` and `query`, in this order. `ways` with `brute` and `ternary`
//! are two naive checks on it; `random` makes fabrics, queries and damaged files,
//! and `examples` are made by hand.
//!
//! All of it is for files of either version, by the type of a header's bits. What is
//! named here is version 1's, and in `wide` version 2's.

#![forbid(unsafe_code)]

pub mod bits;
pub mod brute;
pub mod calls;
pub mod ethernet;
pub mod examples;
pub mod fabric;
pub mod file;
pub mod forward;
pub mod index;
pub mod query;
pub mod random;
pub mod refusal;
pub mod set;
pub mod ternary;
pub mod trace;
pub mod transfer;
pub mod ways;
pub mod wide;

pub use bits::{Bits, Wide, Words};
pub use fabric::{Link, OpenFlow};
pub use refusal::Refusal;
pub use set::Header;
pub use transfer::Transfer;

pub type Set = set::Set<Header>;
pub type Rewrite = set::Rewrite<Header>;
pub type Edge = fabric::Edge<Header>;
pub type Entry = fabric::Entry<Header>;
pub type Fabric = fabric::Fabric<Header>;
pub type Query = calls::Query<[u32; 4]>;

// The calls of a version by themselves are compiled here, where all that they call
// can be inlined.

/// Version 1's verdict.
pub fn verdict(file: &[u8], area: &mut [u8], query: &Query) -> u64 {
    calls::verdict(file, area, query)
}

/// Version 1's list.
pub fn list(file: &[u8], area: &mut [u8], query: &Query) -> u64 {
    calls::list(file, area, query)
}

/// Version 1's run.
pub fn run(file: &[u8], area: &mut [u8], query: &Query) -> u64 {
    calls::run(file, area, query)
}
