//! The library's calls of version 2 against the reference: document 02's Ethernet
//! fields (2.6). File and area lie against pages that end the test when they are
//! touched.

mod answers;
mod calls;
#[path = "../common/mod.rs"]
mod common;
mod files;
mod lists;
mod numbers;
mod refusals;
mod runs;
mod small;
mod together;
mod verdicts;
mod versions;
