//! The host of the proved fabric library.
//!
//! A fabric of OpenFlow switches is a file of records: edge ports with their
//! groups, links, flow entries. Three calls answer questions about it, for
//! every header at once: [`verdict`] says whether a foreign packet can get out
//! at a port, [`list`] gives every header that can, and [`run`] takes one
//! packet through. The answers are computed by code that is proved; what
//! stands here makes the calls and reads their words.
//!
//! Of the entries that match a packet, any of the highest priority may take it,
//! chosen afresh at each hop. 'Isolated' holds whatever is chosen; a verdict
//! that is reached and each find of a list show one choice; a run goes on only
//! where there is none to make. [`Fabric::hops`] says where a way has others,
//! and [`Fabric::ties`] where a fabric leaves a choice at all.
//!
//! What the entry that takes a packet makes of its header is
//! [`Entry::action_on`]: it may copy or swap addresses, and then it rewrites.
//!
//! A packet that no entry takes is lost under [`OpenFlow`] 1.0, and dropped under
//! 1.3. A list of [`Query::lost`] has every header that is lost, and
//! [`Fabric::miss`] says where.
//!
//! A file is of version 1 or 2, by which a header has four words or, with
//! Ethernet's fields, eight. [`AnyFabric::read`] reads a file of either; what
//! holds headers has their number of words as its parameter, 4 where it isn't
//! named, and a call on a [`Query`] is that version's: a file of the other one
//! gets a no to question 2. [`accept`] and [`isolated`] go by what the file says.
//!
//! No function here panics, whatever bytes it is given. A thread that makes a
//! call needs [`limits::STACK_BYTES`] of stack at least.

#![deny(unsafe_code, missing_debug_implementations, missing_docs)]
#![warn(unreachable_pub)]

mod action;
mod calls;
#[doc(hidden)]
pub mod command;
mod digest;
mod equals;
mod explain;
mod fabric;
#[cfg(test)]
mod few_bits;
mod field;
mod finds;
pub mod frame;
mod header;
pub mod limits;
mod miss;
mod names;
mod openflow;
mod path;
mod query;
#[allow(unsafe_code)]
pub mod raw;
mod record;
mod refusal;
mod run;
mod takers;
pub mod text;
mod ties;
mod verdict;
mod version;
mod walks;
mod words;

pub use action::Transfer;
pub use calls::{accept, isolated, run};
pub use calls::{list, list_growing, verdict};
pub use digest::Digest;
pub use equals::Equals;
pub use fabric::{AnyFabric, Fabric};
pub use field::{Field, MOST_FIELD_BITS};
pub use finds::{Find, Finds};
pub use header::{Header, HeaderSet};
pub use miss::Miss;
pub use names::{NamedPort, Names, Unreadable, MOST_NAME};
pub use openflow::OpenFlow;
pub use path::Path;
pub use query::{Query, Target, QUERY_NUMBERS, QUERY_NUMBERS_V2, USUAL_BUDGET};
pub use record::{Edge, Entry, Link, Unwritable};
pub use refusal::{Place, Question, Refusal};
pub use run::{Fate, Run};
pub use takers::Hop;
pub use ties::{Tie, MOST_PARTS};
pub use verdict::Verdict;
pub use version::Version;
