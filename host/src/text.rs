//! Fabrics and header sets as text that people read and write.
//!
//! A line for each edge, link and entry, and `#` before a remark:
//!
//! ```text
//! openflow 1.3
//! edge 1 group 7 admits nw_src=10.0.0.0/24
//! edge 2 group 9 admits any
//! link 10 -> 11
//! entry 1 -> 10 priority 20 match nw_dst=10.0.0.2,nw_proto=tcp,tp_dst=80 set dl_vlan=5
//! entry 11 -> 12 priority 7 match nw_dst=10.0.0.80 swap set nw_tos=4
//! entry 11 -> drop priority 1 match any
//! name 2 storage-a
//! switch leaf-1 1 10
//! ```
//!
//! A name is a letter, then letters, digits, `-`, `_` and `.`, 64 at most. Each
//! port has at most one and is on at most one switch, and no two have the same.
//! Names aren't in the fabric file: they are kept beside it.
//!
//! Entries are numbered from 0 as they stand; of equal priorities none comes
//! first. Behind its match an entry may `copy` nw_src over nw_dst or `swap` the
//! two, and then `set` fields. Edges and links, whose order in a file is fixed,
//! may stand anywhere.
//!
//! `openflow` is 1.0 or 1.3, and 1.0 in a text without it: what becomes of a
//! packet that no entry takes. `version` is 1 or 2, and 1 in a text without it: of
//! version 2 are the fields dl_src, dl_dst, dl_type and dl_vlan_pcp. Each stands at
//! most once, before every edge, link and entry, so that it is seen, and a text
//! behind another one changes nothing of it.
//!
//! ```text
//! version 2
//! edge 1 group 7 admits dl_src=02:00:00:00:00:01,dl_type=ip
//! entry 1 -> 2 priority 9 match dl_dst=02:00:00:00:00:00/ff:ff:ff:00:00:00,dl_type=0x0806
//! ```

mod choices;
mod echo;
mod line;
mod lines;
mod names;
mod pack;
mod sentence;
mod sets;
mod show;
mod token;

pub use lines::{MOST_LINES, MOST_LINE_BYTES, MOST_WORD_BYTES};
pub use pack::{pack, pack_named, Packed};
pub use show::{show, show_named};

pub(crate) use sets::parse_header;
pub(crate) use show::action;

use std::error::Error;
use std::fmt;

/// What is wrong with a text, and where, counted from 1.
#[derive(Clone, Debug, PartialEq, Eq)]
pub struct Wrong {
    /// Which line.
    pub line: usize,
    /// Which of its characters.
    pub column: usize,
    /// What is wrong, with nothing of the text in it that isn't printable.
    pub message: String,
}

impl fmt::Display for Wrong {
    fn fmt(&self, f: &mut fmt::Formatter) -> fmt::Result {
        write!(f, "{}:{}: {}", self.line, self.column, self.message)
    }
}

impl Error for Wrong {}
