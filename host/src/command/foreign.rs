//! Whose packets a find holds.

use crate::finds::Find;
use crate::record::Edge;

/// "A packet is foreign if its edge port is in another group than the target,
/// or its header is outside that port's admitted set."
#[derive(Clone, Copy, PartialEq, Eq)]
pub(super) enum Share {
    Own,
    Foreign,
    Both,
}

impl Share {
    pub(super) fn of<const N: usize>(find: &Find<N>, edge: &Edge<N>, target: &Edge<N>) -> Share {
        if edge.group != target.group || !find.set.meets(&edge.admitted) {
            Share::Foreign
        } else if find.set.is_within(&edge.admitted) {
            Share::Own
        } else {
            Share::Both
        }
    }

    pub(super) fn has_foreign(self) -> bool {
        self != Share::Own
    }

    pub(super) fn has_own(self) -> bool {
        self != Share::Foreign
    }

    pub(super) fn name(self) -> &'static str {
        match self {
            Share::Own => "own",
            Share::Foreign => "foreign",
            Share::Both => "both",
        }
    }
}
