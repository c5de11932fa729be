//! Which OpenFlow a fabric's switches follow (document 02, 2.7), by which a
//! packet that no entry takes is lost or dropped.

use std::fmt;

/// What becomes of a table miss, a packet that no entry takes. Nothing else
/// depends on it.
#[derive(Clone, Copy, Debug, Default, PartialEq, Eq, Hash)]
#[non_exhaustive]
pub enum OpenFlow {
    /// OpenFlow 1.0: it is lost, and a list can be asked for all that are.
    #[default]
    V1_0,
    /// OpenFlow 1.3: it is dropped where it is, without a hop.
    V1_3,
}

/// The bit of a start that chooses OpenFlow 1.3.
const CHOICE: u32 = 1 << 27;

impl OpenFlow {
    pub(crate) const ALL: [OpenFlow; 2] = [OpenFlow::V1_0, OpenFlow::V1_3];

    /// What this start says.
    pub(crate) fn of_start(start: u32) -> OpenFlow {
        match start & CHOICE {
            0 => OpenFlow::V1_0,
            _ => OpenFlow::V1_3,
        }
    }

    /// What a start has for it.
    pub(crate) fn bit(self) -> u32 {
        match self {
            OpenFlow::V1_0 => 0,
            OpenFlow::V1_3 => CHOICE,
        }
    }

    /// `1.0` or `1.3`.
    pub fn name(self) -> &'static str {
        match self {
            OpenFlow::V1_0 => "1.0",
            OpenFlow::V1_3 => "1.3",
        }
    }
}

impl fmt::Display for OpenFlow {
    fn fmt(&self, f: &mut fmt::Formatter) -> fmt::Result {
        write!(f, "OpenFlow {}", self.name())
    }
}
