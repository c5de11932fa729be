//! What answers are about, which the file's version decides.

use crate::version::Version;

pub(super) struct Covered {
    /// What 'isolated', or any other answer, is about.
    pub(super) frames: &'static str,
    /// All of it, in the line that a mount hangs on.
    pub(super) every_header: &'static str,
    /// A packet of it.
    pub(super) packet: &'static str,
}

/// Of a fabric whose headers have so many words.
pub(super) fn covered<const N: usize>() -> Covered {
    match Version::of::<N>() {
        Version::V1 => Covered {
            frames: "IPv4 headers; ARP, IPv6 and other frames are not told apart",
            every_header: "every IPv4 header",
            packet: "IPv4 packet",
        },
        Version::V2 => Covered {
            frames: "frames of every dl_type; but for IPv4 and ARP, by Ethernet's fields alone",
            every_header: "every Ethernet and IPv4 header",
            packet: "frame",
        },
    }
}
