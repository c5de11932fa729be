//! The versions of the fabric file (document 02, 2.6), by which a header has so
//! many words.

use crate::record::START;
use crate::words::Words;

/// A version of the fabric file. What holds headers has their number of words
/// as its parameter: 4 or 8.
#[derive(Clone, Copy, Debug, Default, PartialEq, Eq, Hash)]
pub enum Version {
    /// A header has four words, IPv4's fields and the VLAN.
    #[default]
    V1,
    /// A header has eight: those, and then Ethernet's.
    V2,
}

impl Version {
    /// Both.
    pub const ALL: [Version; 2] = [Version::V1, Version::V2];

    /// The one whose headers have so many words. There is none with another N,
    /// and what asks for it doesn't compile.
    pub const fn of<const N: usize>() -> Version {
        const {
            match N {
                4 => Version::V1,
                8 => Version::V2,
                _ => panic!("no version has headers of so many words"),
            }
        }
    }

    /// The one that a file's first word names. A file that names none is asked
    /// about as version 1, whose calls refuse it.
    ///
    /// ```
    /// use mwishovala::{text::pack, Version};
    /// assert_eq!(Version::of_file(&pack("# nothing")?), Version::V1);
    /// assert_eq!(Version::of_file(b"nonsense"), Version::V1);
    /// # Ok::<(), mwishovala::text::Wrong>(())
    /// ```
    pub fn of_file(file: &[u8]) -> Version {
        let start = Words(file).get(0).filter(|first| first >> 28 == START);
        let named = start.and_then(|start| Version::numbered(number_in(start)));
        named.unwrap_or_default()
    }

    /// The one with this number, if there is one.
    pub fn numbered(number: u32) -> Option<Version> {
        let mut all = Version::ALL.into_iter();
        all.find(|version| version.number() == number)
    }

    /// Its number in a file's first word.
    pub const fn number(self) -> u32 {
        match self {
            Version::V1 => 1,
            Version::V2 => 2,
        }
    }

    /// `1` or `2`.
    pub const fn name(self) -> &'static str {
        match self {
            Version::V1 => "1",
            Version::V2 => "2",
        }
    }

    /// How many words a header has.
    pub const fn words(self) -> usize {
        match self {
            Version::V1 => 4,
            Version::V2 => 8,
        }
    }
}

/// The number in bits 26..16 of a start. Not each is a version's.
pub(crate) fn number_in(start: u32) -> u32 {
    start >> 16 & 0x7ff
}
