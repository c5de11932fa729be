//! The limits of documents 01 and 02, and what follows from them, once. The
//! proved library holds files and queries to them; here they are named for what
//! is said, read and written around it.

use crate::record::{EDGE, END, ENTRY, LINK};
use crate::version::Version;

/// The largest port; the smallest is 1.
pub const MOST_PORT: u16 = 4095;
/// The most edges of a fabric.
pub const MOST_EDGES: usize = 64;
/// The most links of a fabric.
pub const MOST_LINKS: usize = 256;
/// The most entries of a fabric of version 1.
pub const MOST_ENTRIES: usize = Version::V1.most_entries();
/// The most entries at one in-port.
pub const MOST_AT_IN_PORT: usize = 64;
/// The largest hop limit; the smallest is 1.
pub const MOST_HOPS: u32 = 16;
/// The most words of a header.
pub const MOST_WORDS: usize = Version::V2.words();
/// The bytes of the shortest fabric file: start and end.
pub const LEAST_FILE_BYTES: usize = 4 * (START_WORDS + END_WORDS);
/// The bytes of the longest fabric file of version 1: 40,200.
pub const MOST_FILE_BYTES: usize = Version::V1.most_file_bytes();

const START_WORDS: usize = 1;
const LINK_WORDS: usize = 1;
const END_WORDS: usize = 1;

/// What the versions differ in follows from the words of a header, but for the
/// most entries.
impl Version {
    /// The most entries of a fabric.
    pub const fn most_entries(self) -> usize {
        match self {
            Version::V1 => 512,
            Version::V2 => 400,
        }
    }

    /// The bytes of the longest fabric file: 40,200 and 59,784.
    pub const fn most_file_bytes(self) -> usize {
        LEAST_FILE_BYTES
            + 4 * (MOST_EDGES * self.record_words(EDGE)
                + MOST_LINKS * self.record_words(LINK)
                + self.most_entries() * self.record_words(ENTRY))
    }

    /// How many words a record of this kind has; 0 if there is no such record.
    pub(crate) const fn record_words(self, kind: u32) -> usize {
        match kind {
            EDGE => 1 + 2 * self.words(),
            LINK => LINK_WORDS,
            ENTRY => 2 + 4 * self.words(),
            END => END_WORDS,
            _ => 0,
        }
    }

    /// The numbers that a call takes, a query's words but for the first: 11 and
    /// 19.
    pub const fn query_numbers(self) -> usize {
        3 + 2 * self.words()
    }

    /// The words that a verdict or a run fills: 24 and 28.
    pub const fn answer_words(self) -> usize {
        4 + self.words() + MOST_HOPS as usize
    }
}

/// The least stack of a thread that makes calls. What was measured at most, for
/// 16 hops of 63 beaters each, is in `docs/BENCHMARKS.md`, and the rest is margin.
/// `FABRIC_STACK_BYTES` of the C header says the same, which a test holds it to.
pub const STACK_BYTES: usize = 576 << 10;
