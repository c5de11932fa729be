//! The proved library's calls as they stand: a code, and the words in the area
//! lent.
//!
//! The code is place × 256 + number. On success the number is 0 and the place
//! is the count of words written; else the number is the question's that got a
//! no, and every byte of the area is as it was. Nothing checks that the
//! declarations below are those of the library: they are trusted.

use std::ffi::{c_char, CStr};

use crate::query::{Query, QUERY_NUMBERS, QUERY_NUMBERS_V2};
use crate::refusal::NO_NUMBER;
use crate::version::Version;

/// Which library is linked, by version and commit.
pub fn library() -> &'static str {
    extern "C" {
        static mwishovala_version: c_char;
    }
    // SAFETY: the archive has there a text that ends with 0 and never changes.
    let named = unsafe { CStr::from_ptr(&raw const mwishovala_version) };
    named
        .to_str()
        .unwrap_or("mwishovala, of an unknown version")
}

/// How many words a call's answer has.
#[derive(Clone, Copy, Debug, PartialEq, Eq)]
#[non_exhaustive]
pub enum Answer {
    /// Always so many.
    Words(usize),
    /// As many as its finds have.
    Finds,
}

/// A call of the library.
#[derive(Clone, Copy, Debug, PartialEq, Eq)]
#[non_exhaustive]
pub struct Call {
    /// The symbol that a linker looks for.
    pub symbol: &'static str,
    /// How many words its answer has.
    pub answer: Answer,
}

/// The words that a verdict of version 1 fills.
pub const VERDICT_WORDS: usize = Version::V1.answer_words();
/// The words that a run of version 1 fills.
pub const RUN_WORDS: usize = Version::V1.answer_words();
/// The words that a verdict of version 2 fills.
pub const VERDICT_WORDS_V2: usize = Version::V2.answer_words();
/// The words that a run of version 2 fills.
pub const RUN_WORDS_V2: usize = Version::V2.answer_words();

/// One call, made safe: it reads slices, then comes the area lent, then its
/// numbers; `query` are those of a query of version 1, `query_v2` of version 2.
macro_rules! call {
    ($(#[$says:meta])* $name:ident $symbol:ident ($($read:ident)+; query)) => {
        call! {
            $(#[$says])* $name $symbol
            ($($read)+; QUERY_NUMBERS: port limit budget c0 c1 c2 c3 v0 v1 v2 v3)
        }
    };
    ($(#[$says:meta])* $name:ident $symbol:ident ($($read:ident)+; query_v2)) => {
        call! {
            $(#[$says])* $name $symbol
            ($($read)+; QUERY_NUMBERS_V2: port limit budget
             c0 c1 c2 c3 c4 c5 c6 c7 v0 v1 v2 v3 v4 v5 v6 v7)
        }
    };
    ($(#[$says:meta])* $name:ident $symbol:ident
     ($($read:ident)+; $count:ident: $($number:ident)+)) => {
        $(#[$says])*
        pub fn $name($($read: &[u8],)+ area: &mut [u8], numbers: [u32; $count]) -> u64 {
            extern "C" {
                fn $symbol(
                    $($read: *const u8, _: usize,)+
                    area: *mut u8, _: usize,
                    $($number: u32,)+
                ) -> u64;
            }
            let [$($number),+] = numbers;
            // SAFETY: the slices are valid for their lengths during the call
            // and lie apart, and the call reads and writes nothing else: that
            // is what is proved of it.
            unsafe {
                $symbol(
                    $($read.as_ptr(), $read.len(),)+
                    area.as_mut_ptr(), area.len(),
                    $($number),+
                )
            }
        }
    };
}

/// A line for each call: its function, its symbol, what it takes, and its
/// answer.
macro_rules! calls {
    ($($(#[$says:meta])* $name:ident $symbol:ident $takes:tt $answer:expr;)+) => {
        $(call! { $(#[$says])* $name $symbol $takes })+

        /// All of them.
        pub const CALLS: &[Call] = &[
            $(Call { symbol: stringify!($symbol), answer: $answer },)+
        ];
    };
}

calls! {
    /// Is the target isolated?
    verdict fabric_verdict (file; query) Answer::Words(VERDICT_WORDS);
    /// Every find, in order; target 0 is what is lost, under OpenFlow 1.0.
    list fabric_list (file; query) Answer::Finds;
    /// One packet's way; the query's budget is unused.
    run fabric_run (file; query) Answer::Words(RUN_WORDS);
    /// [`verdict`] on a file of version 2.
    verdict_v2 fabric_verdict_v2 (file; query_v2) Answer::Words(VERDICT_WORDS_V2);
    /// [`list`] on a file of version 2.
    list_v2 fabric_list_v2 (file; query_v2) Answer::Finds;
    /// [`run`] on a file of version 2.
    run_v2 fabric_run_v2 (file; query_v2) Answer::Words(RUN_WORDS_V2);
}

/// A call as each version has it.
pub(crate) struct Versions {
    v1: fn(&[u8], &mut [u8], [u32; QUERY_NUMBERS]) -> u64,
    v2: fn(&[u8], &mut [u8], [u32; QUERY_NUMBERS_V2]) -> u64,
}

pub(crate) const VERDICT: Versions = Versions {
    v1: verdict,
    v2: verdict_v2,
};
pub(crate) const LIST: Versions = Versions {
    v1: list,
    v2: list_v2,
};
pub(crate) const RUN: Versions = Versions {
    v1: run,
    v2: run_v2,
};

impl Versions {
    /// Makes the one that takes as many numbers as the query has.
    pub(crate) fn make<const N: usize>(
        &self,
        file: &[u8],
        area: &mut [u8],
        query: &Query<N>,
    ) -> u64 {
        let numbers: Vec<u32> = query.words().collect();
        match (numbers[..].try_into(), numbers[..].try_into()) {
            (Ok(numbers), _) => (self.v1)(file, area, numbers),
            (_, Ok(numbers)) => (self.v2)(file, area, numbers),
            // No version has queries of another length.
            _ => NO_NUMBER.get().into(),
        }
    }
}
