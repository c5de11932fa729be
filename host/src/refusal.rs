//! A no: which question, where, and why.

mod question;

pub use question::{Place, Question};

use std::error::Error;
use std::fmt;
use std::num::NonZeroU8;

/// Which question got a no, where, and why. Nothing was answered.
///
/// ```
/// use mwishovala::{accept, Question};
/// let refusal = accept(b"nonsense").unwrap_err();
/// assert_eq!(refusal.question, Question::Start);
/// assert_eq!(refusal.to_string(), "question 2: word 0 is 0x736e6f6e, which is no start");
/// ```
#[derive(Clone, Debug, PartialEq, Eq)]
#[non_exhaustive]
pub struct Refusal {
    /// Which question.
    pub question: Question,
    /// Where; `question.place()` says what it counts.
    pub place: u64,
    /// In words, read again from what was asked.
    pub reason: String,
}

/// The number of a no that no library gives.
pub(crate) const NO_NUMBER: NonZeroU8 = NonZeroU8::MAX;

impl Refusal {
    /// An answer that no document has, by a library that this host doesn't
    /// know. Its number is none that a library gives.
    pub(crate) fn unknown() -> Refusal {
        Refusal {
            question: Question::Unknown(NO_NUMBER),
            place: 0,
            reason: "the library's answer is none of document 01's".into(),
        }
    }
}

impl fmt::Display for Refusal {
    fn fmt(&self, f: &mut fmt::Formatter) -> fmt::Result {
        write!(f, "question {}", self.question.number())?;
        let place = self.place;
        match self.question.place() {
            Place::Nothing => Ok(()),
            Place::Word => write!(f, " at word {place}"),
            Place::Line => write!(f, " at line {place}"),
            Place::Record => write!(f, " at record {place}"),
            Place::Entry => write!(f, " at entry {place}"),
        }?;
        write!(f, ": {}", self.reason)
    }
}

impl Error for Refusal {}
