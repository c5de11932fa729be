//! The calls on byte slices, with typed answers.

#[cfg(test)]
mod tests;
mod trace;

pub use trace::{isolated, list, list_growing, verdict};

use std::num::NonZeroU8;

use crate::explain::{reason, Asked};
use crate::header::Header;
use crate::query::Query;
use crate::raw::RUN;
use crate::refusal::{Question, Refusal};
use crate::run::Run;
use crate::version::Version;

/// Whether a file is an accepted fabric: questions 1 to 7, of the version that it
/// names.
///
/// ```
/// let start_and_end = [2, 0, 1, 0x10, 0, 0, 0, 0x50];
/// assert!(mwishovala::accept(&start_and_end).is_ok());
/// let refusal = mwishovala::accept(&start_and_end[..7]).unwrap_err();
/// assert_eq!(refusal.to_string(), "question 1: the file has 7 bytes, fewer than 8");
/// ```
pub fn accept(file: &[u8]) -> Result<(), Refusal> {
    match Version::of_file(file) {
        Version::V1 => accept_as::<4>(file),
        Version::V2 => accept_as::<8>(file),
    }
}

/// The same by the calls of one version, which refuse a file of the other one.
pub(crate) fn accept_as<const N: usize>(file: &[u8]) -> Result<(), Refusal> {
    // The first question after the file's is the hop limit's.
    let no_hops = Query::<N> {
        hops: 0,
        ..Query::packet(0, Header::default())
    };
    let ask = |area: &mut [u8]| RUN.make(file, area, &no_hops);
    accepted(make(file, &no_hops, &mut [], ask))
}

/// A no to the hop limit alone says that the file is accepted.
fn accepted(asked: Result<usize, Refusal>) -> Result<(), Refusal> {
    match asked {
        Err(refusal) if refusal.question == Question::Hops => Ok(()),
        Err(refusal) => Err(refusal),
        Ok(_) => Err(Refusal::unknown()),
    }
}

/// One packet's way from an edge port. Where two or more entries of the highest
/// priority match, it stops with [`Fate::Tied`](crate::Fate::Tied). Where no entry
/// takes it, it is lost or, under OpenFlow 1.3, dropped.
///
/// ```
/// use mwishovala::{run, text, Fate, Header};
/// let file = text::pack("
///     edge 1 group 7 admits any
///     entry 1 -> 5 priority 10 match any set tp_dst=80
/// ")?;
/// let way = run(&file, 1, Header([1, 2, 3, 4]), 16)?;
/// assert_eq!(way.fate, Fate::Left);
/// assert_eq!((way.port, way.hops), (5, 1));
/// assert_eq!(way.header, Header([1, 2, 80, 4]));
/// assert_eq!(way.entries[..], [0]);
/// # Ok::<(), Box<dyn std::error::Error>>(())
/// ```
pub fn run<const N: usize>(
    file: &[u8],
    start: u32,
    header: Header<N>,
    hops: u32,
) -> Result<Run<N>, Refusal> {
    let query = Query {
        hops,
        ..Query::packet(start, header)
    };
    let words = answer(file, &query, |area| RUN.make(file, area, &query))?;
    Run::read(&words)
}

/// Makes a call that fills as many words as a verdict or a run.
fn answer<const N: usize>(
    file: &[u8],
    query: &Query<N>,
    call: impl FnOnce(&mut [u8]) -> u64,
) -> Result<Vec<u32>, Refusal> {
    // What is left unwritten can't pass for an answer.
    let mut area = vec![[u8::MAX; 4]; Version::of::<N>().answer_words()];
    match make(file, query, area.as_flattened_mut(), call)? {
        words if words == area.len() => Ok(area.into_iter().map(u32::from_le_bytes).collect()),
        _ => Err(Refusal::unknown()),
    }
}

/// Makes a call on the area lent: the words written, or the refusal.
fn make<const N: usize>(
    file: &[u8],
    query: &Query<N>,
    area: &mut [u8],
    call: impl FnOnce(&mut [u8]) -> u64,
) -> Result<usize, Refusal> {
    let code = call(area);
    let (place, number) = (code / 256, NonZeroU8::new((code % 256) as u8));
    let Some(number) = number else {
        return Ok(usize::try_from(place).unwrap_or(usize::MAX));
    };
    let question = Question::numbered(number);
    let asked = Asked {
        file,
        query,
        lent: area.len(),
    };
    Err(Refusal {
        question,
        place,
        reason: reason(&asked, question, place),
    })
}
