//! The calls that trace back.

use super::{answer, make};
use crate::finds::Finds;
use crate::query::Query;
use crate::raw::{LIST, VERDICT};
use crate::refusal::{Question, Refusal};
use crate::verdict::Verdict;
use crate::version::Version;

/// Is the target isolated: can no foreign packet get out there, whichever entries
/// of the same priority take it? The call is that of the version whose headers the
/// query has.
///
/// ```
/// use mwishovala::{text, verdict, Query, Verdict};
/// let file = text::pack("
///     edge 1 group 7 admits any
///     edge 2 group 9 admits any
///     entry 1 -> drop priority 20 match tp_dst=0x1/0x3
///     entry 1 -> 2 priority 10 match nw_dst=10.0.0.2
/// ")?;
/// let Verdict::Reached { port, header, entries, .. } = verdict(&file, &Query::all_wild(2))? else {
///     panic!("it is reached");
/// };
/// assert_eq!(port, 1);
/// assert_eq!(header.0, [0, 0x0a00_0002, 2, 0]);
/// assert_eq!(entries[..], [1]);
/// assert!(matches!(verdict(&file, &Query::all_wild(1))?, Verdict::Isolated { units: 0, .. }));
/// # Ok::<(), Box<dyn std::error::Error>>(())
/// ```
pub fn verdict<const N: usize>(file: &[u8], query: &Query<N>) -> Result<Verdict<N>, Refusal> {
    let words = answer(file, query, |area| VERDICT.make(file, area, query))?;
    Verdict::read(&words)
}

/// Whether the target is isolated, for every header and 16 hops: a verdict by the
/// calls of the version that the file names.
///
/// ```
/// use mwishovala::{isolated, text, USUAL_BUDGET};
/// for version in ["version 1", "version 2"] {
///     let file = text::pack(&format!("{version}
///         edge 1 group 7 admits any
///         edge 2 group 9 admits any
///         entry 1 -> 2 priority 10 match any
///     "))?;
///     assert!(isolated(&file, 1, USUAL_BUDGET)?);
///     assert!(!isolated(&file, 2, USUAL_BUDGET)?);
/// }
/// # Ok::<(), Box<dyn std::error::Error>>(())
/// ```
pub fn isolated(file: &[u8], target: u32, budget: u32) -> Result<bool, Refusal> {
    fn asked<const N: usize>(file: &[u8], target: u32, budget: u32) -> Result<bool, Refusal> {
        let query = Query {
            budget,
            ..Query::<N>::whole(target)
        };
        let verdict = verdict(file, &query)?;
        Ok(matches!(verdict, Verdict::Isolated { .. }))
    }
    match Version::of_file(file) {
        Version::V1 => asked::<4>(file, target, budget),
        Version::V2 => asked::<8>(file, target, budget),
    }
}

/// Every header that arrives at the target under some choice among entries of the
/// same priority, as finds in the area lent. A target may be
/// [`Target::Lost`](crate::Target::Lost): every header that is lost.
///
/// ```
/// use mwishovala::{list, text, Query};
/// let file = text::pack("
///     edge 1 group 7 admits any
///     edge 2 group 9 admits any
///     entry 1 -> 2 priority 10 match nw_dst=10.0.0.2
/// ")?;
/// let mut area = [0; 1024];
/// let finds: Vec<_> = list(&file, &mut area, &Query::all_wild(2))?.collect();
/// assert_eq!(finds.len(), 1);
/// assert_eq!(finds[0].port, 1);
/// assert_eq!(finds[0].set.to_string(), "nw_dst=10.0.0.2");
/// # Ok::<(), Box<dyn std::error::Error>>(())
/// ```
pub fn list<'a, const N: usize>(
    file: &[u8],
    area: &'a mut [u8],
    query: &Query<N>,
) -> Result<Finds<'a, N>, Refusal> {
    let words = words_listed(file, area, query)?;
    written(area, words)
}

/// `list` in an area that grows while the finds don't fit, up to this many
/// bytes. Each time the list is made anew.
pub fn list_growing<'a, const N: usize>(
    file: &[u8],
    area: &'a mut Vec<u8>,
    most: usize,
    query: &Query<N>,
) -> Result<Finds<'a, N>, Refusal> {
    let mut room = area.len().max(SMALL_AREA);
    loop {
        area.resize(room.min(most), 0);
        match words_listed(file, area, query) {
            Err(refusal) if refusal.question == Question::Area && room < most => {
                room = room.saturating_mul(4);
            }
            Err(refusal) => return Err(refusal),
            Ok(words) => return written(area, words),
        }
    }
}

fn words_listed<const N: usize>(
    file: &[u8],
    area: &mut [u8],
    query: &Query<N>,
) -> Result<usize, Refusal> {
    make(file, query, area, |area| LIST.make(file, area, query))
}

/// Where `list_growing` begins.
const SMALL_AREA: usize = 1 << 16;

fn written<const N: usize>(area: &[u8], words: usize) -> Result<Finds<'_, N>, Refusal> {
    let bytes = area.get(..words.saturating_mul(4));
    bytes.and_then(Finds::new).ok_or_else(Refusal::unknown)
}
