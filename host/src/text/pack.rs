//! Text to a fabric file.

use super::choices::Choices;
use super::line::Line;
use super::lines::lines;
use super::names::begins_a_name;
use super::sentence::Sentence;
use super::token::Token;
use super::Wrong;
use crate::calls::accept;
use crate::limits::{MOST_EDGES, MOST_LINKS};
use crate::names::Names;
use crate::openflow::OpenFlow;
use crate::record::{file_of, Record, EDGE, ENTRY, LINK};
use crate::refusal::{Question, Refusal};
use crate::version::Version;

/// The fabric file that this text says; the proved library accepts it. What the
/// text names is left to [`pack_named`].
///
/// ```
/// use mwishovala::text::pack;
/// assert_eq!(pack("# nothing").unwrap(), [2, 0, 1, 0x10, 0, 0, 0, 0x50]);
/// let wrong = pack("edge 1 group 7 admits any\nlink 1 -> 40").unwrap_err();
/// assert_eq!(wrong.to_string(), "2:6: question 6 at word 10: link 1→40 starts at an edge port");
/// ```
pub fn pack(text: &str) -> Result<Vec<u8>, Wrong> {
    pack_named(text).map(|packed| packed.file)
}

/// What a text says.
#[derive(Clone, Debug, PartialEq, Eq)]
#[non_exhaustive]
pub struct Packed {
    /// A fabric file, which the proved library accepts. It has no names in it.
    pub file: Vec<u8>,
    /// The names that the text gives, to be kept beside the file.
    pub names: Names,
}

/// The fabric file that this text says, and the names.
///
/// ```
/// use mwishovala::text::{pack, pack_named};
/// let packed = pack_named("edge 1 group 7 admits any\nname 1 storage-a").unwrap();
/// assert_eq!(packed.file, pack("edge 1 group 7 admits any").unwrap());
/// assert_eq!(packed.names.of_port(1), Some("storage-a"));
/// ```
pub fn pack_named(text: &str) -> Result<Packed, Wrong> {
    let (mut said, mut names) = (Vec::new(), Names::default());
    let mut choices = Choices::default();
    for line in lines(text) {
        let mut words = Sentence::new(line?);
        match words.next() {
            Some(first) if begins_a_name(&first) => names.add(&first, &mut words)?,
            Some(first) if Choices::begins(&first) => {
                choices.make(&first, &mut words, said.is_empty())?;
            }
            Some(first) => said.push(Line::parse(first, &mut words, choices.version())?),
            None => (),
        }
    }
    said.sort_by_key(|line| in_file_order(&line.record));
    let (version, openflow) = (choices.version(), choices.openflow());
    let file = match version {
        Version::V1 => written::<4>(&said, openflow),
        Version::V2 => written::<8>(&said, openflow),
    }?;
    match accept(&file) {
        Ok(()) => Ok(Packed { file, names }),
        Err(refusal) => Err(wrong(version, &said, &refusal)),
    }
}

/// The file that these lines say, whose sets have the fields of its version.
fn written<const N: usize>(lines: &[Line], openflow: OpenFlow) -> Result<Vec<u8>, Wrong> {
    let mut records = Vec::new();
    for line in lines {
        let record = line.record.resized::<N>();
        records.push(record.ok_or_else(|| line.first.wrong("it has fields of another version"))?);
    }
    let file = file_of(openflow, records.into_iter());
    file.map_err(|error| too_long(Version::of::<N>(), lines, error.to_string()))
}

/// Edges and links have one order that question 4 lets pass; entries stay in
/// the text's.
fn in_file_order<const N: usize>(record: &Record<N>) -> (u32, u16) {
    let port = match record {
        Record::Edge(edge) => edge.port,
        Record::Link(link) => link.from,
        Record::Entry(_) => 0,
    };
    (record.kind(), port)
}

/// A refusal of the packed file, at the line that it is about.
fn wrong(version: Version, lines: &[Line], refusal: &Refusal) -> Wrong {
    let message = refusal.to_string();
    match (at_place(version, lines, refusal.place), refusal.question) {
        (_, Question::Length) => too_long(version, lines, message),
        (Some(line), Question::Ports | Question::Links) => line.port.wrong(message),
        (Some(line), _) => line.first.wrong(message),
        (None, _) => Token::whole("").wrong(message),
    }
}

/// A packed file is too long only if one kind has too many records.
fn too_long(version: Version, lines: &[Line], message: String) -> Wrong {
    match first_past_its_limit(version, lines) {
        Some(line) => line.first.wrong(message),
        None => Token::whole("").wrong(message),
    }
}

fn at_place<'l, 't>(version: Version, lines: &'l [Line<'t>], place: u64) -> Option<&'l Line<'t>> {
    let mut here = 1;
    lines.iter().find(|line| {
        let found = here == place;
        here += version.record_words(line.record.kind()) as u64;
        found
    })
}

fn first_past_its_limit<'l, 't>(version: Version, lines: &'l [Line<'t>]) -> Option<&'l Line<'t>> {
    let nth_of_kind = |kind, limit| {
        let mut of_kind = lines.iter().filter(move |line| line.record.kind() == kind);
        of_kind.nth(limit)
    };
    let limits = [
        (EDGE, MOST_EDGES),
        (LINK, MOST_LINKS),
        (ENTRY, version.most_entries()),
    ];
    limits
        .into_iter()
        .find_map(|(kind, limit)| nth_of_kind(kind, limit))
}
