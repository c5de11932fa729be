//! Why a question got a no, in words: the record at the place is read again.
//! The answer itself is the proved library's; this only phrases it.

use crate::action::Transfer;
use crate::fabric::Fabric;
use crate::header::HeaderSet;
use crate::limits::{
    LEAST_FILE_BYTES, MOST_AT_IN_PORT, MOST_EDGES, MOST_HOPS, MOST_LINKS, MOST_PORT,
};
use crate::openflow::OpenFlow;
use crate::query::{Query, Target};
use crate::record::{transfer_number, Edge, Entry, Link, Record, EDGE, END, ENTRY, LINK, START};
use crate::refusal::Question;
use crate::version::{number_in, Version};
use crate::words::Words;

/// What was asked, as far as the reason depends on it, by the call of the version
/// that has so many words.
pub(crate) struct Asked<'a, const N: usize> {
    pub file: &'a [u8],
    pub query: &'a Query<N>,
    pub lent: usize,
}

/// The reason; a plain one where the bytes give none.
pub(crate) fn reason<const N: usize>(asked: &Asked<N>, question: Question, place: u64) -> String {
    let (words, version) = (Words(asked.file), Version::of::<N>());
    let place = usize::try_from(place).unwrap_or(usize::MAX);
    let why = match question {
        Question::Length => Some(length(version, asked.file.len())),
        Question::Start => start(version, words),
        Question::Record => Some(record::<N>(words, place)),
        Question::Ports | Question::Values | Question::Links | Question::Limits => {
            let passed = Fabric::<N>::before(words, place);
            let here = words.record(place);
            here.and_then(|here| of_record(question, &passed, &here))
        }
        Question::Unknown(_) => Some("no document that this host knows has its number".into()),
        _ => of_query(question, asked),
    };
    why.unwrap_or_else(|| "it got a no".into())
}

fn length(version: Version, bytes: usize) -> String {
    let most = version.most_file_bytes();
    let why = if bytes < LEAST_FILE_BYTES {
        format!("fewer than {LEAST_FILE_BYTES}")
    } else if bytes > most {
        format!("more than {most}")
    } else {
        "not a multiple of 4".into()
    };
    format!("the file has {bytes} bytes, {why}")
}

fn start(asked: Version, words: Words) -> Option<String> {
    let first = words.get(0)?;
    let (number, counted) = (number_in(first), first & 0xffff);
    Some(if first >> 28 != START {
        format!("word 0 is 0x{first:08x}, which is no start")
    } else if Version::numbered(number).is_none() {
        format!("the start is of version {number}, not 1 or 2")
    } else if number != asked.number() {
        format!("the start is of version {number}, not {}", asked.number())
    } else {
        let count = words.count();
        format!("the start counts {counted} words, the file has {count}")
    })
}

fn kind_name(kind: u32) -> &'static str {
    match kind {
        EDGE => "an edge",
        LINK => "a link",
        ENTRY => "an entry",
        END => "an end",
        _ => "a start",
    }
}

/// Question 3.
fn record<const N: usize>(words: Words, place: usize) -> String {
    let Some(first) = words.get(place) else {
        return "the file stops without an end".into();
    };
    let kind = first >> 28;
    let length = Version::of::<N>().record_words(kind);
    if length == 0 {
        return format!(
            "0x{first:08x} is of kind {kind}: edges, links, entries and the end are 2 to 5"
        );
    }
    let before = words.records::<N>().take_while(|(here, _)| *here < place);
    let last = before.last().map_or(START, |(_, record)| record.kind());
    let (name, left) = (kind_name(kind), words.count() - place);
    if kind < last {
        format!(
            "{name} after {}: edges, links, entries, end is the order",
            kind_name(last)
        )
    } else if length > left {
        format!("{name} has {length} words, but only {left} are left")
    } else if kind == END && left > 1 {
        format!("an end, but the file goes on for {} more words", left - 1)
    } else if let (ENTRY, Some(wrong)) = (kind, wrong_transfer(words, place)) {
        wrong
    } else {
        format!("{name} with bits set that have to be zero")
    }
}

/// What is wrong with an entry's transfer, if something is.
fn wrong_transfer(words: Words, entry: usize) -> Option<String> {
    let number = transfer_number(words.get(entry + 1)?);
    let says = |transfer: Transfer| format!("{} {transfer}", transfer.number());
    let known = Transfer::ALL.map(says).join(", ");
    let is_wrong = Transfer::numbered(number).is_none();
    is_wrong.then(|| format!("an entry with transfer {number}: {known}"))
}

/// Questions 4 to 7.
fn of_record<const N: usize>(
    question: Question,
    passed: &Fabric<N>,
    here: &Record<N>,
) -> Option<String> {
    match (question, here) {
        (Question::Ports, Record::Edge(edge)) => edge_ports(passed, edge),
        (Question::Ports, Record::Link(link)) => link_ports(passed, link),
        (Question::Ports, Record::Entry(entry)) => entry_ports(passed, entry),
        (Question::Values, Record::Edge(edge)) => wrong_bits(
            &edge.admitted,
            &format!("the admitted set of edge {}", edge.port),
        ),
        (Question::Values, Record::Entry(entry)) => {
            let number = passed.entries.len();
            wrong_bits(&entry.matching, &format!("the match of entry {number}"))
                .or_else(|| wrong_bits(&entry.rewrite, &format!("the rewrite of entry {number}")))
        }
        (Question::Links, Record::Link(link)) => link_ends(passed, link),
        (Question::Limits, _) => Some(limits(passed, here)),
        _ => None,
    }
}

fn edge_ports<const N: usize>(passed: &Fabric<N>, edge: &Edge<N>) -> Option<String> {
    if edge.port == 0 {
        return Some(format!("edge 0: ports are 1 to {MOST_PORT}"));
    }
    let last = passed.edges.last()?.port;
    Some(format!(
        "edge {} follows edge {last}: edge ports have to rise",
        edge.port
    ))
}

fn link_ports<const N: usize>(passed: &Fabric<N>, link: &Link) -> Option<String> {
    let name = link_name(link);
    if link.from == 0 || link.to == 0 {
        return Some(format!("{name}: ports are 1 to {MOST_PORT}"));
    }
    if link.from == link.to {
        return Some(format!("{name} ends where it starts"));
    }
    let last = link_name(passed.links.last()?);
    Some(format!("{name} follows {last}: from-ports have to rise"))
}

fn entry_ports<const N: usize>(passed: &Fabric<N>, entry: &Entry<N>) -> Option<String> {
    let (number, port) = (passed.entries.len(), entry.in_port);
    Some(if port == 0 {
        format!("entry {number} has in-port 0: in-ports are 1 to {MOST_PORT}")
    } else {
        format!("entry {number} sends out at port {port}, where it takes in")
    })
}

fn link_name(link: &Link) -> String {
    format!("link {}→{}", link.from, link.to)
}

/// Value bits outside care, or cared-for bits that no field has.
fn wrong_bits<const N: usize>(set: &HeaderSet<N>, what: &str) -> Option<String> {
    let stray = first_set(&set.stray()).map(|(word, bits)| {
        format!("{what} has value bits 0x{bits:08x} in word {word} that it doesn't care for")
    });
    let past_fields = || {
        let (word, bits) = first_set(&set.cared_past_fields())?;
        Some(format!(
            "{what} has bits 0x{bits:08x} in word {word} that have to be zero: no field has them"
        ))
    };
    stray.or_else(past_fields)
}

/// The first word that isn't 0, by its place.
fn first_set(words: &[u32]) -> Option<(usize, u32)> {
    let mut placed = words.iter().copied().enumerate();
    placed.find(|(_, bits)| *bits != 0)
}

fn link_ends<const N: usize>(passed: &Fabric<N>, link: &Link) -> Option<String> {
    let name = link_name(link);
    if passed.edge(link.from).is_some() {
        return Some(format!("{name} starts at an edge port"));
    }
    if passed.edge(link.to).is_some() {
        return Some(format!("{name} ends at an edge port"));
    }
    let mut links = passed.links.iter();
    links.find(|earlier| earlier.to == link.to)?;
    Some(format!("{name} ends where an earlier link ends"))
}

fn limits<const N: usize>(passed: &Fabric<N>, here: &Record<N>) -> String {
    match here {
        Record::Edge(edge) => format!("edge {} is one more than {MOST_EDGES} edges", edge.port),
        Record::Link(link) => format!("{} is one more than {MOST_LINKS} links", link_name(link)),
        Record::Entry(entry) => {
            let (number, most) = (passed.entries.len(), Version::of::<N>().most_entries());
            if number >= most {
                return format!("entry {number} is one more than {most} entries");
            }
            let port = entry.in_port;
            format!("entry {number} is one more than {MOST_AT_IN_PORT} entries at in-port {port}")
        }
    }
}

/// Question 8. Of a fabric of OpenFlow 1.0 a list has a target 0, so what was
/// asked there is no list.
fn target<const N: usize>(asked: &Asked<N>) -> String {
    match (asked.query.target(), Words(asked.file).openflow()) {
        (Target::Port(port), _) => format!("the target, port {port}, is no edge port"),
        (Target::Lost, OpenFlow::V1_0) => {
            "target 0 is what is lost, which only a list can be asked about".into()
        }
        (Target::Lost, openflow) => format!(
            "target 0 is what is lost, and under {openflow} nothing is: \
             what no entry takes is dropped, as its run says"
        ),
    }
}

/// Questions 8 to 13.
fn of_query<const N: usize>(question: Question, asked: &Asked<N>) -> Option<String> {
    let Query {
        port, hops, budget, ..
    } = asked.query;
    let lent = asked.lent;
    match question {
        Question::Target => Some(target(asked)),
        Question::Hops => Some(format!("a hop limit of {hops}: it is 1 to {MOST_HOPS}")),
        Question::Asked => Some(
            wrong_bits(&asked.query.asked, "the asked set")
                .unwrap_or_else(|| "a packet's header has to be given whole".into()),
        ),
        Question::From => Some(format!("the start, port {port}, is no edge port")),
        Question::Area => Some(format!("the answer doesn't fit in the {lent} bytes lent")),
        Question::Budget => Some(format!("a budget of {budget} units isn't enough")),
        _ => None,
    }
}
