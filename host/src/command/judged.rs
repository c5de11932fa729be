//! A verdict, with what helps people to try it out and to read it right. None
//! of that changes it.

use super::json::{self, Json, Members};
use super::loaded::Loaded;
use crate::calls;
use crate::fabric::Fabric;
use crate::frame::{instead, misfits, Misfit};
use crate::header::Header;
use crate::query::{Query, Target};
use crate::refusal::Refusal;
use crate::takers::Hop;
use crate::verdict::Verdict;

pub(super) struct Judged<const N: usize> {
    pub(super) verdict: Verdict<N>,
    /// The way of the packet that the verdict names.
    pub(super) way: Vec<Hop<N>>,
    /// Why no host sends that packet.
    pub(super) misfits: Vec<Misfit>,
    /// One of the same find that a host can send, by the same way.
    pub(super) sendable: Option<Sendable<N>>,
    /// Whether links could lead to the target in more hops than were asked about.
    pub(super) further: bool,
}

/// A packet that a host can send. Others might take it than take the verdict's.
pub(super) struct Sendable<const N: usize> {
    pub(super) header: Header<N>,
    pub(super) way: Vec<Hop<N>>,
}

impl<const N: usize> Judged<N> {
    pub(super) fn of(loaded: &Loaded<N>, query: &Query<N>) -> Result<Judged<N>, Refusal> {
        let fabric = &loaded.fabric;
        let mut judged = Judged {
            verdict: calls::verdict(&loaded.bytes, query)?,
            way: Vec::new(),
            misfits: Vec::new(),
            sendable: None,
            further: leads_further(fabric, query),
        };
        if let Verdict::Reached {
            header, entries, ..
        } = &judged.verdict
        {
            judged.way = way(fabric, header, entries)?;
            judged.misfits = misfits(header);
            let sendable = match judged.misfits.is_empty() {
                true => Some(*header),
                false => instead(&loaded.bytes, query, &judged.verdict),
            };
            judged.sendable = sendable.and_then(|header| {
                let way = fabric.hops(&header, entries)?;
                Some(Sendable { header, way })
            });
        }
        Ok(judged)
    }

    pub(super) fn is_reached(&self) -> bool {
        matches!(self.verdict, Verdict::Reached { .. })
    }

    /// Its part of an answer, of one target or of a row.
    pub(super) fn in_json(&self) -> Members {
        let further = ("further", Json::Truth(self.further));
        match &self.verdict {
            Verdict::Isolated { units } => vec![
                ("verdict", json::text("isolated")),
                ("units", json::number(*units)),
                further,
            ],
            Verdict::Reached {
                units,
                port,
                hops,
                header,
                ..
            } => {
                let sendable = self.sendable.as_ref();
                let equals = |sendable: &Sendable<N>| {
                    let hops = sendable.way.iter();
                    json::list(hops.map(|hop| json::numbers(&hop.equals())))
                };
                vec![
                    ("verdict", json::text("reached")),
                    ("units", json::number(*units)),
                    further,
                    ("port", json::number(*port)),
                    ("hops", json::number(*hops)),
                    ("header", json::header(header)),
                    ("misfits", json::list(self.misfits.iter().map(json::text))),
                    (
                        "sendable",
                        sendable.map_or(Json::Null, |sendable| json::header(&sendable.header)),
                    ),
                    ("sendable_equals", sendable.map_or(Json::Null, equals)),
                    ("path", json::path(&self.way)),
                ]
            }
        }
    }
}

/// The way that the library says; where it says an entry that the file doesn't
/// have, it is none that this host knows.
pub(super) fn way<const N: usize>(
    fabric: &Fabric<N>,
    header: &Header<N>,
    entries: &[u16],
) -> Result<Vec<Hop<N>>, Refusal> {
    fabric.hops(header, entries).ok_or_else(Refusal::unknown)
}

/// Whether links could lead to the query's target, or to where packets may be
/// lost, in more hops than it asks about.
pub(super) fn leads_further<const N: usize>(fabric: &Fabric<N>, query: &Query<N>) -> bool {
    match query.target() {
        Target::Lost => fabric.leads_on(query.hops),
        Target::Port(port) => {
            let target = u16::try_from(port);
            target.is_ok_and(|target| fabric.leads_further(target, query.hops))
        }
    }
}
