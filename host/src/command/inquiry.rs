//! What was asked, which every answer says.

use super::covered::covered;
use super::json::{self, Json, Members};
use super::judged::leads_further;
use super::loaded::Loaded;
use super::manual::VERSION;
use super::{describe, Failure, Output};
use crate::header::{Header, HeaderSet};
use crate::limits::MOST_HOPS;
use crate::openflow::OpenFlow;
use crate::query::{Query, Target};
use crate::refusal::{Question, Refusal};

/// What is asked of a fabric.
pub(super) struct Inquiry<'l, const N: usize> {
    command: &'static str,
    pub(super) loaded: &'l Loaded<N>,
    asked: Asked<N>,
}

#[derive(Clone, Copy)]
pub(super) enum Asked<const N: usize> {
    /// What gets out at the query's port.
    Target(Query<N>),
    /// What gets out at each edge port.
    EveryTarget(Query<N>),
    /// Where a packet goes.
    Packet {
        start: u32,
        header: Header<N>,
        hops: u32,
    },
}

impl<const N: usize> Inquiry<'_, N> {
    pub(super) fn of<'l>(
        command: &'static str,
        loaded: &'l Loaded<N>,
        asked: Asked<N>,
    ) -> Inquiry<'l, N> {
        Inquiry {
            command,
            loaded,
            asked,
        }
    }

    /// The query of a verdict or a list.
    fn query(&self) -> Option<&Query<N>> {
        match &self.asked {
            Asked::Target(query) | Asked::EveryTarget(query) => Some(query),
            Asked::Packet { .. } => None,
        }
    }

    fn hops(&self) -> u32 {
        match &self.asked {
            Asked::Target(query) | Asked::EveryTarget(query) => query.hops,
            Asked::Packet { hops, .. } => *hops,
        }
    }

    /// What is lost has a hop left: it made fewer than the limit.
    fn is_about_lost(&self) -> bool {
        matches!(&self.asked, Asked::Target(query) if query.target() == Target::Lost)
    }

    /// Where links could lead further than the hops asked about.
    fn further(&self) -> String {
        let fabric = &self.loaded.fabric;
        match &self.asked {
            Asked::Target(query) if leads_further(fabric, query) => {
                "; links could lead further".into()
            }
            Asked::EveryTarget(query) => {
                let edges = fabric.edges.iter().map(|edge| edge.port);
                let ports: Vec<u16> = edges
                    .filter(|&port| fabric.leads_further(port, query.hops))
                    .collect();
                match ports.is_empty() {
                    true => String::new(),
                    false => format!("; links could lead further to {}", describe::listed(ports)),
                }
            }
            _ => String::new(),
        }
    }

    /// Whether every header and all hops are asked about.
    pub(super) fn is_whole(&self) -> bool {
        self.narrowings().is_empty()
    }

    /// How an answer to less than the whole question begins to say so.
    pub(super) fn only(&self) -> String {
        match self.is_whole() {
            true => String::new(),
            false => format!(", but only {}", self.narrowings().join(" and ")),
        }
    }

    fn narrowings(&self) -> Vec<String> {
        let mut narrowings = Vec::new();
        if let Some(query) = self.query() {
            if query.asked != HeaderSet::ALL_WILD {
                narrowings.push(format!("for headers {}", query.asked));
            }
            if query.hops != MOST_HOPS {
                let hops = describe::hops(query.hops);
                narrowings.push(match self.is_about_lost() {
                    true => format!("after fewer than {hops}"),
                    false => format!("within {hops}"),
                });
            }
        }
        narrowings
    }

    /// Line by line.
    pub(super) fn lines(&self) -> Vec<String> {
        let (file, digest) = (&self.loaded.name, self.loaded.digest);
        let mut lines = vec![("fabric", format!("{file}, sha256 {digest}"))];
        lines.extend(self.openflow().map(|said| ("openflow", said)));
        lines.extend(match &self.asked {
            Asked::Target(query) => vec![
                ("target", self.target(query)),
                ("headers", query.asked.to_string()),
            ],
            Asked::EveryTarget(query) => vec![
                ("targets", "every edge port".into()),
                ("headers", query.asked.to_string()),
            ],
            Asked::Packet { start, header, .. } => vec![
                ("start", format!("port {}", self.loaded.port(*start))),
                ("header", header.to_string()),
            ],
        });
        let further = self.further();
        let limit = match self.is_about_lost() {
            true => "fewer than",
            false => "at most",
        };
        lines.push(("hops", format!("{limit} {}{further}", self.hops())));
        if let Some(query) = self.query() {
            lines.push(("budget", format!("{} units", query.budget)));
        }
        lines.push(("covers", covered::<N>().frames.into()));
        lines.push(("version", format!("mwishovala {VERSION}")));
        let lines = lines.into_iter();
        lines
            .map(|(name, value)| format!("{name:<8} {value}"))
            .collect()
    }

    /// What is said of an OpenFlow that isn't 1.0.
    fn openflow(&self) -> Option<String> {
        match self.loaded.fabric.openflow {
            OpenFlow::V1_0 => None,
            OpenFlow::V1_3 => Some("1.3: a packet that no entry takes is dropped".into()),
        }
    }

    fn target(&self, query: &Query<N>) -> String {
        match query.target() {
            Target::Port(port) => format!("port {}", self.loaded.port(port)),
            Target::Lost => "what is lost: no entry takes it".into(),
        }
    }

    /// What follows the answer in words.
    pub(super) fn in_words(&self, out: Output) -> std::io::Result<()> {
        writeln!(out, "\nasked")?;
        self.lines()
            .iter()
            .try_for_each(|line| writeln!(out, "  {line}"))
    }

    /// What comes before the answer in JSON.
    pub(super) fn in_json(&self) -> Members {
        let mut members = json::head(Some(self.command));
        members.extend(self.about());
        members
    }

    fn about(&self) -> Members {
        let mut asked = match &self.asked {
            Asked::Target(query) => vec![("target", json::number(query.port))],
            Asked::EveryTarget(_) => vec![("target", Json::Null)],
            Asked::Packet { start, header, .. } => vec![
                ("start", json::number(*start)),
                ("header", json::header(header)),
            ],
        };
        asked.push(("hops", json::number(self.hops())));
        if let Some(query) = self.query() {
            asked.extend([
                ("headers", json::set(&query.asked)),
                ("budget", json::number(query.budget)),
                ("whole", Json::Truth(self.is_whole())),
            ]);
        }
        let mut members = self.loaded.in_json();
        members.push(("asked", Json::Object(asked)));
        members.push(("covers", json::text(covered::<N>().frames)));
        members
    }

    /// A no to this.
    pub(super) fn refused(&self, refusal: Refusal) -> Failure {
        Failure::Refused {
            file: self.loaded.name.clone(),
            refusal,
            about: self.about(),
        }
    }
}

/// What to try after a no, if something may help.
pub(super) fn advice(refusal: &Refusal) -> Option<&'static str> {
    match refusal.question {
        Question::Budget => Some(
            "try a larger --budget, or a narrower set, \
             which verdict, list and audit take as --asked",
        ),
        _ => None,
    }
}
