//! A fabric that was read, and how it is named in answers.

use super::arguments::{Widest, WidestSet};
use super::json::{self, Json, Members};
use super::Failure;
use crate::digest::Digest;
use crate::fabric::Fabric;
use crate::field::Field;
use crate::header::HeaderSet;
use crate::limits::MOST_PORT;
use crate::names::Names;
use crate::query::Query;
use crate::version::Version;

/// It was read once: all that is said of it is about these bytes.
pub(super) struct Loaded<const N: usize> {
    pub(super) name: String,
    pub(super) bytes: Vec<u8>,
    pub(super) fabric: Fabric<N>,
    pub(super) digest: Digest,
    pub(super) names: Names,
}

impl<const N: usize> Loaded<N> {
    /// This as its headers have it, if they have all of its fields.
    pub(super) fn query(&self, query: &Widest) -> Result<Query<N>, Failure> {
        let asked = query.resized();
        asked.ok_or_else(|| self.has_not(&query.asked))
    }

    /// The same of a set alone.
    pub(super) fn set(&self, set: &WidestSet) -> Result<HeaderSet<N>, Failure> {
        let asked = set.resized();
        asked.ok_or_else(|| self.has_not(set))
    }

    /// Which field of this set a header here doesn't have.
    fn has_not(&self, set: &WidestSet) -> Failure {
        let version = Version::of::<N>();
        let is_missing = |field: &Field| field.get(&set.care) != 0 && !field.is_in(version);
        let missing = Field::ALL.into_iter().find(is_missing);
        let missing = missing.map_or(String::new(), |field| field.missing_in(version));
        self.failed(&format!("{missing}: widen makes version 2 of it"))
    }

    pub(super) fn failed(&self, why: &str) -> Failure {
        Failure::Error(format!("{}: {why}", self.name))
    }

    /// A port's number, with its names.
    pub(super) fn port(&self, port: impl Into<u32>) -> String {
        let number = port.into();
        match u16::try_from(number) {
            Ok(port) => self.names.port(port).to_string(),
            Err(_) => number.to_string(),
        }
    }

    /// The file, and what is named there.
    pub(super) fn in_json(&self) -> Members {
        let says = [
            ("version", json::number(Version::of::<N>().number())),
            ("openflow", json::text(self.fabric.openflow.name())),
        ];
        vec![
            ("fabric", named(&self.name, &self.digest, says)),
            ("names", self.names_in_json()),
        ]
    }

    fn names_in_json(&self) -> Json {
        let ports = (1..=MOST_PORT).filter_map(|port| {
            let name = self.names.of_port(port)?;
            Some((port.to_string(), json::text(name)))
        });
        let switches = self.names.switches().map(|(name, ports)| {
            let ports = json::list(ports.map(json::number));
            (name.to_string(), ports)
        });
        Json::Object(vec![
            ("ports", Json::Map(ports.collect())),
            ("switches", Json::Map(switches.collect())),
        ])
    }
}

/// A file that is no fabric says neither.
pub(super) const NO_FABRIC: [(&str, Json); 2] = [("version", Json::Null), ("openflow", Json::Null)];

/// A file by its name and its digest, and what its start says.
pub(super) fn named(file: &str, digest: &Digest, says: [(&'static str, Json); 2]) -> Json {
    let mut members = vec![("file", json::text(file)), ("sha256", json::text(digest))];
    members.extend(says);
    Json::Object(members)
}
