//! `mwishovala gate`: what a mount hangs on.

use std::io::{self, Write};

use super::arguments::Gate;
use super::covered::covered;
use super::inquiry::{Asked, Inquiry};
use super::judged::{leads_further, way};
use super::loaded::Loaded;
use super::{describe, threads, Failure, Output, ISOLATED, REACHED};
use crate::calls::verdict;
use crate::query::Query;
use crate::takers::Hop;
use crate::verdict::Verdict;

/// The question is fixed but for the target: every header, and all hops.
pub(super) fn gate<const N: usize>(
    loaded: &Loaded<N>,
    gate: &Gate,
    out: Output,
) -> Result<u8, Failure> {
    let query = Query {
        budget: gate.budget,
        ..Query::<N>::whole(gate.target)
    };
    let inquiry = Inquiry::of("gate", loaded, Asked::Target(query));
    let verdict = threads::call(|| verdict(&loaded.bytes, &query))?
        .map_err(|refusal| inquiry.refused(refusal))?;
    let (target, hops, digest) = (query.port, query.hops, loaded.digest);
    match verdict {
        Verdict::Isolated { .. } => {
            if leads_further(&loaded.fabric, &query) {
                // The line is fixed, and the status is for it; this is for a log.
                let note = format!("links could lead further than {hops} hops to port {target}");
                let _ = writeln!(io::stderr(), "mwishovala: {note}");
            }
            let every_header = covered::<N>().every_header;
            writeln!(
                out,
                "isolated: port {target}, {every_header}, {hops} hops, sha256 {digest}"
            )?;
            Ok(ISOLATED)
        }
        Verdict::Reached {
            port,
            header,
            entries,
            ..
        } => {
            let way = way(&loaded.fabric, &header, &entries);
            let chosen = chosen(&way.map_err(|refusal| inquiry.refused(refusal))?);
            writeln!(
                out,
                "reached: port {target}, from port {port}{chosen}, sha256 {digest}; \
                 verdict has the packet"
            )?;
            Ok(REACHED)
        }
    }
}

/// At which hops other entries of the same priority might take the packet.
fn chosen<const N: usize>(way: &[Hop<N>]) -> String {
    let hops = way.iter().zip(1..);
    let hops: Vec<u16> = hops
        .filter(|(hop, _)| !hop.equals().is_empty())
        .map(|(_, place)| place)
        .collect();
    match hops[..] {
        [] => String::new(),
        [hop] => format!(", by a choice among equals at hop {hop}"),
        _ => format!(", by choices among equals at hops {}", describe::and(&hops)),
    }
}
