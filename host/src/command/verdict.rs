//! `mwishovala verdict`.

use super::arguments::Trace;
use super::covered::covered;
use super::inquiry::{Asked, Inquiry};
use super::judged::Judged;
use super::loaded::Loaded;
use super::{describe, json, threads, Failure, Output, ISOLATED, REACHED};
use crate::query::Query;
use crate::verdict::Verdict;

pub(super) fn verdict<const N: usize>(
    loaded: &Loaded<N>,
    trace: &Trace,
    out: Output,
) -> Result<u8, Failure> {
    let query = loaded.query(&trace.query)?;
    let inquiry = Inquiry::of("verdict", loaded, Asked::Target(query));
    let judged = threads::call(|| Judged::of(loaded, &query))?
        .map_err(|refusal| inquiry.refused(refusal))?;
    if trace.json {
        let mut members = inquiry.in_json();
        members.extend(judged.in_json());
        json::write(out, members)?;
    } else {
        out.write_all(in_words(&inquiry, &query, &judged).as_bytes())?;
        inquiry.in_words(out)?;
    }
    Ok(match judged.is_reached() {
        true => REACHED,
        false => ISOLATED,
    })
}

fn in_words<const N: usize>(inquiry: &Inquiry<N>, query: &Query<N>, judged: &Judged<N>) -> String {
    let loaded = inquiry.loaded;
    let target = loaded.port(query.port);
    match &judged.verdict {
        Verdict::Isolated { units } => {
            let units = describe::units(*units);
            let hops = describe::hops(query.hops);
            let only = inquiry.only();
            let further = match judged.further {
                true => format!("links could lead further: of more than {hops} it says nothing\n"),
                false => String::new(),
            };
            format!(
                "isolated{only}: no foreign {} gets out at port {target} \
                 within {hops} ({units})\n{further}",
                covered::<N>().packet
            )
        }
        Verdict::Reached {
            units,
            port,
            hops,
            header,
            ..
        } => {
            let units = describe::units(*units);
            let hops = describe::hops(*hops);
            let chosen = match judged.way.iter().all(|hop| hop.equals().is_empty()) {
                true => "",
                false => ", by one choice among entries of the same priority",
            };
            format!(
                "reached: a foreign packet gets out at port {target} after {hops} ({units})\n\n\
                 it starts at port {}{}\n{}\nand takes this way{chosen}\n{}{}",
                loaded.port(*port),
                why_foreign(inquiry, *port, query.port),
                describe::packet(header),
                describe::path(loaded, &judged.way),
                to_send(judged),
            )
        }
    }
}

/// What to send to see it, where the packet itself can't be sent.
fn to_send<const N: usize>(judged: &Judged<N>) -> String {
    if judged.misfits.is_empty() {
        return String::new();
    }
    let why: String = judged
        .misfits
        .iter()
        .map(|why| format!("  {why}\n"))
        .collect();
    let instead = match &judged.sendable {
        Some(sendable) => {
            let hops = sendable.way.iter().zip(1..);
            let others = hops.filter_map(|(hop, place)| Some((place, describe::others(hop)?)));
            let others: String = others
                .map(|(place, others)| format!("  at hop {place}, {others}\n"))
                .collect();
            let packet = describe::packet(&sendable.header);
            format!("one that can, by the same way\n{packet}{others}")
        }
        None => "none can that takes the same way\n".into(),
    };
    format!("\nno host sends this packet as it is\n{why}{instead}")
}

fn why_foreign<const N: usize>(inquiry: &Inquiry<N>, port: u16, target: u32) -> String {
    let fabric = &inquiry.loaded.fabric;
    let target = u16::try_from(target)
        .ok()
        .and_then(|target| fabric.edge(target));
    match (fabric.edge(port), target) {
        (Some(edge), Some(target)) if edge.group != target.group => {
            format!(
                ", in group {} and not the target's {}",
                edge.group, target.group
            )
        }
        (Some(edge), Some(_)) => {
            let (group, admitted) = (edge.group, edge.admitted);
            format!(", in the target's group {group} but outside what is admitted, {admitted}")
        }
        _ => String::new(),
    }
}
