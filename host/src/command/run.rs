//! `mwishovala run`.

use super::arguments::Packet;
use super::inquiry::{Asked, Inquiry};
use super::json::{self, Json, Members};
use super::judged::way;
use super::loaded::Loaded;
use super::{describe, threads, Failure, Output, DONE};
use crate::calls;
use crate::run::{Fate, Run};
use crate::takers::Hop;

pub(super) fn run<const N: usize>(
    loaded: &Loaded<N>,
    packet: &Packet,
    out: Output,
) -> Result<u8, Failure> {
    let (start, hops) = (packet.start, packet.hops);
    let header = loaded.set(&packet.header)?.lowest();
    let inquiry = Inquiry::of(
        "run",
        loaded,
        Asked::Packet {
            start,
            header,
            hops,
        },
    );
    let run = threads::call(|| calls::run(&loaded.bytes, start, header, hops))?
        .map_err(|refusal| inquiry.refused(refusal))?;
    let way = way(&loaded.fabric, &header, &run.entries);
    let way = way.map_err(|refusal| inquiry.refused(refusal))?;
    if packet.json {
        let mut members = inquiry.in_json();
        members.extend(in_json(loaded, &run, &way));
        json::write(out, members)?;
    } else {
        out.write_all(in_words(loaded, &run, &way).as_bytes())?;
        inquiry.in_words(out)?;
    }
    Ok(DONE)
}

/// The entries between which the run stopped, if that is why.
fn tied<const N: usize>(loaded: &Loaded<N>, run: &Run<N>) -> Vec<u16> {
    match run.fate {
        Fate::Tied => loaded.fabric.takers(run.port, &run.header),
        _ => Vec::new(),
    }
}

fn in_words<const N: usize>(loaded: &Loaded<N>, run: &Run<N>, way: &[Hop<N>]) -> String {
    let (port, hops) = (loaded.port(run.port), describe::hops(run.hops));
    let fate = match run.fate {
        Fate::Left => format!("left: the packet gets out at port {port} after {hops}"),
        Fate::Dropped if loaded.fabric.missed(run) => {
            let openflow = loaded.fabric.openflow;
            format!("dropped: no entry takes it at port {port}, after {hops}; {openflow} drops it")
        }
        Fate::Dropped => format!("dropped: at port {port}, with hop {}", run.hops),
        Fate::Lost => format!("lost: no entry takes it at port {port}, after {hops}"),
        Fate::Travelling => format!("still travelling: to port {port}, after {hops}"),
        Fate::Tied => {
            let tied = describe::entries(&tied(loaded, run));
            format!("tied: {tied} of the same priority might take it at port {port}, after {hops}")
        }
    };
    let way = match run.hops {
        0 => String::new(),
        _ => format!("\nit took this way\n{}", describe::path(loaded, way)),
    };
    format!(
        "{fate}\n\nits header then\n{}{way}",
        describe::packet(&run.header)
    )
}

fn in_json<const N: usize>(loaded: &Loaded<N>, run: &Run<N>, way: &[Hop<N>]) -> Members {
    let fate = match run.fate {
        Fate::Left => "left",
        Fate::Dropped => "dropped",
        Fate::Lost => "lost",
        Fate::Travelling => "travelling",
        Fate::Tied => "tied",
    };
    vec![
        ("fate", json::text(fate)),
        ("port", json::number(run.port)),
        ("hops", json::number(run.hops)),
        ("header", json::header(&run.header)),
        ("tied", json::numbers(&tied(loaded, run))),
        ("missed", Json::Truth(loaded.fabric.missed(run))),
        ("path", json::path(way)),
    ]
}
