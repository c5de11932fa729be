//! `mwishovala audit`: every edge port as the target, and who reaches whom.

mod report;

use super::arguments::Audit;
use super::foreign::Share;
use super::inquiry::{Asked, Inquiry};
use super::judged::Judged;
use super::loaded::Loaded;
use super::{threads, Failure, Output, ISOLATED, NO_ANSWER, REACHED};
use crate::calls::list_growing;
use crate::fabric::Fabric;
use crate::finds::Finds;
use crate::query::Query;
use crate::record::Edge;
use crate::refusal::{Question, Refusal};

/// The most bytes that one target's list may take.
const MOST_AREA: usize = 64 << 20;

/// No verdict on no port is no 'isolated'.
const NOTHING_TO_ISOLATE: &str = "it has no edge ports, so there is nothing to audit";

/// What is known of one target.
struct Row<const N: usize> {
    target: Edge<N>,
    judged: Result<Judged<N>, Refusal>,
    senders: Result<Senders, Refusal>,
}

/// The edge ports whose packets get out at a target, rising.
#[derive(Default)]
struct Senders {
    foreign: Vec<u16>,
    own: Vec<u16>,
}

pub(super) fn audit<const N: usize>(
    loaded: &Loaded<N>,
    audit: &Audit,
    out: Output,
) -> Result<u8, Failure> {
    let edges = &loaded.fabric.edges;
    if edges.is_empty() {
        return Err(loaded.failed(NOTHING_TO_ISOLATE));
    }
    let query = loaded.query(&audit.query)?;
    let inquiry = Inquiry::of("audit", loaded, Asked::EveryTarget(query));
    let rows = threads::each(edges, audit.jobs, "edge ports", |target| {
        Row::examine(loaded, target, &query)
    })?;
    if let Some(refusal) = refused_for_all(&rows) {
        return Err(inquiry.refused(refusal.clone()));
    }
    match audit.json {
        true => report::in_json(&inquiry, &rows, out)?,
        false => report::in_words(&inquiry, &rows, out)?,
    }
    Ok(if rows.iter().any(|row| row.judged.is_err()) {
        NO_ANSWER
    } else if rows.iter().any(Row::is_reached) {
        REACHED
    } else {
        ISOLATED
    })
}

/// A refusal that has nothing to do with the target.
fn refused_for_all<const N: usize>(rows: &[Row<N>]) -> Option<&Refusal> {
    let refusal = rows.first()?.judged.as_ref().err()?;
    matches!(refusal.question, Question::Hops | Question::Asked).then_some(refusal)
}

impl<const N: usize> Row<N> {
    fn examine(loaded: &Loaded<N>, target: &Edge<N>, query: &Query<N>) -> Row<N> {
        let query = Query {
            port: u32::from(target.port),
            ..*query
        };
        let mut area = Vec::new();
        let finds = list_growing(&loaded.bytes, &mut area, MOST_AREA, &query);
        Row {
            target: *target,
            judged: Judged::of(loaded, &query),
            senders: finds.map(|finds| Senders::of(finds, &loaded.fabric, target)),
        }
    }

    fn is_reached(&self) -> bool {
        self.judged.as_ref().is_ok_and(Judged::is_reached)
    }
}

impl Senders {
    fn of<const N: usize>(finds: Finds<N>, fabric: &Fabric<N>, target: &Edge<N>) -> Senders {
        let mut senders = Senders::default();
        for find in finds {
            let Some(edge) = fabric.edge(find.port) else {
                continue;
            };
            let share = Share::of(&find, edge, target);
            if share.has_foreign() {
                senders.foreign.push(find.port);
            }
            if share.has_own() {
                senders.own.push(find.port);
            }
        }
        for ports in [&mut senders.foreign, &mut senders.own] {
            ports.sort_unstable();
            ports.dedup();
        }
        senders
    }
}
