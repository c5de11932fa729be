//! An audit's table.

use std::io;

use super::super::describe::{counted, listed};
use super::super::inquiry::{advice, Inquiry};
use super::super::json::{self, Json};
use super::super::loaded::Loaded;
use super::super::table::table;
use super::super::{ties, Output};
use super::{Row, Senders};
use crate::verdict::Verdict;

pub(super) fn in_words<const N: usize>(
    inquiry: &Inquiry<N>,
    rows: &[Row<N>],
    out: Output,
) -> io::Result<()> {
    let reached = rows.iter().filter(|row| row.is_reached()).count();
    let refused = rows.iter().filter(|row| row.judged.is_err()).count();
    let isolated = rows.len() - reached - refused;
    let ports = counted(rows.len(), "edge port", "edge ports");
    let only = inquiry.only();
    writeln!(
        out,
        "{ports}{only}: {isolated} isolated, {reached} reached, {refused} refused\n"
    )?;
    let loaded = inquiry.loaded;
    table(out, HEADING, rows.iter().map(|row| cells(loaded, row)))?;
    for row in rows {
        if let Err(refusal) = &row.judged {
            let advice = advice(refusal).map_or(String::new(), |advice| format!("; {advice}"));
            writeln!(
                out,
                "\ntarget {}: {refusal}{advice}",
                loaded.port(row.target.port)
            )?;
        }
    }
    let ties = ties::in_words(loaded);
    if !ties.is_empty() {
        writeln!(out, "\n{}", ties.join("\n"))?;
    }
    inquiry.in_words(out)
}

const HEADING: [&str; 6] = [
    "target",
    "group",
    "verdict",
    "units",
    "foreign from",
    "own from",
];

fn cells<const N: usize>(loaded: &Loaded<N>, row: &Row<N>) -> [String; 6] {
    let verdict = row.judged.as_ref().map(|judged| &judged.verdict);
    let (name, units) = match verdict {
        Ok(Verdict::Isolated { units }) => ("isolated", units.to_string()),
        Ok(Verdict::Reached { units, .. }) => ("reached", units.to_string()),
        Err(_) => ("refused", "-".into()),
    };
    let ports = |ports: &[u16]| listed(ports.iter().map(|&port| loaded.port(port)));
    let (foreign, own) = match (&row.senders, verdict) {
        (Ok(senders), _) => (ports(&senders.foreign), ports(&senders.own)),
        // The list was too long, but the verdict has one.
        (Err(_), Ok(Verdict::Reached { port, .. })) => (
            format!("{}, others unknown", loaded.port(*port)),
            "unknown".into(),
        ),
        (Err(_), _) => ("unknown".into(), "unknown".into()),
    };
    [
        loaded.port(row.target.port),
        row.target.group.to_string(),
        name.into(),
        units,
        foreign,
        own,
    ]
}

pub(super) fn in_json<const N: usize>(
    inquiry: &Inquiry<N>,
    rows: &[Row<N>],
    out: Output,
) -> io::Result<()> {
    let mut members = inquiry.in_json();
    members.extend([
        ("targets", json::list(rows.iter().map(row_in_json))),
        ("ties", ties::in_json(&inquiry.loaded.fabric)),
    ]);
    json::write(out, members)
}

/// A row's verdict is as that of one target.
fn row_in_json<const N: usize>(row: &Row<N>) -> Json {
    let mut members = vec![
        ("target", json::number(row.target.port)),
        ("group", json::number(row.target.group)),
    ];
    match &row.judged {
        Ok(judged) => members.extend(judged.in_json()),
        Err(refusal) => members.push(("refused", json::refused(refusal))),
    }
    let senders = match &row.senders {
        Ok(senders) => senders_in_json(senders),
        Err(refusal) => vec![("refused", json::refused(refusal))],
    };
    members.push(("senders", Json::Object(senders)));
    Json::Object(members)
}

fn senders_in_json(senders: &Senders) -> json::Members {
    vec![
        ("foreign", json::numbers(&senders.foreign)),
        ("own", json::numbers(&senders.own)),
    ]
}
