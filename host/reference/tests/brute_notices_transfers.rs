//! The naive checks find what is wrong in programs that undo or apply copies and
//! swaps in other ways than document 02's 2.5 says.

mod common;

use common::{on_cases, Seen};
use reference::brute::{arrivals, check_list, check_run, check_verdict, Arrivals};
use reference::forward;
use reference::random::Small;
use reference::ternary::{self, joined, Ternary};
use reference::ways::{Packet, Way};
use reference::{Entry, Header, OpenFlow, Query, Transfer};

/// What has to come in by an entry, for what is wanted behind it.
type Undo = fn(&Entry, &Ternary) -> Option<Ternary>;
/// What an entry makes of a header.
type Apply = fn(&Entry, Header) -> Header;

const X: u8 = b'x';
/// Beyond this a case is skipped.
const MOST_EVENTS: usize = 10_000;

/// Undoes an entry; but if it transfers so, then by this for each bit of nw_src and
/// the same of nw_dst.
fn undone(
    entry: &Entry,
    wanted: &Ternary,
    wrong: Transfer,
    bits: impl Fn(u8, u8) -> Option<[u8; 2]>,
) -> Option<Ternary> {
    if entry.transfer != wrong {
        return ternary::undo(entry, wanted);
    }
    let mut before = ternary::undo_rewrite(entry, wanted)?;
    for src in 0..32 {
        [before[src], before[src + 32]] = bits(before[src], before[src + 32])?;
    }
    Some(before)
}

/// The care of one bit with the value of another.
fn cared_as(care: u8, value: u8) -> u8 {
    match (care, value) {
        (X, _) => X,
        (_, b'1') => b'1',
        _ => b'0',
    }
}

/// What is wrong with a program's undoing of entries.
const WRONG_UNDOS: [(&str, Undo); 8] = [
    ("transfers are left out", ternary::undo_rewrite),
    ("the transfer is undone first", |entry, wanted| {
        let before = ternary::undo_transfer(entry, wanted)?;
        ternary::undo_rewrite(entry, &before)
    }),
    ("a copy the wrong way round", |entry, wanted| {
        undone(entry, wanted, Transfer::Copy, |src, dst| {
            Some([X, joined(src, dst)?])
        })
    }),
    ("wants are joined unasked", |entry, wanted| {
        undone(entry, wanted, Transfer::Copy, |src, dst| {
            Some([joined(src, dst).unwrap_or(b'1'), X])
        })
    }),
    ("what a copy wants is forgotten", |entry, wanted| {
        undone(entry, wanted, Transfer::Copy, |src, _| Some([src, X]))
    }),
    ("the old nw_dst is still wanted", |entry, wanted| {
        undone(entry, wanted, Transfer::Copy, |src, dst| {
            Some([joined(src, dst)?, dst])
        })
    }),
    ("a swap of the care alone", |entry, wanted| {
        undone(entry, wanted, Transfer::Swap, |src, dst| {
            Some([cared_as(dst, src), cared_as(src, dst)])
        })
    }),
    ("a swap that is a copy", |entry, wanted| {
        undone(entry, wanted, Transfer::Swap, |src, dst| {
            Some([joined(src, dst)?, X])
        })
    }),
];

/// Whether the list or the verdict, which the lost don't have, is noticed if entries
/// are undone so.
fn notices(undo: Undo, made: &Small, query: &Query, arrivals: &Arrivals) -> [bool; 2] {
    let Some(events) = ternary::events_by(undo, &made.fabric, query, MOST_EVENTS) else {
        return [false; 2];
    };
    let listed = ternary::list(&made.fabric, query, &events).unwrap();
    let judged = ternary::verdict(&made.fabric, query, &events);
    assert_eq!(judged.is_none(), query.is_of_the_lost());
    let is_wrong = |words: Vec<u32>| check_verdict(&made.fabric, arrivals, query, &words).is_err();
    [
        check_list(&made.bits, arrivals, &listed).is_err(),
        judged.is_some_and(is_wrong),
    ]
}

/// Each wrong way is noticed often, the right one never.
#[test]
fn entries_undone_wrongly() {
    let noticed: [[Seen; 2]; WRONG_UNDOS.len()] = Default::default();
    on_cases((630_000, 6000), |made, query, ends, _| {
        if query.is_of_the_lost() && made.fabric.openflow == OpenFlow::V1_3 {
            return;
        }
        let arrivals = arrivals(ends, query);
        let notices = |undo| notices(undo, made, query, &arrivals);
        assert_eq!(notices(ternary::undo), [false; 2]);
        for ((_, undo), [lists, verdicts]) in WRONG_UNDOS.iter().zip(&noticed) {
            let [list, verdict] = notices(*undo);
            lists.count(list);
            verdicts.count(verdict);
        }
    });
    for ((wrong, _), [lists, verdicts]) in WRONG_UNDOS.iter().zip(noticed) {
        println!("{wrong} {lists:?} {verdicts:?}");
        lists.at_least(40);
        verdicts.at_least(10);
    }
}

/// What is wrong with what a program's entries do to headers.
const WRONG_APPLIES: [(&str, Apply); 5] = [
    ("transfers are left out", |entry, header| {
        entry.rewrite.apply(header)
    }),
    ("the rewrite comes first", |entry, header| {
        entry.transfer.apply(entry.rewrite.apply(header))
    }),
    ("a copy the wrong way round", |entry, header| {
        let first = match entry.transfer {
            Transfer::Copy => Transfer::Swap,
            _ => Transfer::None,
        };
        entry.apply(first.apply(header))
    }),
    ("a swap that is a copy", |entry, header| {
        let done = match entry.transfer {
            Transfer::None => Transfer::None,
            _ => Transfer::Copy,
        };
        entry.rewrite.apply(done.apply(header))
    }),
    ("a drop leaves the addresses", |entry, header| {
        match entry.out_port {
            0 => entry.rewrite.apply(header),
            _ => entry.apply(header),
        }
    }),
];

/// The words of a run where entries do this.
fn run_by(apply: Apply, packet: &Packet) -> Vec<u32> {
    let limit = packet.limit as usize;
    let run = forward::run_by(apply, packet.fabric, packet.start, packet.header, limit);
    let way = Way {
        fate: Some(run.fate as u32),
        port: run.port,
        header: run.header,
        entries: run.entries.iter().map(|&entry| entry as u32).collect(),
    };
    way.words().unwrap()
}

/// Each wrong run is noticed exactly if it has other words.
#[test]
fn headers_changed_wrongly() {
    for (wrong, apply) in WRONG_APPLIES {
        let noticed = Seen::default();
        on_cases((640_000, 400), |_, _, ends, _| {
            for (packet, ends) in ends {
                let words = run_by(apply, packet);
                let is_noticed = check_run(packet, ends, &words).is_err();
                assert_eq!(is_noticed, words != run_by(Entry::apply, packet), "{wrong}");
                noticed.count(is_noticed);
            }
        });
        println!("{wrong} {noticed:?}");
        noticed.at_least(100);
    }
}
