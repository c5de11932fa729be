//! Equal priorities, document 02's 2.3, worked by hand.

mod common;

use common::{answer, asked, filled, run_of};
use reference::examples::{
    alike, equals_behind_a_link, equals_below, leak_by_choice, ring_of_equals, run_query,
    wild_query,
};
use reference::file::write;
use reference::query::{input, print, RUN};
use reference::ways::{Packet, DROPPED, LEFT, TRAVELLING};
use reference::{list, verdict, Fabric, Header};

/// Each end's fate and entries, from port 1.
fn ends_of(fabric: &Fabric, limit: u32, header: Header) -> Vec<(u32, Vec<u32>)> {
    let ends = packet(fabric, limit, header).ends(100).unwrap();
    let fate_and_entries = ends.into_iter().map(|end| (end.fate.unwrap(), end.entries));
    fate_and_entries.collect()
}

fn packet(fabric: &Fabric, limit: u32, header: Header) -> Packet<'_> {
    Packet {
        fabric,
        start: 1,
        header,
        limit,
    }
}

/// Under the rule that of equals the earlier wins, it was isolated.
#[test]
fn a_leak_under_one_choice() {
    let made = leak_by_choice();
    let reached = filled(&[1, 1, 1, 1, 0, 0, 80, 0, 1]);
    assert_eq!(asked(verdict, &made, 1, 1), Ok(reached));
    assert_eq!(asked(verdict, &made, 1, 0), Err((13, 0)));
    let find = vec![0x60001001, 0x70000001, 0, 0, 0xffff, 0, 0, 0, 80, 0];
    assert_eq!(asked(list, &made, 1, 1), Ok(find));
    // The run of that packet doesn't choose; other packets are dropped.
    let tied = filled(&[4, 0, 1, 0, 0, 0, 80, 0]);
    assert_eq!(run_of(&made, 1, [0, 0, 80, 0]), tied);
    let dropped = filled(&[1, 0, 1, 1, 0, 0, 81, 0, 0]);
    assert_eq!(run_of(&made, 1, [0, 0, 81, 0]), dropped);
    let ends = [(DROPPED, vec![0]), (LEFT, vec![1])];
    assert_eq!(ends_of(&made, 1, 80 << 32), ends);
}

#[test]
fn fate_4_is_printed() {
    let asked = run_query(1, 16, [7, 8, 80, 9]);
    let printed = print(&input(RUN, &asked, &write(&leak_by_choice())));
    let words = filled(&[4, 0, 1, 0, 7, 8, 80, 9]);
    let lines: String = words.iter().map(|word| format!("{word:08x}\n")).collect();
    assert_eq!(printed, format!("ok 24\n{lines}"));
}

/// What a higher entry takes isn't tied; what it leaves is.
#[test]
fn equals_below_a_higher_match() {
    let made = equals_below();
    let left = filled(&[0, 0, 2, 2, 0, 0, 0, 1, 2, 3]);
    assert_eq!(run_of(&made, 2, [0, 0, 0, 1]), left);
    let tied = filled(&[4, 0, 1, 0, 0, 0, 0, 2]);
    assert_eq!(run_of(&made, 2, [0, 0, 0, 2]), tied);
    // Entry 0 is a unit and entry 2, its one beater, another; its equal isn't.
    let reached = filled(&[1, 2, 1, 1, 0, 0, 0, 0, 0]);
    assert_eq!(asked(verdict, &made, 2, 2), Ok(reached));
    let by_entry_0 = [0x60001001, 0x70000000, 0, 0, 0, 1, 0, 0, 0, 0];
    let by_the_link = [0x60002001, 0x70000002, 0x70000003, 0, 0, 0, 1, 0, 0, 0, 1];
    let finds = [&by_entry_0[..], &by_the_link].concat();
    assert_eq!(asked(list, &made, 2, 4), Ok(finds));
    assert_eq!(asked(list, &made, 2, 3), Err((13, 0)));
}

/// At the limit the fate is 3, whatever stands where the link leads. Either way
/// the header is the rewritten one.
#[test]
fn a_tie_at_the_limit() {
    let made = equals_behind_a_link();
    let travelling = filled(&[3, 0, 11, 1, 5, 6, 5, 8, 0]);
    assert_eq!(run_of(&made, 1, [5, 6, 7, 8]), travelling);
    let tied = filled(&[4, 0, 11, 1, 5, 6, 5, 8, 0]);
    assert_eq!(run_of(&made, 2, [5, 6, 7, 8]), tied);
    assert_eq!(ends_of(&made, 1, 0), [(TRAVELLING, vec![0])]);
    let ends = [(LEFT, vec![0, 1]), (DROPPED, vec![0, 2])];
    assert_eq!(ends_of(&made, 2, 0), ends);
    assert_eq!(asked(verdict, &made, 1, 1), Ok(filled(&[0, 1])));
    let reached = filled(&[1, 2, 1, 2, 0, 0, 0, 0, 0, 1]);
    assert_eq!(asked(verdict, &made, 2, 2), Ok(reached));
    let find = [&[0x60002001, 0x70000000, 0x70000001], &[0; 8][..]].concat();
    assert_eq!(asked(list, &made, 2, 2), Ok(find));
}

/// The run is tied all the same, and the list has both.
#[test]
fn two_that_do_the_same() {
    let made = alike();
    let tied = filled(&[4, 0, 1, 0, 0, 0, 0, 0]);
    assert_eq!(run_of(&made, 16, [0; 4]), tied);
    let reached = filled(&[1, 1, 1, 1, 0, 0, 0, 0, 0]);
    assert_eq!(asked(verdict, &made, 16, 1), Ok(reached));
    let find = |entry: u32| [&[0x60001001, 0x70000000 + entry], &[0; 8][..]].concat();
    let finds = [find(0), find(1)].concat();
    assert_eq!(asked(list, &made, 16, 2), Ok(finds));
}

/// At the target one unit; at each stop before it six, and after five of them
/// another stop. Of the ways five times as many are open after each hop.
#[test]
fn equals_in_a_ring_multiply() {
    let made = ring_of_equals();
    for (limit, units, finds) in [
        (1, 1, 0),
        (2, 7, 1),
        (3, 37, 6),
        (4, 187, 31),
        (5, 937, 156),
    ] {
        assert_eq!(asked(verdict, &made, limit, units), Ok(filled(&[0, units])));
        assert_eq!(asked(verdict, &made, limit, units - 1), Err((13, 0)));
        let file = write(&made);
        let listed = answer(list, &file, 40_000, &wild_query(2, limit, units)).unwrap();
        let first_words = listed.iter().filter(|&&word| word >> 28 == 6);
        assert_eq!(first_words.count(), finds, "{limit} hops");
    }
    // More units than any budget has; a million of them are enough here.
    assert_eq!(asked(verdict, &made, 16, 1_000_000), Err((13, 0)));
    assert_eq!(asked(list, &made, 16, 1_000_000), Err((13, 0)));
    let tied = filled(&[4, 0, 11, 1, 0, 0, 0, 0, 0]);
    assert_eq!(run_of(&made, 16, [0; 4]), tied);
    // 1, 5 and 25 leave, 125 are still travelling.
    let ends = packet(&made, 4, 0).ends(156).unwrap();
    let left = ends.iter().filter(|end| end.fate == Some(LEFT)).count();
    assert_eq!((left, ends.len()), (31, 156));
    assert_eq!(packet(&made, 4, 0).ends(155), None);
}

/// Only entries that may take it are followed, and no way goes on past its end.
#[test]
fn a_way_is_followed_by_its_entries() {
    let made = equals_below();
    let follow = |header, entries: &[u32]| {
        let way = packet(&made, 2, header).follow(entries);
        way.map(|way| (way.fate, way.port))
    };
    assert_eq!(follow(0, &[]), Some((None, 1)));
    assert_eq!(follow(0, &[0]), Some((Some(LEFT), 2)));
    assert_eq!(follow(0, &[1]), Some((Some(DROPPED), 1)));
    assert_eq!(follow(0, &[0, 3]), None);
    assert_eq!(follow(0, &[2]), None);
    assert_eq!(follow(1, &[0]), None);
    assert_eq!(follow(1, &[2]), Some((None, 11)));
    assert_eq!(follow(1, &[2, 3]), Some((Some(LEFT), 2)));
    assert_eq!(follow(1, &[2, 9]), None);
    assert_eq!(packet(&made, 1, 1).follow(&[2, 3]), None);
}
