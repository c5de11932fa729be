//! E1 to E10 of document 01, literally.

mod common;

use common::answer;
use reference::examples::{fabric_f, to_tp_dst, tp_dst, wild_query};
use reference::file::{read, to_le_bytes, write};
use reference::query::{input, print, LIST};
use reference::{list, verdict, Set};

#[test]
fn e1_fabric_f_is_accepted() {
    let file = fabric_f();
    assert_eq!(file.len(), 56 * 4);
    let fabric = read(&file).unwrap();
    assert_eq!(fabric.edges.len(), 2);
    assert_eq!(fabric.entries.len(), 2);
    assert_eq!(write(&fabric), file);
}

#[test]
fn e2_the_list_is_printed() {
    let printed = print(&input(LIST, &wild_query(2, 1, 2), &fabric_f()));
    let expected = "\
ok 20
60001001
70000001
00000000
ffffffff
00000002
00000000
00000000
0a000002
00000002
00000000
60001001
70000001
00000000
ffffffff
00000003
00000000
00000000
0a000002
00000000
00000000
";
    assert_eq!(printed, expected);
}

#[test]
fn e3_the_verdict_there() {
    let words = answer(verdict, &fabric_f(), 96, &wild_query(2, 1, 2)).unwrap();
    let mut expected = vec![1, 2, 1, 1, 0, 0x0a000002, 2, 0, 1];
    expected.resize(24, 0);
    assert_eq!(words, expected);
}

#[test]
fn e4_a_budget_of_one() {
    let query = wild_query(2, 1, 1);
    assert_eq!(answer(verdict, &fabric_f(), 96, &query), Err((13, 0)));
    assert_eq!(answer(list, &fabric_f(), 80, &query), Err((13, 0)));
}

#[test]
fn e5_isolated_without_a_unit() {
    let words = answer(verdict, &fabric_f(), 96, &wild_query(1, 1, 0)).unwrap();
    assert_eq!(words, [0; 24]);
}

#[test]
fn e6_the_hop_limit() {
    for call in [verdict, list] {
        let of = |limit| answer(call, &fabric_f(), 96, &wild_query(2, limit, 2));
        assert_eq!(of(17), Err((9, 0)));
        assert!(of(16).is_ok());
    }
}

#[test]
fn e7_start_and_end_alone_are_accepted() {
    let file = to_le_bytes(&[0x10010002, 0x50000000]);
    assert_eq!(read(&file), Ok(Default::default()));
}

#[test]
fn e8_e9_e10_undoing_a_rewrite() {
    let back = |matching: Set, exit: Set| {
        let undone = to_tp_dst(5).undo(&exit);
        undone.and_then(|set| set.intersect(&matching))
    };
    assert_eq!(back(Set::ALL_WILD, tp_dst(5)), Some(Set::ALL_WILD));
    assert_eq!(back(Set::ALL_WILD, tp_dst(6)), None);
    assert_eq!(back(tp_dst(80), Set::ALL_WILD), Some(tp_dst(80)));
}
