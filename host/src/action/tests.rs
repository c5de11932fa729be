//! Each transfer with every set and rewrite over a few bits, header by header.

use super::Transfer;
use crate::few_bits::{by_hand, headers, sets};
use crate::header::{Header, HeaderSet};
use crate::record::Entry;

fn entry<const N: usize>(transfer: Transfer, rewrite: HeaderSet<N>) -> Entry<N> {
    Entry {
        priority: 1,
        in_port: 1,
        out_port: 2,
        matching: HeaderSet::ALL_WILD,
        transfer,
        rewrite,
    }
}

/// A header is in a set undone exactly if the entry turns it into one of the set;
/// where it turns none into one, there is no set.
#[test]
fn an_action_and_its_undoing() {
    for (transfer, rewrite) in Transfer::ALL
        .into_iter()
        .flat_map(|transfer| sets().map(move |rewrite| (transfer, rewrite)))
    {
        let entry = entry(transfer, rewrite);
        let sent_on = |header| (header, by_hand(&entry, &header));
        let sent_on: Vec<(Header, Header)> = headers().map(sent_on).collect();
        for (header, sent_on) in &sent_on {
            assert_eq!(entry.action_on(header), *sent_on);
        }
        for wanted in sets() {
            let undone = entry.action_undone(&wanted);
            for (header, sent_on) in &sent_on {
                let is_in = undone.is_some_and(|set| set.contains(header));
                assert_eq!(is_in, wanted.contains(sent_on));
            }
            let mut sent_on = sent_on.iter().map(|(_, sent_on)| sent_on);
            assert_eq!(undone.is_some(), sent_on.any(|to| wanted.contains(to)));
            assert!(undone.is_none_or(|set| set.stray() == [0; 4]));
        }
    }
}

/// Two wants of one bit are joined; where they disagree, nothing is left.
#[test]
fn a_copy_joins_what_is_wanted() {
    let copy = entry(Transfer::Copy, HeaderSet::<4>::ALL_WILD);
    let undone = |wanted: &str| {
        let undone = copy.action_undone(&wanted.parse().unwrap());
        undone.map_or("nothing".into(), |set| set.to_string())
    };
    assert_eq!(undone("nw_dst=10.0.0.2"), "nw_src=10.0.0.2");
    assert_eq!(
        undone("nw_src=10.0.0.0/8,nw_dst=10.0.0.2,tp_dst=80"),
        "nw_src=10.0.0.2,tp_dst=80"
    );
    assert_eq!(undone("nw_src=10.0.0.1,nw_dst=10.0.0.2"), "nothing");
    assert_eq!(undone("tp_dst=80"), "tp_dst=80");
}

/// The rewrite comes last, and is undone first.
#[test]
fn a_rewrite_overwrites_what_was_copied() {
    let copy = entry(Transfer::Copy, "nw_dst=10.0.0.9".parse().unwrap());
    let sent_on = copy.action_on(&Header([1, 2, 3, 4]));
    assert_eq!(sent_on, Header([1, 0x0a00_0009, 3, 4]));
    let wanted = "nw_src=10.0.0.1,nw_dst=10.0.0.9".parse().unwrap();
    let undone = "nw_src=10.0.0.1".parse().unwrap();
    assert_eq!(copy.action_undone(&wanted), Some(undone));
}

/// The addresses are the first two words, however many there are.
#[test]
fn headers_of_any_number_of_words() {
    let swap = entry(Transfer::Swap, HeaderSet::ALL_WILD);
    let header = Header([1, 2, 3, 4, 5, 6, 7, 8]);
    assert_eq!(swap.action_on(&header), Header([2, 1, 3, 4, 5, 6, 7, 8]));
    let one = HeaderSet {
        care: [u32::MAX],
        value: [7],
    };
    for transfer in Transfer::ALL {
        let entry = entry(transfer, HeaderSet::ALL_WILD);
        assert_eq!(entry.action_on(&Header([7])), Header([7]));
        assert_eq!(entry.action_undone(&one), Some(one));
    }
}

/// None, copy and swap have 0, 1 and 2; nothing has another number.
#[test]
fn numbers_of_the_file() {
    let known = [Transfer::None, Transfer::Copy, Transfer::Swap];
    for number in 0..16 {
        let transfer = known.get(number as usize).copied();
        assert_eq!(Transfer::numbered(number), transfer);
        assert!(transfer.is_none_or(|transfer| transfer.number() == number));
    }
    assert_eq!(Transfer::default(), Transfer::None);
}
