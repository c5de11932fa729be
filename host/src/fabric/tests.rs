//! What is read is all that a file says, or it isn't read; of either version.

use super::{AnyFabric, Fabric};
use crate::openflow::OpenFlow;
use crate::record::{self, Record};
use crate::text;
use crate::version::Version;
use crate::words::Words;

const TEXT: &str = "
    edge 1 group 7 admits nw_src=10.0.0.0/24
    link 10 -> 11
    entry 1 -> 10 priority 20 match any swap set dl_vlan=5
";

/// The file of the text in headers of so many words.
fn file<const N: usize>() -> Vec<u8> {
    let narrow = Fabric::read(&text::pack(TEXT).unwrap()).unwrap();
    let fabric: Fabric<N> = narrow.resized().unwrap();
    fabric.to_bytes().unwrap()
}

/// The places of start, edge, link, the entry and its second word, and end.
struct Places {
    start: usize,
    edge: usize,
    link: usize,
    entry: usize,
    second: usize,
    end: usize,
}

impl Places {
    fn of(version: Version) -> Places {
        let link = 1 + version.record_words(record::EDGE);
        let entry = link + version.record_words(record::LINK);
        Places {
            start: 0,
            edge: 1,
            link,
            entry,
            second: entry + 1,
            end: entry + version.record_words(record::ENTRY),
        }
    }
}

#[test]
fn a_file_is_read_whole() {
    fn check<const N: usize>() {
        let file = file::<N>();
        let fabric = Fabric::<N>::whole(&file).expect("it is read");
        assert_eq!(fabric.to_bytes().unwrap(), file);
        assert_eq!(Version::of_file(&file), Version::of::<N>());
        assert_eq!(Words(&file).count(), Places::of(Version::of::<N>()).end + 1);
    }
    check::<4>();
    check::<8>();
    assert_eq!(Fabric::<8>::whole(&file::<4>()), None);
    assert_eq!(Fabric::<4>::whole(&file::<8>()), None);
}

/// A bit more in any word: it is in what was read, or nothing was read.
#[test]
fn no_bit_is_lost_in_reading() {
    fn check<const N: usize>() {
        let file = file::<N>();
        for bit in 0..8 * file.len() {
            let mut changed = file.clone();
            changed[bit / 8] ^= 1 << (bit % 8);
            if let Some(fabric) = Fabric::<N>::whole(&changed) {
                assert_eq!(fabric.to_bytes().unwrap(), changed, "bit {bit}");
            }
        }
    }
    check::<4>();
    check::<8>();
}

/// The bits that are zero today, and a start's version.
#[test]
fn bits_without_a_meaning_are_not_read() {
    fn check<const N: usize>() {
        let (file, places) = (file::<N>(), Places::of(Version::of::<N>()));
        let zero_bits = [
            (places.start, 16..27),
            (places.link, 24..28),
            (places.second, 12..28),
            (places.end, 0..28),
        ];
        for (word, bits) in zero_bits {
            for bit in bits {
                let changed = with_bit(&file, word, bit);
                assert_eq!(Fabric::<N>::whole(&changed), None, "{word}, {bit}");
            }
        }
        for word in [places.edge, places.entry] {
            assert!(Fabric::<N>::whole(&with_bit(&file, word, 27)).is_some());
        }
    }
    check::<4>();
    check::<8>();
}

/// The bit above the version chooses OpenFlow 1.3. It is read, and written again.
#[test]
fn a_start_chooses_an_openflow() {
    fn check<const N: usize>() {
        let file = file::<N>();
        let chosen = with_bit(&file, 0, 27);
        for (file, openflow) in [(&file, OpenFlow::V1_0), (&chosen, OpenFlow::V1_3)] {
            let fabric = Fabric::<N>::whole(file).unwrap();
            assert_eq!(fabric.openflow, openflow);
            assert_eq!(&fabric.to_bytes().unwrap(), file);
            assert_eq!(Fabric::<N>::before(Words(file), 0).openflow, openflow);
            assert_eq!(Version::of_file(file), Version::of::<N>());
        }
        let other = Fabric {
            openflow: OpenFlow::V1_3,
            ..Fabric::<N>::whole(&file).unwrap()
        };
        assert_eq!(other.to_bytes().unwrap(), chosen);
    }
    check::<4>();
    check::<8>();
}

/// None, copy and swap are; what else has room there isn't.
#[test]
fn transfers_above_2_are_not_read() {
    fn check<const N: usize>() {
        let (file, places) = (file::<N>(), Places::of(Version::of::<N>()));
        for transfer in 0..16 {
            let mut changed = file.clone();
            let last = &mut changed[4 * places.second + 3];
            *last = *last & 0x0f | transfer << 4;
            let expected = (transfer <= 2).then_some(transfer);
            assert_eq!(transfer_of::<N>(&changed, places.entry), expected);
            let read = Fabric::<N>::whole(&changed);
            let read = read.map(|fabric| fabric.entries[0].transfer as u8);
            assert_eq!(read, expected);
        }
        for bit in 12..28 {
            let changed = with_bit(&file, places.second, bit);
            assert_eq!(transfer_of::<N>(&changed, places.entry), None);
        }
    }
    check::<4>();
    check::<8>();
}

/// The transfer of the file's entry by itself, if it can be read.
fn transfer_of<const N: usize>(file: &[u8], entry: usize) -> Option<u8> {
    match Words(file).record::<N>(entry)? {
        Record::Entry(entry) => Some(entry.transfer as u8),
        _ => None,
    }
}

/// What is more is wild, and nothing that isn't wild is left out.
#[test]
fn only_wild_words_are_left_out() {
    let narrow = Fabric::<4>::whole(&file::<4>()).unwrap();
    let wide: Fabric<8> = narrow.resized().unwrap();
    assert_eq!(wide.entries[0].rewrite.care[..4], [0, 0, 0, 0xffff_0000]);
    for set in [wide.edges[0].admitted, wide.entries[0].rewrite] {
        assert_eq!(
            (&set.care[4..], &set.value[4..]),
            (&[0; 4][..], &[0; 4][..])
        );
    }
    assert_eq!(wide.resized(), Some(narrow));
    for bit in 128..256 {
        let (word, mask) = crate::header::place_of(bit);
        let mut changed = wide.clone();
        changed.edges[0].admitted.care[word] = mask;
        assert_eq!(changed.resized::<4>(), None, "{bit}");
        let mut changed = wide.clone();
        changed.entries[0].rewrite.value[word] = mask;
        assert_eq!(changed.resized::<4>(), None, "{bit}");
    }
}

/// The library is asked by the version that a file names.
#[test]
fn files_are_read_as_what_they_name() {
    assert!(matches!(
        AnyFabric::read(&file::<4>()),
        Ok(AnyFabric::V1(_))
    ));
    assert!(matches!(
        AnyFabric::read(&file::<8>()),
        Ok(AnyFabric::V2(_))
    ));
    let refusal = Fabric::read(&file::<8>()).unwrap_err();
    assert_eq!(
        refusal.to_string(),
        "question 2: the start is of version 2, not 1"
    );
    let refusal = Fabric::<8>::accepted(&file::<4>()).unwrap_err();
    assert_eq!(
        refusal.to_string(),
        "question 2: the start is of version 1, not 2"
    );
}

fn with_bit(file: &[u8], word: usize, bit: usize) -> Vec<u8> {
    let mut changed = file.to_vec();
    changed[4 * word + bit / 8] ^= 1 << (bit % 8);
    changed
}
