//! A fabric is written as it stands, or not at all.

use mwishovala::{accept, verdict, Edge, Entry, Fabric, HeaderSet, Link, Query};
use mwishovala::{OpenFlow, Transfer, Unwritable};
use reference::file::write;
use reference::random::{any, cases};

fn edge(port: u16) -> Edge {
    Edge {
        group: port,
        port,
        admitted: HeaderSet::ALL_WILD,
    }
}

fn entry(in_port: u16, out_port: u16) -> Entry {
    Entry {
        priority: 1,
        in_port,
        out_port,
        matching: HeaderSet::ALL_WILD,
        transfer: Transfer::None,
        rewrite: HeaderSet::ALL_WILD,
    }
}

/// With its upper bits cut off, port 4096 is a drop, and 4097 and 4098 are
/// ports 1 and 2: an accepted file of another fabric, which is 'isolated'.
#[test]
fn ports_are_not_cut_short() {
    let fabric = Fabric {
        openflow: OpenFlow::V1_0,
        edges: vec![edge(4097), edge(2)],
        links: vec![],
        entries: vec![entry(4097, 4096), entry(2, 4098)],
    };
    assert_eq!(fabric.to_bytes(), Err(Unwritable::Port(4097)));
}

/// Each port of each record, one above the largest and at its type's end.
#[test]
fn every_port_is_asked() {
    let whole = Fabric {
        openflow: OpenFlow::V1_3,
        edges: vec![edge(1), edge(2)],
        links: vec![Link { from: 10, to: 11 }],
        entries: vec![entry(1, 10), entry(11, 2)],
    };
    let file = whole.to_bytes().unwrap();
    assert_eq!(accept(&file), Ok(()));
    assert!(verdict(&file, &Query::all_wild(2)).is_ok());
    let ports: [fn(&mut Fabric) -> &mut u16; 5] = [
        |fabric| &mut fabric.edges[1].port,
        |fabric| &mut fabric.links[0].from,
        |fabric| &mut fabric.links[0].to,
        |fabric| &mut fabric.entries[0].in_port,
        |fabric| &mut fabric.entries[1].out_port,
    ];
    for port in ports {
        let mut changed = whole.clone();
        *port(&mut changed) = 4095;
        assert!(changed.to_bytes().is_ok());
        for wrong in [4096, 4097, u16::MAX] {
            *port(&mut changed) = wrong;
            assert_eq!(changed.to_bytes(), Err(Unwritable::Port(wrong)));
        }
    }
}

/// A start counts words in 16 bits: a fabric with more isn't written as one
/// with 65,536 fewer.
#[test]
fn words_are_counted() {
    let links = |number| Fabric {
        links: vec![Link { from: 1, to: 2 }; number],
        ..Fabric::<4>::default()
    };
    let most = links(65_533).to_bytes().unwrap();
    assert_eq!(&most[..4], [0xff, 0xff, 1, 0x10]);
    assert_eq!(links(65_534).to_bytes(), Err(Unwritable::Words(65_536)));
    let error = links(65_534 + 2).to_bytes().unwrap_err();
    assert_eq!(
        error.to_string(),
        "the file has 65538 words, and a start counts at most 65535"
    );
}

/// A fabric of another OpenFlow is another file, in one bit.
#[test]
fn an_openflow_is_a_bit_of_the_start() {
    let mut fabric = Fabric {
        edges: vec![edge(1)],
        ..Fabric::default()
    };
    assert_eq!(fabric.openflow, OpenFlow::V1_0);
    let old = fabric.to_bytes().unwrap();
    fabric.openflow = OpenFlow::V1_3;
    let new = fabric.to_bytes().unwrap();
    assert_eq!(
        (&old[..4], &new[..4]),
        (&[11, 0, 1, 0x10][..], &[11, 0, 1, 0x18][..])
    );
    assert_eq!(old[4..], new[4..]);
    for (file, openflow) in [(old, OpenFlow::V1_0), (new, OpenFlow::V1_3)] {
        assert_eq!(accept(&file), Ok(()));
        assert_eq!(Fabric::read(&file).unwrap().openflow, openflow);
    }
}

#[test]
fn what_was_read_is_written_as_it_was() {
    cases(12_200_000, 2000, |rng| {
        let mut file = write(&any(rng));
        for _ in 0..2 {
            assert_eq!(Fabric::read(&file).unwrap().to_bytes().unwrap(), file);
            // The same fabric of the other OpenFlow.
            file[3] ^= 1 << 3;
        }
    });
}
