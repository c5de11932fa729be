//! A way is followed only where each entry may take the packet.

use crate::fabric::Fabric;
use crate::header::Header;
use crate::text;

/// From edge port 1 over a link to edge port 2; at both in-ports entries tie, and
/// what has tp_dst 7 is dropped before.
const TWO_SWITCHES: &str = "
    edge 1 group 7 admits any
    edge 2 group 9 admits any
    link 10 -> 11
    entry 1 -> 10 priority 5 match any set tp_dst=80
    entry 1 -> drop priority 5 match any
    entry 1 -> drop priority 6 match tp_dst=7
    entry 11 -> 2 priority 5 match tp_dst=80 set dl_vlan=9
    entry 11 -> 3 priority 5 match any
    entry 11 -> drop priority 4 match any
    entry 5 -> 2 priority 5 match any
";

fn exit(port: u16, tp_dst: u32, way: &[u16]) -> Option<(u16, [u32; 4])> {
    exit_of(TWO_SWITCHES, port, [1, 2, tp_dst, 0], way)
}

fn exit_of(said: &str, port: u16, header: [u32; 4], way: &[u16]) -> Option<(u16, [u32; 4])> {
    let fabric = Fabric::read(&text::pack(said).unwrap()).unwrap();
    let exit = fabric.exit_by(port, &Header(header), way);
    exit.map(|(port, header)| (port, header.0))
}

#[test]
fn by_any_choice() {
    assert_eq!(exit(1, 0, &[0, 3]), Some((2, [1, 2, 80, 9 << 16])));
    assert_eq!(exit(1, 0, &[0, 4]), Some((3, [1, 2, 80, 0])));
}

/// Each entry sees the header as those before it left it.
#[test]
fn addresses_swapped_and_copied() {
    let exit = |nw_src, way: &[u16]| {
        let said = "
            link 10 -> 11
            entry 1 -> 10 priority 5 match nw_dst=0.0.0.2 swap set tp_dst=80
            entry 11 -> 2 priority 5 match nw_src=0.0.0.2,nw_dst=0.0.0.1 copy set nw_src=0.0.0.9
            entry 11 -> 3 priority 5 match nw_dst=0.0.0.2
        ";
        exit_of(said, 1, [nw_src, 2, 3, 4], way)
    };
    assert_eq!(exit(1, &[0, 1]), Some((2, [9, 2, 80, 4])));
    assert_eq!(exit(1, &[0, 2]), None);
    assert_eq!(exit(2, &[0, 2]), Some((3, [2, 2, 80, 4])));
    assert_eq!(exit(2, &[0, 1]), None);
}

#[test]
fn no_way() {
    // Nothing is done; a link leads on.
    assert_eq!(exit(1, 0, &[]), None);
    assert_eq!(exit(1, 0, &[0]), None);
    // It starts elsewhere; the link leads elsewhere; no link leads on.
    assert_eq!(exit(11, 0, &[0, 3]), None);
    assert_eq!(exit(1, 0, &[0, 6]), None);
    assert_eq!(exit(1, 0, &[0, 3, 6]), None);
    // Another entry beats it, at the first hop and at the second.
    assert_eq!(exit(1, 7, &[0, 3]), None);
    assert_eq!(exit(1, 0, &[0, 5]), None);
    // Its match doesn't hold the header; there is no such entry.
    assert_eq!(exit(1, 0, &[2]), None);
    assert_eq!(exit(1, 0, &[0, 7]), None);
}
