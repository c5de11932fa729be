//! Where links lead further than a hop limit.

mod common;

use common::{to_host, Seen};
use mwishovala::{list_growing, text, Fabric, Query};
use reference::file::write;
use reference::random::{any, cases, leaky_ring, query, small};
use reference::OpenFlow;

/// So many switches in a row, from edge port 1 to edge port 2.
fn row(switches: u16) -> Fabric {
    let mut said = String::from("edge 1 group 7 admits any\nedge 2 group 9 admits any\n");
    for switch in 1..=switches {
        let (left, right) = (10 * switch, 10 * switch + 1);
        let in_port = if switch == 1 { 1 } else { left };
        let out_port = if switch == switches { 2 } else { right };
        said += &format!("entry {in_port} -> {out_port} priority 1 match any\n");
        if switch < switches {
            said += &format!("link {right} -> {}\n", 10 * (switch + 1));
        }
    }
    Fabric::read(&text::pack(&said).unwrap()).unwrap()
}

#[test]
fn switches_in_a_row() {
    for switches in [1, 2, 16, 17, 40] {
        let fabric = row(switches);
        for hops in [1, 2, 15, 16, 17, 39, 40, 41, u32::MAX] {
            let further = u32::from(switches) > hops;
            assert_eq!(fabric.leads_further(2, hops), further, "{switches}, {hops}");
            assert!(!fabric.leads_further(1, hops));
        }
    }
}

/// With a ring between them, any number of hops.
#[test]
fn a_ring() {
    let said =
        "edge 1 group 7 admits any\nedge 2 group 9 admits any\nlink 10 -> 11\nlink 12 -> 13\n\
                entry 1 -> 10 priority 1 match any\nentry 11 -> 12 priority 1 match any\n\
                entry 13 -> 10 priority 2 match any\n";
    let of =
        |further: &str| Fabric::read(&text::pack(&format!("{said}{further}")).unwrap()).unwrap();
    assert!(!of("").leads_further(2, 16));
    let out = of("entry 13 -> 2 priority 1 match any");
    for hops in [1, 16, 1000, u32::MAX] {
        assert!(out.leads_further(2, hops), "{hops}");
    }
}

/// Walks counted one by one, by a table of how many hops from an edge port
/// lead to each in-port.
#[test]
fn walks_counted() {
    cases(12_700_000, 1500, |rng| {
        let file = write(&if rng.once_in(2) {
            any(rng)
        } else {
            small(rng).fabric
        });
        let fabric = Fabric::read(&file).unwrap();
        let Some(target) = fabric.edges.first() else {
            return;
        };
        let hops = rng.between(1, 16) as u32;
        let mut here: Vec<u16> = fabric.edges.iter().map(|edge| edge.port).collect();
        let mut further = false;
        for made in 1..=hops as usize + 600 {
            let taken = fabric
                .entries
                .iter()
                .filter(|entry| here.contains(&entry.in_port));
            let outs: Vec<u16> = taken.map(|entry| entry.out_port).collect();
            further |= made > hops as usize && outs.contains(&target.port);
            let links = fabric.links.iter().filter(|link| outs.contains(&link.from));
            here = links.map(|link| link.to).collect();
        }
        assert_eq!(fabric.leads_further(target.port, hops), further);
    });
}

/// A packet that is lost after so many hops was led on for as many; and where none
/// is, the list of the lost with that limit is whole.
#[test]
fn no_packet_is_lost_further_than_said() {
    let [whole, led_on]: [Seen; 2] = Default::default();
    cases(12_900_000, 2000, |rng| {
        let made = reference::Fabric {
            openflow: OpenFlow::V1_0,
            ..if rng.once_in(2) {
                any(rng)
            } else {
                leaky_ring(rng).fabric
            }
        };
        let file = write(&made);
        let lost = |hops| {
            let asked = Query {
                hops,
                budget: 20_000,
                ..Query::lost()
            };
            let mut area = Vec::new();
            let finds = list_growing(&file, &mut area, 1 << 22, &asked).ok()?;
            Some(finds.collect::<Vec<_>>())
        };
        let Some(most) = lost(16) else {
            return;
        };
        let fabric = Fabric::read(&file).unwrap();
        for find in &most {
            assert!(fabric.leads_on(find.hops));
        }
        let limit = rng.between(1, 15) as u32;
        match fabric.leads_on(limit) {
            true => led_on.add(1),
            false => {
                assert_eq!(lost(limit), Some(most));
                whole.add(1);
            }
        }
    });
    whole.at_least(200);
    led_on.at_least(200);
}

/// Where nothing leads further, the list with more hops has no longer find.
#[test]
fn no_find_is_longer_than_said() {
    cases(12_800_000, 1000, |rng| {
        let made = any(rng);
        let file = write(&made);
        let asked = query(rng, &made, 20_000);
        if asked.is_of_the_lost() {
            return;
        }
        let mut asked = to_host(&asked);
        asked.hops = 16;
        let mut area = Vec::new();
        let Ok(finds) = list_growing(&file, &mut area, 1 << 22, &asked) else {
            return;
        };
        let fabric = Fabric::read(&file).unwrap();
        let longest = finds.map(|find| find.hops).max().unwrap_or(0);
        for hops in 1..longest {
            assert!(fabric.leads_further(asked.port as u16, hops));
        }
    });
}
