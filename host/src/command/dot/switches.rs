//! Which ports belong together. A fabric file says nothing of it: where no name
//! does, the ports that entries join are taken to be one switch.

use std::collections::BTreeMap;

use crate::fabric::Fabric;
use crate::names::Names;

/// Ports of one switch, rising; without a name it is guessed.
pub(super) struct Switch {
    pub(super) name: Option<String>,
    pub(super) ports: Vec<u16>,
}

/// Every port of the fabric is on one of them.
pub(super) fn switches<const N: usize>(fabric: &Fabric<N>, names: &Names) -> Vec<Switch> {
    let mut joined = Joined::default();
    for port in ports(fabric) {
        joined.first_of(port);
    }
    let is_free = |port: u16| names.switch_of(port).is_none();
    for entry in &fabric.entries {
        if entry.out_port != 0 && is_free(entry.in_port) && is_free(entry.out_port) {
            joined.join(entry.in_port, entry.out_port);
        }
    }
    let mut switches: BTreeMap<(Option<String>, u16), Vec<u16>> = BTreeMap::new();
    for port in joined.parent.clone().into_keys() {
        let switch = match names.switch_of(port) {
            Some(name) => (Some(name.to_string()), 0),
            None => (None, joined.first_of(port)),
        };
        switches.entry(switch).or_default().push(port);
    }
    let switches = switches.into_iter();
    switches
        .map(|((name, _), ports)| Switch { name, ports })
        .collect()
}

/// Every port that a record has, some more than once.
fn ports<const N: usize>(fabric: &Fabric<N>) -> impl Iterator<Item = u16> + '_ {
    let edges = fabric.edges.iter().map(|edge| edge.port);
    let links = fabric.links.iter().flat_map(|link| [link.from, link.to]);
    let entries = fabric.entries.iter();
    let entries = entries.flat_map(|entry| [entry.in_port, entry.out_port]);
    edges.chain(links).chain(entries.filter(|&port| port != 0))
}

/// Ports that are joined lead to the same first port.
#[derive(Default)]
struct Joined {
    parent: BTreeMap<u16, u16>,
}

impl Joined {
    fn first_of(&mut self, port: u16) -> u16 {
        let mut first = port;
        loop {
            let parent = *self.parent.entry(first).or_insert(first);
            if parent == first {
                return first;
            }
            first = parent;
        }
    }

    fn join(&mut self, one: u16, other: u16) {
        let (one, other) = (self.first_of(one), self.first_of(other));
        self.parent.insert(one.max(other), one.min(other));
    }
}
