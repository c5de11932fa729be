//! Whether packets could go further than a hop limit, by ports alone.

use std::collections::BTreeSet;

use crate::fabric::Fabric;

impl<const N: usize> Fabric<N> {
    /// Whether entries and links lead from some edge port to this target in
    /// more hops than these, whatever the entries match. If they don't, an
    /// 'isolated' within these hops holds for any number of hops; if they do,
    /// it says nothing of packets that make more.
    ///
    /// ```
    /// use mwishovala::{text, Fabric};
    /// let fabric = Fabric::read(&text::pack("
    ///     edge 1 group 7 admits any
    ///     edge 2 group 9 admits any
    ///     link 10 -> 11
    ///     entry 1 -> 10 priority 1 match any
    ///     entry 11 -> 2 priority 1 match any
    /// ")?)?;
    /// assert!(fabric.leads_further(2, 1));
    /// assert!(!fabric.leads_further(2, 2));
    /// # Ok::<(), Box<dyn std::error::Error>>(())
    /// ```
    pub fn leads_further(&self, target: u16, hops: u32) -> bool {
        // With more hops than entries a walk has a cycle, and so any number of
        // them; and a walk is longer than these hops only if one is by at most
        // as many as there are entries: its cycles can be left out one by one.
        let hops = self.entries.len().min(hops as usize);
        let onward: Vec<(u16, Option<u16>)> = self
            .entries
            .iter()
            .map(|entry| (entry.in_port, self.link_from(entry.out_port)))
            .map(|(in_port, link)| (in_port, link.map(|link| link.to)))
            .collect();
        let last_hops = self.entries.iter().filter(|entry| entry.out_port == target);
        let mut in_ports: BTreeSet<u16> = last_hops.map(|entry| entry.in_port).collect();
        for length in 1..=hops + self.entries.len() {
            if length > hops && in_ports.iter().any(|&port| self.edge(port).is_some()) {
                return true;
            }
            let leads_there = |next: Option<u16>| next.is_some_and(|next| in_ports.contains(&next));
            let before = onward.iter().filter(|(_, next)| leads_there(*next));
            in_ports = before.map(|(in_port, _)| *in_port).collect();
        }
        false
    }

    /// Whether entries and links lead from some edge port to an in-port in these
    /// hops, whatever the entries match. If they do, a list of the lost with this
    /// hop limit says nothing of what becomes of packets there; if they don't, no
    /// packet is lost that it doesn't have.
    ///
    /// ```
    /// use mwishovala::{text, Fabric};
    /// let fabric = Fabric::read(&text::pack("
    ///     edge 1 group 7 admits any
    ///     link 10 -> 11
    ///     entry 1 -> 10 priority 1 match any
    ///     entry 11 -> 2 priority 1 match any
    /// ")?)?;
    /// assert!(fabric.leads_on(1));
    /// assert!(!fabric.leads_on(2));
    /// # Ok::<(), Box<dyn std::error::Error>>(())
    /// ```
    pub fn leads_on(&self, hops: u32) -> bool {
        // A walk over more links than there are has a cycle, and so any number of
        // hops.
        let hops = (self.links.len() + 1).min(hops as usize);
        let mut in_ports: BTreeSet<u16> = self.edges.iter().map(|edge| edge.port).collect();
        for _ in 0..hops {
            let entries = self.entries.iter();
            let taking = entries.filter(|entry| in_ports.contains(&entry.in_port));
            let links = taking.filter_map(|entry| self.link_from(entry.out_port));
            in_ports = links.map(|link| link.to).collect();
        }
        !in_ports.is_empty()
    }
}

#[cfg(test)]
mod tests {
    use crate::fabric::Fabric;
    use crate::text;

    /// Edge port 1, and after it so many switches in a row; each leads to the next.
    fn row(switches: u16, more: &str) -> Fabric {
        let mut said = format!("edge 1 group 7 admits any\n{more}");
        let mut in_port = 1;
        for number in 1..=switches {
            let (from, to) = (10 * number, 10 * number + 1);
            said +=
                &format!("link {from} -> {to}\nentry {in_port} -> {from} priority 1 match any\n");
            in_port = to;
        }
        Fabric::read(&text::pack(&said).unwrap()).unwrap()
    }

    #[test]
    fn a_row_leads_on_for_as_many_hops_as_it_has_links() {
        for switches in 0..20 {
            let fabric = row(switches, "");
            for hops in 0..25 {
                assert_eq!(fabric.leads_on(hops), hops <= switches.into(), "{hops}");
            }
            assert!(!fabric.leads_on(u32::MAX));
        }
    }

    /// From the last in-port back to the first: any number of hops.
    #[test]
    fn a_ring_leads_on_for_ever() {
        let fabric = row(
            3,
            "link 40 -> 41\nentry 31 -> 40 priority 1 match any\n\
                             entry 41 -> 10 priority 1 match any\n",
        );
        for hops in [0, 1, 4, 5, 16, 1000, u32::MAX] {
            assert!(fabric.leads_on(hops), "{hops}");
        }
    }

    /// What is dropped or leaves isn't led on, and without edge ports nothing is.
    #[test]
    fn only_links_behind_edge_ports_lead_on() {
        let read = |said: &str| Fabric::read(&text::pack(said).unwrap()).unwrap();
        let others = "link 10 -> 11\nentry 1 -> drop priority 1 match any\n\
                      entry 1 -> 2 priority 1 match any\nentry 11 -> 10 priority 1 match any\n\
                      entry 5 -> 10 priority 1 match any\n";
        assert!(!read(&format!("edge 1 group 7 admits any\n{others}")).leads_on(1));
        assert!(read(&format!("edge 5 group 7 admits any\n{others}")).leads_on(1));
        assert!(!read(others).leads_on(1));
    }
}
