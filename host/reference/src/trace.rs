//! The back-trace and its count: document 01, "The back-trace and its count", and
//! where it starts for the packets that are lost: document 02's 2.7.

use std::ops::ControlFlow;

use crate::bits::Bits;
use crate::index::{Index, Origin};
use crate::set::{Header, Set};

/// Question 9's upper limit.
pub const MOST_HOPS: usize = 16;
/// What a list has for a target if it is of the packets that are lost.
pub const NOWHERE: u16 = 0;

/// A part that came back to an edge port.
#[derive(Clone, Copy, Debug, PartialEq, Eq)]
pub struct Find<'a, B = Header> {
    /// The edge's index in the fabric.
    pub edge: usize,
    /// The entries in travelling order; one hop each.
    pub entries: &'a [u16],
    pub set: Set<B>,
}

/// How a back-trace ended.
#[derive(Clone, Copy, Debug, PartialEq, Eq)]
pub enum Ended {
    /// No entry or trial is left; the units made.
    Whole(u32),
    /// The visitor stopped it; the units made until then.
    Stopped(u32),
    /// One more unit was needed than the budget has.
    Spent,
}

/// Traces back from the target, an edge port or nowhere, and shows each find in
/// turn to the visitor. The limit is 1 to 16; no find has more hops than that, and
/// none of a lost packet as many.
pub fn trace<B: Bits>(
    index: &Index<B>,
    target: u16,
    limit: usize,
    asked: Set<B>,
    budget: u32,
    visit: impl FnMut(&Find<B>) -> ControlFlow<()>,
) -> Ended {
    let limit = limit.min(MOST_HOPS);
    let mut tracer = Tracer {
        index,
        longest: match target {
            NOWHERE => limit.saturating_sub(1),
            _ => limit,
        },
        budget,
        units: 0,
        path: [0; MOST_HOPS],
        visit,
    };
    let walked = match (limit, target) {
        (0, _) => Ok(()),
        (_, NOWHERE) => tracer.lost(&asked, limit),
        _ => tracer.stop(target, &asked, limit),
    };
    match walked {
        Ok(()) => Ended::Whole(tracer.units),
        Err(Halt::Visitor) => Ended::Stopped(tracer.units),
        Err(Halt::Budget) => Ended::Spent,
    }
}

/// Why a back-trace goes no further.
enum Halt {
    Visitor,
    Budget,
}

struct Tracer<'i, 'f, B, V> {
    index: &'i Index<'f, B>,
    /// The most hops that a find can have.
    longest: usize,
    budget: u32,
    units: u32,
    /// The entry of the stop with `left` hops stands at `left - 1`: what is
    /// filled last, the first entry on the way, stands first.
    path: [u16; MOST_HOPS],
    visit: V,
}

impl<B: Bits, V: FnMut(&Find<B>) -> ControlFlow<()>> Tracer<'_, '_, B, V> {
    /// "A unit is made only while fewer than the budget were made."
    fn unit(&mut self) -> Result<(), Halt> {
        if self.units >= self.budget {
            return Err(Halt::Budget);
        }
        self.units += 1;
        Ok(())
    }

    /// "Edge ports and link ends are taken in rising number, the asked set carved by
    /// all entries of that in-port in file order, a unit a trial." No entry takes what
    /// survives. At an edge port that is after no hop; where a link ends, after one at
    /// least, so that the stop behind it has the limit less one hop left.
    fn lost(&mut self, asked: &Set<B>, left: usize) -> Result<(), Halt> {
        for in_port in self.index.in_ports() {
            let here: Vec<u16> = self.index.with_in_port(in_port).collect();
            self.carve(in_port, &here, asked, left)?;
        }
        Ok(())
    }

    /// "At a stop, the entries with that out-port are taken up in file order,
    /// one unit each. Undo the rewrite for T and intersect with the match; if
    /// empty, next entry. Carve by the entries that beat it, in file order."
    /// With the rewrite, the copy or swap before it is undone.
    // Not inlined into carving, it costs the whole trace a few percent.
    #[inline(always)]
    fn stop(&mut self, out_port: u16, wanted: &Set<B>, left: usize) -> Result<(), Halt> {
        let index = self.index;
        for entry in index.with_out_port(out_port) {
            self.unit()?;
            let taken_up = &index.fabric().entries[usize::from(entry)];
            let undone = taken_up.undo(wanted);
            let part = undone.and_then(|set| set.intersect(index.matching(entry)));
            if let Some(part) = part {
                self.path[left - 1] = entry;
                self.carve(taken_up.in_port, index.beaters(entry), &part, left)?;
            }
        }
        Ok(())
    }

    /// "Trying one part against one beater is one unit, and each part is then
    /// tried against the next beater, its whole descent before its next
    /// sibling." A part that doesn't meet the beater goes on alone.
    fn carve(
        &mut self,
        in_port: u16,
        beaters: &[u16],
        part: &Set<B>,
        left: usize,
    ) -> Result<(), Halt> {
        for (tried, &beater) in beaters.iter().enumerate() {
            self.unit()?;
            let beater = self.index.matching(beater);
            if part.meets(beater) {
                for piece in part.split(beater) {
                    self.carve(in_port, &beaters[tried + 1..], &piece, left)?;
                }
                return Ok(());
            }
        }
        self.survived(in_port, part, left)
    }

    /// "If that is an edge port, the part is a find. If a link ends there and
    /// more than one hop was left, a stop follows at its from-port with one
    /// hop less."
    fn survived(&mut self, in_port: u16, part: &Set<B>, left: usize) -> Result<(), Halt> {
        match self.index.origin(in_port) {
            Origin::Edge(edge) => self.find(usize::from(edge), part, left),
            Origin::Link(from) if left > 1 => self.stop(from, part, left - 1),
            Origin::Link(_) | Origin::Nothing => Ok(()),
        }
    }

    fn find(&mut self, edge: usize, part: &Set<B>, left: usize) -> Result<(), Halt> {
        let find = Find {
            edge,
            entries: &self.path[left - 1..self.longest],
            set: *part,
        };
        match (self.visit)(&find) {
            ControlFlow::Continue(()) => Ok(()),
            ControlFlow::Break(()) => Err(Halt::Visitor),
        }
    }
}
