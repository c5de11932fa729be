//! Equal priorities on purpose, or none at all.

use super::source::Rng;
use crate::bits::Bits;
use crate::fabric::{Entry, Fabric, MOST_ENTRIES_PER_IN_PORT};

/// In a third of the fabrics some entries get an equal, in a third none has
/// one, and a third stays as it came.
pub(super) fn settle<B: Bits>(rng: &mut Rng<B>, fabric: &mut Fabric<B>) {
    match rng.below(3) {
        0 => untie(fabric),
        1 => tie(rng, fabric),
        _ => {}
    }
}

/// All priorities of an in-port differ: of equals the earlier gets the higher.
fn untie<B: Bits>(fabric: &mut Fabric<B>) {
    let before = fabric.entries.clone();
    let is_below = |one: usize, other: usize| {
        let (a, b) = (&before[one], &before[other]);
        a.in_port == b.in_port && (a.priority, other) < (b.priority, one)
    };
    for (number, entry) in fabric.entries.iter_mut().enumerate() {
        let below = (0..before.len()).filter(|&other| is_below(other, number));
        entry.priority = below.count() as u16 * STEP;
    }
}

/// 63 of them are below 65,536.
const STEP: u16 = 1021;

/// Up to one entry in eight gets an equal, whose match meets its own.
fn tie<B: Bits>(rng: &mut Rng<B>, fabric: &mut Fabric<B>) {
    for _ in 0..rng.between(1, 1 + fabric.entries.len() / 8) {
        let picked = (rng.pick(&fabric.entries), rng.pick(&fabric.entries));
        let (Some(&model), Some(&other)) = picked else {
            return;
        };
        let here = |entry: &&Entry<B>| entry.in_port == model.in_port;
        if fabric.entries.iter().filter(here).count() == MOST_ENTRIES_PER_IN_PORT {
            continue;
        }
        if fabric.entries.len() == B::MOST_ENTRIES {
            fabric.entries.remove(rng.below(B::MOST_ENTRIES));
        }
        let place = rng.below(fabric.entries.len() + 1);
        fabric.entries.insert(place, equal_of(rng, model, other));
    }
}

/// Matches the same or more, and does the same, or as another entry does.
fn equal_of<B: Bits>(rng: &mut Rng<B>, model: Entry<B>, other: Entry<B>) -> Entry<B> {
    let kept = rng.bits() | rng.one_of([B::NONE, !B::NONE]);
    let mut out_port = rng.one_of([model.out_port, other.out_port, other.out_port, 0]);
    if out_port == model.in_port {
        out_port = 0;
    }
    let plain = Entry::plain(model.priority, model.in_port, out_port);
    let does = rng.one_of([model, other, plain]);
    Entry {
        matching: model.matching.map(|bits| bits & kept),
        transfer: does.transfer,
        rewrite: does.rewrite,
        ..plain
    }
}
