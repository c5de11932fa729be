//! What several tests need: a call of the product and the same call of the
//! reference, on the same bytes.

#![allow(dead_code)]

pub mod checks;
pub mod fence;
pub mod program;
mod query;

pub use query::to_host;

use std::cell::Cell;

use mwishovala::{raw, QUERY_NUMBERS};
use reference::calls::{read_answer, Answer};
use reference::random::{list_query, packet, query, Rng};
use reference::{Fabric, Query, Transfer};

/// One of the three calls, twice.
#[derive(Clone, Copy)]
pub struct Call {
    pub name: &'static str,
    pub number: u32,
    product: fn(&[u8], &mut [u8], [u32; QUERY_NUMBERS]) -> u64,
    reference: fn(&[u8], &mut [u8], &Query) -> u64,
    /// A random query, in range or not, with mostly less than so many units.
    pub query: fn(&mut Rng, &Fabric, u32) -> Query,
}

pub const VERDICT: Call = Call {
    name: "verdict",
    number: 1,
    product: raw::verdict,
    reference: reference::verdict,
    query,
};

pub const LIST: Call = Call {
    name: "list",
    number: 2,
    product: raw::list,
    reference: reference::list,
    query: list_query,
};

pub const RUN: Call = Call {
    name: "run",
    number: 3,
    product: raw::run,
    reference: reference::run,
    query: |rng, fabric, _| packet(rng, fabric),
};

impl Call {
    /// The product's call, with the reference's query.
    pub fn product(&self, file: &[u8], area: &mut [u8], query: &Query) -> u64 {
        (self.product)(file, area, to_host(query).numbers())
    }
}

/// Makes the call of both, on a lent area of this length, and fails unless
/// code and every byte are the same.
pub fn agreed(call: Call, file: &[u8], lent: usize, query: &Query) -> Answer {
    let (product, reference) = (
        product_alone(call, file, lent, query),
        reference_alone(call, file, lent, query),
    );
    let name = call.name;
    assert_eq!(product.0, reference.0, "{name}, {lent} lent: {query:x?}");
    assert!(
        product.1 == reference.1,
        "{name}, {lent} lent: other bytes: {query:x?}"
    );
    read_answer(product.0, &product.1)
}

/// The product's code and area. Fails if a byte around the area or of the file
/// has changed.
pub fn product_alone(call: Call, file: &[u8], lent: usize, query: &Query) -> (u64, Vec<u8>) {
    let around_file = Guarded::new(file);
    let mut around_area = Guarded::new(&fresh(lent));
    let file_before = around_file.bytes.clone();
    let code = call.product(around_file.inner(), around_area.inner_mut(), query);
    assert!(around_file.bytes == file_before, "the file has changed");
    around_area.check();
    (code, around_area.inner().to_vec())
}

pub fn reference_alone(call: Call, file: &[u8], lent: usize, query: &Query) -> (u64, Vec<u8>) {
    let mut area = fresh(lent);
    let code = (call.reference)(file, &mut area, query);
    (code, area)
}

/// What an area holds before it is lent.
pub fn fresh(lent: usize) -> Vec<u8> {
    (0..lent).map(|i| (i * 7 + 3) as u8).collect()
}

/// Bytes with others on both sides, at any alignment.
struct Guarded {
    bytes: Vec<u8>,
    start: usize,
    length: usize,
}

const GUARD: usize = 64;

impl Guarded {
    fn new(inner: &[u8]) -> Guarded {
        let start = GUARD + inner.len() % 5;
        let mut bytes: Vec<u8> = (0..start).map(guard_byte).collect();
        bytes.extend(inner);
        bytes.extend((0..GUARD).map(guard_byte));
        Guarded {
            bytes,
            start,
            length: inner.len(),
        }
    }

    fn inner(&self) -> &[u8] {
        &self.bytes[self.start..][..self.length]
    }

    fn inner_mut(&mut self) -> &mut [u8] {
        &mut self.bytes[self.start..][..self.length]
    }

    fn check(&self) {
        let before = self.bytes[..self.start].iter().copied();
        assert!(before.eq((0..self.start).map(guard_byte)), "bytes before");
        let after = self.bytes[self.start + self.length..].iter().copied();
        assert!(after.eq((0..GUARD).map(guard_byte)), "bytes after");
    }
}

fn guard_byte(place: usize) -> u8 {
    (place * 31 + 0x50) as u8
}

/// Whether one of the entries with these numbers copies or swaps.
pub fn transfers(fabric: &Fabric, numbers: &[impl Copy + Into<u32>]) -> bool {
    let mut numbers = numbers.iter().map(|&number| number.into() as usize);
    numbers.any(|number| fabric.entries[number].transfer != Transfer::None)
}

/// How often something was seen.
#[derive(Default)]
pub struct Seen(Cell<usize>);

impl Seen {
    pub fn add(&self, number: usize) {
        self.0.set(self.0.get() + number);
    }

    /// Fails if it was seen too little, unless a single seed was asked for.
    pub fn at_least(&self, floor: usize) {
        let seen = self.0.get();
        assert!(seen >= floor || std::env::var("SEED").is_ok(), "{seen}");
    }
}
