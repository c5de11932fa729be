//! A call of the product and the same call of the reference, on the same bytes.

use std::cell::RefCell;

use mwishovala::{raw, QUERY_NUMBERS_V2};
use reference::calls::{read_answer, Answer};
use reference::random::{list_query, packet, query, WideRng};
use reference::wide::{self, Fabric, Query};

use crate::common::fence::{Fenced, Side};
use crate::common::fresh;
use crate::numbers::numbers;

/// What a verdict or a run fills.
pub const ROOM: usize = 4 * raw::VERDICT_WORDS_V2;
/// Room for the longest file, and one that is too long.
const MOST_FILE: usize = 70_000;
const MOST_AREA: usize = 1 << 20;

/// One of the three calls, twice.
#[derive(Clone, Copy)]
pub struct Call {
    pub name: &'static str,
    product: fn(&[u8], &mut [u8], [u32; QUERY_NUMBERS_V2]) -> u64,
    reference: fn(&[u8], &mut [u8], &Query) -> u64,
    /// A random query, in range or not, with mostly less than so many units.
    pub query: fn(&mut WideRng, &Fabric, u32) -> Query,
}

pub const VERDICT: Call = Call {
    name: "verdict",
    product: raw::verdict_v2,
    reference: wide::verdict,
    query,
};

pub const LIST: Call = Call {
    name: "list",
    product: raw::list_v2,
    reference: wide::list,
    query: list_query,
};

pub const RUN: Call = Call {
    name: "run",
    product: raw::run_v2,
    reference: wide::run,
    query: |rng, fabric, _| packet(rng, fabric),
};

pub const CALLS: [Call; 3] = [VERDICT, LIST, RUN];

thread_local! {
    static PLACES: RefCell<[Fenced; 2]> =
        RefCell::new([Fenced::new(MOST_FILE), Fenced::new(MOST_AREA)]);
}

impl Call {
    /// The product's code and area, with the fences on one side. Fails if the file
    /// has changed.
    fn product(&self, file: &[u8], lent: usize, query: &Query, side: Side) -> (u64, Vec<u8>) {
        PLACES.with_borrow_mut(|[for_file, for_area]| {
            let file_there = for_file.bytes(file.len(), side);
            file_there.copy_from_slice(file);
            let area = for_area.bytes(lent, side);
            area.copy_from_slice(&fresh(lent));
            let code = (self.product)(file_there, area, numbers(query));
            assert!(file_there == file, "the file has changed");
            (code, area.to_vec())
        })
    }

    /// What the product alone answers, on any area.
    pub fn product_on(&self, file: &[u8], area: &mut [u8], query: &Query) -> u64 {
        (self.product)(file, area, numbers(query))
    }
}

/// What the product answers.
pub fn product(call: Call, file: &[u8], lent: usize, query: &Query) -> Answer {
    let (code, area) = call.product(file, lent, query, Side::After);
    read_answer(code, &area)
}

/// Makes the call of both, on a lent area of this length, and fails unless code and
/// every byte are the same.
pub fn agreed(call: Call, file: &[u8], lent: usize, query: &Query) -> Answer {
    let mut area = fresh(lent);
    let code = (call.reference)(file, &mut area, query);
    for side in [Side::After, Side::Before] {
        let (by_product, area_there) = call.product(file, lent, query, side);
        let name = call.name;
        assert_eq!(by_product, code, "{name}, {lent} lent: {query:x?}");
        assert!(
            area_there == area,
            "{name}, {lent} lent: other bytes: {query:x?}"
        );
    }
    read_answer(code, &area)
}
