//! Denies on independent fields.

use super::{deny, one_group, Benchmark};
use crate::examples::{entry, tp_dst};
use crate::random::parts::{address, prefix_of};
use crate::set::Set;

const DENIES_PER_FIELD: u32 = 8;

/// By the number of fields, from 1 on.
const NAMES: [&str; 4] = [
    "denies on 1 field",
    "denies on 2 fields",
    "denies on 3 fields",
    "denies on 4 fields",
];

/// An all-wild allow under eight denies on each of 1, 2, 3 and 4 fields: parts
/// multiply from field to field.
pub fn denies_on_fields() -> [Benchmark; 4] {
    std::array::from_fn(|place| denies_on(place + 1, NAMES[place]))
}

fn denies_on(fields: usize, name: &'static str) -> Benchmark {
    let (start, target) = (1, 2);
    let mut fabric = one_group(start, target);
    for field in &FIELDS[..fields] {
        let denied = (0..DENIES_PER_FIELD).map(|number| deny(2, start, field(number)));
        fabric.entries.extend(denied);
    }
    fabric.entries.push(entry(1, start, target));
    Benchmark::all_wild(name, fabric, target)
}

/// The denies of each field, by number.
const FIELDS: [fn(u32) -> Set; 4] = [
    |number| prefix_of(0, address(1, number as usize), 24),
    |number| prefix_of(1, address(2, number as usize), 24),
    |number| tp_dst(8000 + number),
    |number| Set::of_words([0, 0, 0, 0xffff_0000], [0, 0, 0, (100 + number) << 16]),
];
