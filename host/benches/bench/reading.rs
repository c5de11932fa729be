//! Reading a file: questions 1 to 7, through the cheapest call, a run whose
//! hop limit gets a no as soon as the file is accepted.

use std::hint::black_box;

use crate::timing::{in_words, race};
use crate::work::{Call, RUN, WIDE_RUN};
use reference::calls::Query;
use reference::file::write;
use reference::random::{largest, Rng, WideRng};
use reference::{Fabric, Words};

pub fn table() {
    println!(
        "{:<32} {:>10} {:>10} {:>6}",
        "reading", "product", "reference", "ratio"
    );
    let accepted = write(&largest(&mut Rng::new(1)));
    row("40,200 bytes, accepted", &RUN, &accepted, 9);
    let refused = spoiled(accepted);
    row("refused at the last word", &RUN, &refused, 10_049 * 256 + 3);
    let least = write(&Fabric::default());
    row("start and end alone", &RUN, &least, 9);
    let accepted = write(&largest(&mut WideRng::new(1)));
    row("version 2, 59,784 bytes", &WIDE_RUN, &accepted, 9);
    let refused = spoiled(accepted);
    row(
        "refused at the last word",
        &WIDE_RUN,
        &refused,
        14_945 * 256 + 3,
    );
    println!();
}

/// With a stray bit in the end, the last word.
fn spoiled(mut file: Vec<u8>) -> Vec<u8> {
    let end = file.len() - 4;
    file[end] = 1;
    file
}

fn row<W: Words>(name: &str, run: &Call<W>, file: &[u8], code: u64) {
    let query = Query::wild(0, 0, 0);
    let times = race(
        || assert_eq!((run.product)(black_box(file), &mut [], &query), code),
        || assert_eq!((run.reference)(black_box(file), &mut [], &query), code),
    );
    let (product, reference) = (in_words(times.product), in_words(times.reference));
    println!(
        "{name:<32} {product:>10} {reference:>10} {:>6.2}",
        times.ratio()
    );
}
