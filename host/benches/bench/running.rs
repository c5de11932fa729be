//! Packet runs, reading included.

use std::hint::black_box;

use crate::timing::{in_words, race};
use crate::work::{Call, RUN, WIDE_RUN};
use reference::calls::Query;
use reference::fabric::Fabric;
use reference::file::write;
use reference::random::{campus, deep_ring, in_both_versions, replies};
use reference::{Bits, Words};

pub fn table() {
    let (product, reference) = ("product", "reference");
    println!("{:<32} {product:>10} {reference:>10} {:>6}", "run", "ratio");
    // From the first to the second building, for the first tenant.
    let there = [0x0a00_0001, 0x0a01_0001, 80, 6];
    row("campus", &RUN, &campus().fabric, there);
    row("deep ring", &RUN, &deep_ring().fabric, [0; 4]);
    // The same way, and back swapped.
    let ping = [0x0a00_0001, 0x0a01_0001, 80, 0x0406];
    row("replies", &RUN, &replies().fabric, ping);
    for both in in_both_versions() {
        let header = match both.wide.name {
            "campus of five v2" => widened(there),
            "ring of five v2" => [0; 8],
            "replies v2" => widened(ping),
            // The same hosts by the last bits of dl_src and dl_dst.
            "Ethernet campus v2" => [0, 0, 80, 6, 0x0a00, 0x0001_0000, 0x0a01_0001, 0],
            _ => continue,
        };
        row(both.wide.name, &WIDE_RUN, &both.wide.fabric, header);
    }
    println!();
}

fn widened(header: [u32; 4]) -> [u32; 8] {
    let [src, dst, ports, others] = header;
    [src, dst, ports, others, 0, 0, 0, 0]
}

fn row<W: Words>(name: &str, run: &Call<W>, fabric: &Fabric<W::Bits>, header: W) {
    let file = write(fabric);
    let query: Query<W> = Query::packet(1, 16, W::Bits::from_words(header));
    let (mut lent, mut lent_too) = (vec![0; run.lent], vec![0; run.lent]);
    let code = run.lent as u64 / 4 * 256;
    let times = race(
        || assert_eq!((run.product)(black_box(&file), &mut lent, &query), code),
        || {
            assert_eq!(
                (run.reference)(black_box(&file), &mut lent_too, &query),
                code
            )
        },
    );
    assert_eq!(lent, lent_too);
    let (fate, hops) = (lent[0], lent[12]);
    assert_eq!(fate, 0, "it leaves");
    let name = format!("{name}, {hops} hops");
    let (product, reference) = (in_words(times.product), in_words(times.reference));
    println!(
        "{name:<32} {product:>10} {reference:>10} {:>6.2}",
        times.ratio()
    );
}
