//! How a verdict's time grows with entries, hops and beaters.

use std::hint::black_box;
use std::path::Path;

use crate::plot::{svg, Panel, Point};
use crate::timing::{in_words, race};
use crate::to_host;
use mwishovala::raw;
use reference::examples::{edge, entry, fabric, link, wild_query};
use reference::file::write;
use reference::{Entry, Fabric, Set};

const START: u16 = 1;
const TARGET: u16 = 2;

/// Prints a table of each, and draws all of them to a file in this folder.
pub fn table_and_plot(folder: &Path) {
    let panels = [
        panel(
            "entries",
            &[64, 128, 192, 256, 320, 384, 448, 512],
            by_entries,
        ),
        panel("hops", &[1, 2, 4, 6, 8, 10, 12, 14, 16], by_hops),
        panel("beaters", &[0, 7, 15, 23, 31, 39, 47, 55, 63], by_beaters),
    ];
    let path = folder.join("growth.svg");
    match std::fs::write(&path, svg(&panels)) {
        Ok(()) => println!("The plot is {}.", path.display()),
        Err(error) => println!("No plot: {}: {error}", path.display()),
    }
}

/// Measures a verdict on each of the fabrics, and prints a table.
fn panel(name: &'static str, sizes: &[u16], make: fn(u16) -> Fabric) -> Panel {
    println!(
        "{name:<32} {:>10} {:>10} {:>6}",
        "product", "reference", "ratio"
    );
    let mut points = Vec::new();
    for &size in sizes {
        let file = write(&make(size));
        let query = wild_query(u32::from(TARGET), 16, u32::MAX);
        let asked = to_host(&query).numbers();
        let (mut lent, mut lent_too) = ([0; 96], [0; 96]);
        let times = race(
            || assert_eq!(raw::verdict(black_box(&file), &mut lent, asked) % 256, 0),
            || {
                assert_eq!(
                    reference::verdict(black_box(&file), &mut lent_too, &query) % 256,
                    0
                )
            },
        );
        assert_eq!(lent, lent_too);
        let (product, reference) = (in_words(times.product), in_words(times.reference));
        println!(
            "{size:<32} {product:>10} {reference:>10} {:>6.2}",
            times.ratio()
        );
        points.push(Point { size, times });
    }
    println!();
    Panel { name, points }
}

/// Entries at an in-port of `by_entries`.
const ROUTES: u16 = 16;

/// As many entries, 16 at each in-port, all to the target: routes that differ
/// in their prefix, so that no beater meets them. Those before beat.
fn by_entries(number: u16) -> Fabric {
    let mut fabric = two_edges();
    for number in 0..number {
        let route = Set {
            care: 0xffff_ff00 << 64,
            value: (10 << 24 | u128::from(number) << 8) << 64,
        };
        fabric.entries.push(Entry {
            matching: route,
            ..entry(ROUTES - number % ROUTES, 100 + number / ROUTES, TARGET)
        });
    }
    fabric
}

/// A chain of as many switches, with 31 denies of one bit at each.
fn by_hops(number: u16) -> Fabric {
    let mut fabric = two_edges();
    for hop in 0..number {
        let in_port = if hop == 0 { START } else { 100 + hop };
        let last = hop + 1 == number;
        let out_port = if last { TARGET } else { 200 + hop };
        fabric.entries.extend(denies(31, in_port));
        fabric.entries.push(entry(1, in_port, out_port));
        if !last {
            fabric.links.push(link(out_port, 100 + hop + 1));
        }
    }
    fabric
}

/// An allow under as many denies of one bit.
fn by_beaters(number: u16) -> Fabric {
    let mut fabric = two_edges();
    fabric.entries.extend(denies(number, START));
    fabric.entries.push(entry(1, START, TARGET));
    fabric
}

fn denies(number: u16, in_port: u16) -> impl Iterator<Item = Entry> {
    (0..number).map(move |bit| {
        let one = 1 << bit;
        let matching = Set {
            care: one,
            value: one,
        };
        Entry {
            matching,
            ..entry(2, in_port, 0)
        }
    })
}

/// One group, so that the verdict makes the whole trace.
fn two_edges() -> Fabric {
    fabric(&[edge(1, START), edge(1, TARGET)], &[], &[])
}
