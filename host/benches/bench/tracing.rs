//! Verdict and list on fabrics whose targets are isolated, and lists of the lost:
//! the whole trace is made.

use std::time::Duration;

use crate::limits::{most_ratio, Tally};
use crate::timing::{in_words, Times};
use crate::work::{audit, fields, lost, traces, Measured, Work};

/// The benchmark fabrics, how it grows with the fields of denies, what is lost, and
/// an audit.
pub fn tables() -> Tally {
    let mut tally = Tally::default();
    table("fabric", &traces(), &mut tally);
    table("fields", &fields(), &mut tally);
    table("lost packets", &lost(), &mut tally);
    table("64 edges", &[audit()], &mut tally);
    tally
}

fn table(title: &str, works: &[Work], tally: &mut Tally) {
    println!(
        "{title:<18} {:>8} {:<8} {:>10} {:>10} {:>6} {:>12} {:>12}",
        "units", "call", "product", "reference", "ratio", "product", "reference"
    );
    for work in works {
        let units = work.units();
        for call in work.calls {
            let times = work.times(call);
            let mark = tally.mark(times.ratio(), most_ratio(work.name, call.name));
            let row = row(work.name, units, call.name, &times);
            println!("{}", format!("{row} {mark}").trim_end());
        }
    }
    println!();
}

fn row(name: &str, units: u64, call: &str, times: &Times) -> String {
    let (product, reference) = (in_words(times.product), in_words(times.reference));
    let rates = [times.product, times.reference].map(|time| rate(units, time));
    format!(
        "{name:<18} {units:>8} {call:<8} {product:>10} {reference:>10} {:>6.2} {:>12} {:>12}",
        times.ratio(),
        rates[0],
        rates[1],
    )
}

/// Units a second.
fn rate(units: u64, time: Duration) -> String {
    format!("{:.1} M/s", units as f64 / time.as_secs_f64() / 1e6)
}
