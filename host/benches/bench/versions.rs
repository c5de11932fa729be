//! What version 2 costs: verdict and list on the same fabrics in both versions.

use crate::limits::{most_ratio, Tally, VERSION_2};
use crate::timing::{in_words, race, Times};
use crate::work::{versions, Measured};

/// The product in version 1 and in version 2, whose time is held to a multiple of the
/// first; and the reference in version 2.
pub fn table(tally: &mut Tally) {
    println!(
        "{:<18} {:>8} {:<8} {:>10} {:>10} {:>6} {:>10} {:>6}",
        "version 2", "units", "call", "version 1", "version 2", "ratio", "reference", "ratio"
    );
    for (old, wide) in versions() {
        let (name, units) = (wide.name, wide.units());
        for (old_call, call) in old.calls.iter().zip(wide.calls) {
            let (mut lent, mut old_lent) = (vec![0; call.lent], vec![0; old_call.lent]);
            let versions = race(
                || wide.product(call, &mut lent),
                || old.product(old_call, &mut old_lent),
            );
            let times = wide.times(call);
            let marks = [
                tally.mark(versions.ratio(), VERSION_2),
                tally.mark(times.ratio(), most_ratio(name, call.name)),
            ];
            let row = row(name, units, call.name, &versions, &times);
            println!("{}", format!("{row} {}", marks.join(" ")).trim_end());
        }
    }
    println!();
}

/// Of the first times, version 1's are those of the reference.
fn row(name: &str, units: u64, call: &str, versions: &Times, times: &Times) -> String {
    let [old, wide, reference] =
        [versions.reference, versions.product, times.reference].map(in_words);
    format!(
        "{name:<18} {units:>8} {call:<8} {old:>10} {wide:>10} {:>6.2} {reference:>10} {:>6.2}",
        versions.ratio(),
        times.ratio(),
    )
}
