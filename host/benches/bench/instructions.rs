//! Instructions of the product, counted by valgrind. Other than times they are the
//! same in every run, also on a busy machine: a change that makes the library do
//! more is seen, as when vector code becomes scalar.

use std::env::current_exe;
use std::fs;
use std::process::{Command, Stdio};

use crate::limits::Tally;
use crate::work::works;

/// What a unit is expected to take, by work and call.
const EXPECTED: &str = concat!(
    env!("CARGO_MANIFEST_DIR"),
    "/benches/bench/instructions.txt"
);
/// Where valgrind writes what it has counted.
const COUNTED: &str = concat!(env!("CARGO_TARGET_TMPDIR"), "/callgrind.out");
/// How many times the expected is still the same.
const MOST: f64 = 1.03;

/// What each call takes beside what is expected; if asked to, writes the former
/// where the latter stands.
pub fn table(write: bool) -> Result<Tally, String> {
    let expected = fs::read_to_string(EXPECTED).unwrap_or_default();
    let mut tally = Tally::default();
    let mut lines = String::new();
    println!(
        "{:<18} {:>8} {:<8} {:>12} {:>9} {:>9}",
        "instructions", "units", "call", "of a call", "of a unit", "expected"
    );
    for work in works() {
        let units = work.units();
        for call in work.calls() {
            let work = work.name();
            let instructions = of_a_call(work, call)?;
            let of_a_unit = instructions as f64 / units as f64;
            let (before, mark) = match expected_of(&expected, work, call) {
                Some(before) => (format!("{before:.1}"), tally.mark(of_a_unit, before * MOST)),
                None => ("none".into(), String::new()),
            };
            let row = format!(
                "{work:<18} {units:>8} {call:<8} {instructions:>12} {of_a_unit:>9.1} {before:>9} {mark}"
            );
            println!("{}", row.trim_end());
            lines += &format!("{work}, {call}, {of_a_unit:.1}\n");
        }
    }
    if write {
        fs::write(EXPECTED, lines).map_err(|error| format!("{EXPECTED}: {error}"))?;
    }
    Ok(tally)
}

fn expected_of(lines: &str, work: &str, call: &str) -> Option<f64> {
    let begins = format!("{work}, {call}, ");
    lines
        .lines()
        .find_map(|line| line.strip_prefix(&begins)?.parse().ok())
}

/// What the second of two calls takes: all that comes before and after is in both
/// counts.
fn of_a_call(work: &str, call: &str) -> Result<u64, String> {
    let once = of_calls(work, call, "1")?;
    let twice = of_calls(work, call, "2")?;
    twice
        .checked_sub(once)
        .ok_or_else(|| format!("{work}, {call}: two calls take less than one"))
}

/// All instructions of a process of this program that makes so many calls.
fn of_calls(work: &str, call: &str, times: &str) -> Result<u64, String> {
    let program = current_exe().map_err(|error| error.to_string())?;
    let status = Command::new("valgrind")
        .arg("--tool=callgrind")
        .arg(format!("--callgrind-out-file={COUNTED}"))
        .arg(program)
        .args(["repeat", work, call, times])
        .stderr(Stdio::null())
        .status()
        .map_err(|error| format!("valgrind, which counts instructions, can't be run: {error}"))?;
    if !status.success() {
        return Err(format!("{work}, {call}: under valgrind, {status}"));
    }
    let counted = fs::read_to_string(COUNTED).map_err(|error| format!("{COUNTED}: {error}"))?;
    let total = |line: &str| line.strip_prefix("totals: ")?.trim().parse().ok();
    counted
        .lines()
        .find_map(total)
        .ok_or_else(|| format!("{COUNTED}: no total in it"))
}
