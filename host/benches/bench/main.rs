//! The product beside the independent implementation, in one run: reading, runs,
//! verdict and list, what version 2 costs, stack, and how time grows. Prints
//! tables, marks what takes longer than it may, and writes the plot, `growth.svg`.
//! In another run, the product's instructions.

mod arguments;
mod cpu_time;
mod growth;
mod instructions;
mod limits;
#[path = "../../tests/wide/numbers.rs"]
mod numbers;
mod plot;
#[path = "../../tests/common/query.rs"]
mod query;
mod reading;
mod running;
mod stack;
mod timing;
mod tracing;
mod versions;
mod work;

use std::path::Path;
use std::process::ExitCode;

use arguments::{Mode, USAGE};
use limits::Tally;
use query::to_host;

fn main() -> ExitCode {
    match Mode::asked().ok_or(USAGE.into()).and_then(passes) {
        Ok(true) => ExitCode::SUCCESS,
        Ok(false) => ExitCode::FAILURE,
        Err(why) => {
            eprintln!("{why}");
            ExitCode::from(2)
        }
    }
}

/// Does what is asked, and gives whether a check of it passes, if there is one.
fn passes(mode: Mode) -> Result<bool, String> {
    let (tally, check) = match mode {
        Mode::Tables { folder, check } => (tables(&folder), check),
        Mode::Instructions { check, write } => (instructions::table(write)?, check),
        Mode::Repeat { work, call, times } => {
            work::repeat(&work, &call, times)?;
            return Ok(true);
        }
    };
    tally.print();
    Ok(tally.none_above() || !check)
}

fn tables(folder: &Path) -> Tally {
    println!("Time: CPU time, the least of several rounds, product and reference in turn.");
    println!("Ratio: product to reference; below 1 the product is faster.\n");
    reading::table();
    running::table();
    let mut tally = tracing::tables();
    versions::table(&mut tally);
    stack::table();
    growth::table_and_plot(folder);
    tally
}
