//! What stands after `cargo bench --`.

use std::env::args;
use std::path::PathBuf;

pub const USAGE: &str = "\
cargo bench                                 times and stack; the plot goes to Cargo's folder
cargo bench -- [FOLDER] [--check]           the plot goes here; 1 if a row is above its limit
cargo bench -- instructions                 instructions of the product, by valgrind
cargo bench -- instructions --check         1 if a row is above what is expected
cargo bench -- instructions --write         what is counted is expected from now on";

/// What to do.
pub enum Mode {
    Tables {
        folder: PathBuf,
        check: bool,
    },
    Instructions {
        check: bool,
        write: bool,
    },
    /// What is counted: the product's call with each query of a work, so many times.
    Repeat {
        work: String,
        call: String,
        times: usize,
    },
}

/// Where the plot goes if no folder is given.
const PLOT_FOLDER: &str = env!("CARGO_TARGET_TMPDIR");

impl Mode {
    pub fn asked() -> Option<Mode> {
        // Cargo adds it.
        let words: Vec<String> = args().skip(1).filter(|word| word != "--bench").collect();
        let words: Vec<&str> = words.iter().map(String::as_str).collect();
        let tables = |folder: &str, check| Mode::Tables {
            folder: folder.into(),
            check,
        };
        let instructions = |check, write| Mode::Instructions { check, write };
        Some(match words[..] {
            [] => tables(PLOT_FOLDER, false),
            ["--check"] => tables(PLOT_FOLDER, true),
            ["instructions"] => instructions(false, false),
            ["instructions", "--check"] => instructions(true, false),
            ["instructions", "--write"] => instructions(false, true),
            ["repeat", work, call, times] => Mode::Repeat {
                work: work.into(),
                call: call.into(),
                times: times.parse().ok()?,
            },
            [folder] if !folder.starts_with('-') => tables(folder, false),
            [folder, "--check"] if !folder.starts_with('-') => tables(folder, true),
            _ => return None,
        })
    }
}
