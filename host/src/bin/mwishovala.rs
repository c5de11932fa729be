//! The command for people; all of it is in the library, but for what has to be
//! asked before Rust's start-up.

use std::process::ExitCode;
use std::sync::atomic::{AtomicBool, Ordering};

fn main() -> ExitCode {
    let words = std::env::args_os().skip(1);
    mwishovala::command::main(words, OUTPUT_IS_OPEN.load(Ordering::Relaxed))
}

static OUTPUT_IS_OPEN: AtomicBool = AtomicBool::new(true);

/// Rust's start-up puts /dev/null in the place of a closed standard output, and
/// what is written there is lost in silence. So this is asked before it: the
/// loader calls the functions in `.init_array` first.
#[cfg(target_os = "linux")]
#[used]
#[link_section = ".init_array"]
static BEFORE_START_UP: extern "C" fn() = {
    use std::os::fd::AsFd;

    extern "C" fn look_at_the_output() {
        let copied = std::io::stdout().as_fd().try_clone_to_owned();
        OUTPUT_IS_OPEN.store(copied.is_ok(), Ordering::Relaxed);
    }
    look_at_the_output
};
