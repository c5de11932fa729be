//! `mwishovala show`.

use super::loaded::Loaded;
use super::manual::VERSION;
use super::{ties, Failure, Output, DONE};
use crate::text;

/// Ties are remarks, which pack passes over.
pub(super) fn show<const N: usize>(loaded: &Loaded<N>, out: Output) -> Result<u8, Failure> {
    writeln!(out, "# mwishovala {VERSION}, sha256 {}", loaded.digest)?;
    let text = text::show_named(&loaded.fabric, &loaded.names);
    out.write_all(text.as_bytes())?;
    for line in ties::in_words(loaded) {
        writeln!(out, "# {line}")?;
    }
    Ok(DONE)
}
