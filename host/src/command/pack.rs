//! `mwishovala pack`.

use std::ffi::OsStr;

use super::source::Source;
use super::written::Destination;
use super::{Failure, Output};
use crate::text;

/// Nothing is written unless all of the text is right, and never over it.
pub(super) fn pack(text: &Source, file: &OsStr, out: Output) -> Result<u8, Failure> {
    let destination = Destination::beside(text, "text", file)?;
    let name = text.name();
    let said = String::from_utf8(text.read()?)
        .map_err(|_| Failure::Error(format!("{name}: it isn't text (UTF-8)")))?;
    let packed =
        text::pack_named(&said).map_err(|wrong| Failure::Error(format!("{name}:{wrong}")))?;
    destination.write(&packed.file, &packed.names, "packed", out)
}
