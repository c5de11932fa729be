//! `mwishovala widen`: version 2 of a fabric of version 1.

use std::ffi::OsStr;

use super::loaded::Loaded;
use super::source::Source;
use super::written::Destination;
use super::{Failure, Output};
use crate::calls::accept;
use crate::fabric::Fabric;
use crate::version::Version;

/// Ethernet's fields are wild and not rewritten, and all else stays, names too.
/// Nothing is written unless the proved library accepts it, and never over the
/// fabric itself.
pub(super) fn widen<const N: usize>(
    read: &Source,
    loaded: &Loaded<N>,
    file: &OsStr,
    out: Output,
) -> Result<u8, Failure> {
    let destination = Destination::beside(read, "fabric", file)?;
    let wide = wide(&loaded.fabric).map_err(|why| loaded.failed(&why))?;
    destination.write(&wide, &loaded.names, "widened", out)
}

/// The file of version 2 that says the same, or why there is none.
fn wide<const N: usize>(fabric: &Fabric<N>) -> Result<Vec<u8>, String> {
    if Version::of::<N>() == Version::V2 {
        return Err("it is of version 2 already".into());
    }
    let (entries, most) = (fabric.entries.len(), Version::V2.most_entries());
    if entries > most {
        return Err(format!(
            "it has {entries} entries, and version 2 has at most {most}"
        ));
    }
    let wide: Option<Fabric<8>> = fabric.resized();
    let wide = wide.ok_or("it has fields that version 2 doesn't have")?;
    let file = wide
        .to_bytes()
        .map_err(|unwritable| unwritable.to_string())?;
    accept(&file).map_err(|refusal| refusal.to_string())?;
    Ok(file)
}
