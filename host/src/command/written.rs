//! A fabric file that is written, with its names beside it.

use std::ffi::OsStr;

use super::manual::VERSION;
use super::replace::replace;
use super::source::{printable, Source};
use super::{Failure, Output, DONE};
use crate::digest::Digest;
use crate::names::Names;

/// Where a command writes a fabric.
pub(super) struct Destination<'f> {
    file: &'f OsStr,
}

impl Destination<'_> {
    /// This file, or - for standard output. It is refused if what is read, which is
    /// so called, would be lost.
    pub(super) fn beside<'f>(
        read: &Source,
        called: &str,
        file: &'f OsStr,
    ) -> Result<Destination<'f>, Failure> {
        let names = Names::file_of(file.as_ref());
        for written in [file, names.as_os_str()] {
            if read.is_the_file(written.as_ref()) {
                let why = format!("it is the {called} itself, which would be lost");
                return Err(failed(written, why));
            }
        }
        Ok(Destination { file })
    }

    /// Writes it, and says what was done. Names that are kept there already stay if
    /// there are none to write.
    pub(super) fn write(
        &self,
        fabric: &[u8],
        names: &Names,
        done: &str,
        out: Output,
    ) -> Result<u8, Failure> {
        let file = self.file;
        if file == "-" {
            out.write_all(fabric)?;
            return Ok(DONE);
        }
        if !names.is_empty() {
            let beside = Names::file_of(file.as_ref());
            write(beside.as_os_str(), names.to_string().as_bytes())?;
        }
        write(file, fabric)?;
        let (name, digest) = (printable(file), Digest::of(fabric));
        writeln!(
            out,
            "{done} {name}, sha256 {digest}, by mwishovala {VERSION}"
        )?;
        Ok(DONE)
    }
}

fn write(file: &OsStr, bytes: &[u8]) -> Result<(), Failure> {
    replace(file.as_ref(), bytes).map_err(|error| failed(file, error))
}

fn failed(file: &OsStr, why: impl std::fmt::Display) -> Failure {
    Failure::Error(format!("{}: {why}", printable(file)))
}
