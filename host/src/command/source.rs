//! Where a fabric or a text is read from.

use std::ffi::{OsStr, OsString};
use std::fs::{self, File};
use std::io::{self, Read};
use std::os::fd::AsFd;
use std::os::unix::fs::MetadataExt;
use std::path::Path;

use super::loaded::{named, Loaded, NO_FABRIC};
use super::Failure;
use crate::digest::Digest;
use crate::fabric::Fabric;
use crate::names::Names;
use crate::refusal::{Question, Refusal};

/// Longer input is no fabric and no text of one.
const MOST_BYTES: u64 = 16 << 20;

/// A file's name, or - for standard input.
pub(super) struct Source(pub(super) OsString);

impl Source {
    pub(super) fn name(&self) -> String {
        match self.is_standard() {
            true => "standard input".into(),
            false => printable(&self.0),
        }
    }

    fn is_standard(&self) -> bool {
        self.0 == "-"
    }

    pub(super) fn read(&self) -> Result<Vec<u8>, Failure> {
        let mut bytes = Vec::new();
        let read = match self.is_standard() {
            true => io::stdin().take(MOST_BYTES + 1).read_to_end(&mut bytes),
            false => File::open(&self.0)
                .and_then(|file| file.take(MOST_BYTES + 1).read_to_end(&mut bytes)),
        };
        match read {
            Err(error) => Err(self.failed(&error.to_string())),
            Ok(length) if length as u64 > MOST_BYTES => Err(self.failed("it is far too long")),
            Ok(_) => Ok(bytes),
        }
    }

    /// Whether this file is read here too, by whatever name.
    pub(super) fn is_the_file(&self, file: &Path) -> bool {
        let read = match self.is_standard() {
            true => io::stdin()
                .as_fd()
                .try_clone_to_owned()
                .and_then(|input| File::from(input).metadata()),
            false => fs::metadata(&self.0),
        };
        let which = |file: fs::Metadata| (file.dev(), file.ino());
        match (read, fs::metadata(file)) {
            (Ok(read), Ok(file)) => which(read) == which(file),
            _ => false,
        }
    }

    pub(super) fn failed(&self, why: &str) -> Failure {
        Failure::Error(format!("{}: {why}", self.name()))
    }

    /// The names that are kept beside the fabric.
    pub(super) fn names(&self) -> Result<Names, Failure> {
        match self.is_standard() {
            true => Ok(Names::default()),
            false => Names::beside(self.0.as_ref()).map_err(|unreadable| {
                let file = printable(unreadable.file.as_os_str());
                Failure::Error(format!("{file}: {}", unreadable.why))
            }),
        }
    }

    /// The fabric that these bytes are, which were read here, if the proved library
    /// accepts it as one of this version.
    pub(super) fn load<const N: usize>(&self, bytes: Vec<u8>) -> Result<Loaded<N>, Failure> {
        match Fabric::accepted(&bytes) {
            Ok(fabric) => Ok(Loaded {
                name: self.name(),
                digest: Digest::of(&bytes),
                names: Names::default(),
                bytes,
                fabric,
            }),
            Err(refusal) => Err(Failure::Refused {
                file: self.name(),
                about: vec![(
                    "fabric",
                    named(&self.name(), &Digest::of(&bytes), NO_FABRIC),
                )],
                refusal: match looks_like_text(&bytes, &refusal) {
                    true => Refusal {
                        reason: format!("{}; it looks like text: pack it first", refusal.reason),
                        ..refusal
                    },
                    false => refusal,
                },
            }),
        }
    }
}

/// A file's name, without characters that would move a cursor or end a line.
pub(super) fn printable(name: &OsStr) -> String {
    let name = name.to_string_lossy();
    let shown = name.chars().map(|character| match character.is_control() {
        true => character.escape_default().to_string(),
        false => character.to_string(),
    });
    shown.collect()
}

fn looks_like_text(bytes: &[u8], refusal: &Refusal) -> bool {
    let at_the_start = matches!(refusal.question, Question::Length | Question::Start);
    let written = |byte: &u8| byte.is_ascii_graphic() || byte.is_ascii_whitespace();
    at_the_start && !bytes.is_empty() && bytes.iter().all(written)
}
