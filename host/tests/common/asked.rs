//! The command asked about one fabric in a folder, and its answers as JSON. It
//! stands on the modules `command` and `json` beside it.

#![allow(dead_code)]

use std::fs;
use std::path::{Path, PathBuf};

use reference::file::write;
use reference::random::Rng;
use reference::Fabric;

use crate::command::{folder, ran};
use crate::json::{parse, Value};

/// A folder with this text as `fabric`.
pub fn with(name: &str, text: &str) -> PathBuf {
    let folder = folder(name);
    fs::write(folder.join("text"), text).unwrap();
    assert_eq!(ran(&folder, "pack text fabric").status, 0);
    folder
}

/// What the command answers to this line.
pub fn answered(folder: &Path, line: &str) -> Value {
    parse(ran(folder, line).text()).unwrap()
}

/// One of a fabric's edge ports, and what verdict answers about it.
pub fn judged(folder: &Path, fabric: &Fabric, rng: &mut Rng) -> (u16, Value) {
    fs::write(folder.join("fabric"), write(fabric)).unwrap();
    let port = rng.pick(&fabric.edges).map_or(1, |edge| edge.port);
    let line = format!("verdict fabric {port} --budget 5000 --json");
    (port, answered(folder, &line))
}

/// A header as the command line takes it.
pub fn in_words(header: &Value) -> String {
    let Value::Object(fields) = header else {
        panic!("{header:?} is no header");
    };
    let fields = fields.iter().map(|(name, value)| match value {
        Value::Text(text) => format!("{name}={text}"),
        other => format!("{name}={}", other.number().unwrap()),
    });
    fields.collect::<Vec<_>>().join(",")
}
