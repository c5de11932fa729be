//! Finds the proved library and links it, if it is of this package's version.

use std::env;
use std::fs;
use std::path::{Path, PathBuf};
use std::process::exit;

/// Where the library is looked for, if not in `../target/staticlib`.
const LIB_DIR: &str = "FABRIC_LIB_DIR";
/// How the text begins by which an archive names its version and commit.
const NAMED: &str = "mwishovala ";

fn main() {
    println!("cargo::rerun-if-env-changed={LIB_DIR}");
    let folder = match env::var_os(LIB_DIR) {
        Some(folder) => PathBuf::from(folder),
        None => PathBuf::from("../target/staticlib"),
    };
    let archive = folder.join("libmwishovala.a");
    for library in [&archive, &proved_beside(&archive)] {
        println!("cargo::rerun-if-changed={}", library.display());
    }
    match found(&archive) {
        Ok(folder) => {
            println!("cargo::rustc-link-search=native={}", folder.display());
            println!("cargo::rustc-link-lib=static=mwishovala");
            println!("cargo::rustc-env=MWISHOVALA_LIB_DIR={}", folder.display());
        }
        Err(why) => {
            eprintln!("{}: {why}.", archive.display());
            eprintln!(
                "Make it by 'tools/library' in the folder above this \
                 one, or set {LIB_DIR}."
            );
            exit(1);
        }
    }
}

/// The folder of an archive that is this package's.
fn found(archive: &Path) -> Result<PathBuf, String> {
    let bytes = fs::read(archive).map_err(|error| error.to_string())?;
    check(&bytes, env!("CARGO_PKG_VERSION"))?;
    // Who has the archive alone has nothing that it could be older than.
    if let Ok(proved) = fs::read(proved_beside(archive)) {
        check_made_of(&bytes, &proved)?;
    }
    let whole = archive.canonicalize().map_err(|error| error.to_string())?;
    Ok(whole.parent().unwrap_or(&whole).to_path_buf())
}

/// The library as it was proved, of which the archive is made.
fn proved_beside(archive: &Path) -> PathBuf {
    archive.with_file_name("libfabric.a")
}

/// Whether the archive has all that is in the other one, and not an older one's.
pub fn check_made_of(archive: &[u8], proved: &[u8]) -> Result<(), String> {
    let has = |object: &[u8]| archive.windows(object.len()).any(|bytes| bytes == object);
    match members(proved).all(has) {
        true => Ok(()),
        false => Err("it isn't made of the libfabric.a beside it".into()),
    }
}

/// What an archive holds, but for its index, which has no name.
fn members(archive: &[u8]) -> impl Iterator<Item = &[u8]> {
    const MAGIC: usize = 8;
    const HEAD: usize = 60;
    let mut rest = archive.get(MAGIC..).unwrap_or_default();
    std::iter::from_fn(move || {
        let (head, behind) = rest.split_at_checked(HEAD)?;
        let length: usize = str::from_utf8(&head[48..58]).ok()?.trim().parse().ok()?;
        let member = behind.get(..length)?;
        rest = behind.get(length + length % 2..).unwrap_or_default();
        Some((head, member))
    })
    .filter(|(head, member)| head[0] != b'/' && !member.is_empty())
    .map(|(_, member)| member)
}

/// Whether the archive with these bytes names this version.
pub fn check(archive: &[u8], version: &str) -> Result<(), String> {
    let begins = |bytes: &[u8]| bytes == NAMED.as_bytes();
    let Some(start) = archive.windows(NAMED.len()).position(begins) else {
        return Err("it names no version".into());
    };
    let named = archive[start..].split(|&byte| byte == 0).next();
    let named = String::from_utf8_lossy(named.unwrap_or_default());
    match named.starts_with(&format!("{NAMED}{version}, commit ")) {
        true => Ok(()),
        false => Err(format!("it is '{named}', and this package is {version}")),
    }
}
