//! Files written whole or not at all.

use std::fs::{self, File, OpenOptions};
use std::io::{self, Write};
use std::path::{Path, PathBuf};

/// Puts these bytes in the place of a file, or makes it. They are written to a
/// temporary file beside it, which then takes its name: on an error the old file
/// is as it was and the temporary one is gone, and at no time is there half a
/// file. Behind a link, the file that it leads to is replaced.
pub(super) fn replace(file: &Path, bytes: &[u8]) -> io::Result<()> {
    let file = behind_links(file)?;
    let old = match fs::metadata(&file) {
        Ok(old) if !old.is_file() => return Err(io::Error::other("it is no regular file")),
        Ok(old) => Some(old),
        Err(error) if error.kind() == io::ErrorKind::NotFound => None,
        Err(error) => return Err(error),
    };
    let temporary = beside(&file)?;
    let written = create(&temporary).and_then(|mut new| {
        let filled = fill(&mut new, old.as_ref(), bytes);
        let named = filled.and_then(|()| fs::rename(&temporary, &file));
        named.inspect_err(|_| drop(fs::remove_file(&temporary)))
    });
    written?;
    // The file is whole either way; this keeps a crash from undoing the name.
    let _ = File::open(folder_of(&file)).and_then(|folder| folder.sync_all());
    Ok(())
}

/// A file that isn't there yet has its own name.
fn behind_links(file: &Path) -> io::Result<PathBuf> {
    match fs::symlink_metadata(file) {
        Ok(itself) if itself.is_symlink() => file.canonicalize(),
        _ => Ok(file.into()),
    }
}

/// A name that nothing else has: it is made only if it isn't there.
fn beside(file: &Path) -> io::Result<PathBuf> {
    let nameless = || io::Error::from(io::ErrorKind::InvalidFilename);
    let mut name = file.file_name().ok_or_else(nameless)?.to_os_string();
    name.push(format!(".{}.new", std::process::id()));
    Ok(file.with_file_name(name))
}

fn create(temporary: &Path) -> io::Result<File> {
    OpenOptions::new()
        .write(true)
        .create_new(true)
        .open(temporary)
}

/// Who may read the old file may read the new one.
fn fill(new: &mut File, old: Option<&fs::Metadata>, bytes: &[u8]) -> io::Result<()> {
    if let Some(old) = old {
        new.set_permissions(old.permissions())?;
    }
    new.write_all(bytes)?;
    new.sync_all()
}

fn folder_of(file: &Path) -> &Path {
    match file.parent() {
        Some(folder) if !folder.as_os_str().is_empty() => folder,
        _ => Path::new("."),
    }
}
