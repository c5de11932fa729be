//! A fabric file is written whole or not at all.

#[path = "common/command.rs"]
mod command;

use std::fs;
use std::os::unix::fs::{symlink, PermissionsExt};
use std::path::Path;

use command::{in_a_shell, ran, with_f, F};

/// Another text than F's.
const OTHER: &str = "edge 5 group 1 admits any\n";

/// Names in a folder, in order: no temporary file may stay there.
fn names(folder: &Path) -> Vec<String> {
    let files = fs::read_dir(folder).unwrap();
    let mut names: Vec<String> = files
        .map(|file| file.unwrap().file_name().into_string().unwrap())
        .collect();
    names.sort();
    names
}

#[test]
fn the_old_file_is_never_written_into() {
    let folder = with_f("replaced");
    fs::write(folder.join("other.txt"), OTHER).unwrap();
    let old = fs::read(folder.join("f.fabric")).unwrap();
    // Whoever has the old file still has it, whole.
    fs::hard_link(folder.join("f.fabric"), folder.join("kept")).unwrap();
    let before = names(&folder);
    assert_eq!(ran(&folder, "pack other.txt f.fabric").status, 0);
    assert_eq!(fs::read(folder.join("kept")).unwrap(), old);
    assert_ne!(fs::read(folder.join("f.fabric")).unwrap(), old);
    assert_eq!(names(&folder), before);
}

#[test]
fn after_an_error_the_old_file_is_whole() {
    let folder = with_f("full");
    fs::write(folder.join("other.txt"), OTHER).unwrap();
    let old = fs::read(folder.join("f.fabric")).unwrap();
    let before = names(&folder);
    // No file may grow, as if the disk were full.
    let full = "trap '' XFSZ; ulimit -f 0; exec \"$0\" pack other.txt ";
    for file in ["f.fabric", "new"] {
        let ran = in_a_shell(&folder, &format!("{full}{file}"));
        assert_eq!(ran.status, 2, "{}", ran.err);
        assert!(
            ran.err.starts_with(&format!("mwishovala: {file}: ")),
            "{}",
            ran.err
        );
        assert_eq!(fs::read(folder.join("f.fabric")).unwrap(), old);
        assert_eq!(names(&folder), before);
    }
}

#[test]
fn what_is_no_file_stays() {
    let folder = with_f("no-file");
    fs::create_dir(folder.join("folder")).unwrap();
    assert_eq!(in_a_shell(&folder, "mkfifo pipe").status, 0);
    symlink("nowhere", folder.join("dangling")).unwrap();
    let before = names(&folder);
    for file in [
        "folder",
        "pipe",
        "dangling",
        "missing/f.fabric",
        "/dev/null",
        "..",
        "",
    ] {
        let ran = ran(&folder, &format!("pack f.txt {file}"));
        assert_eq!((ran.status, ran.out.len()), (2, 0), "{file}");
        assert!(
            ran.err.starts_with(&format!("mwishovala: {file}: ")),
            "{}",
            ran.err
        );
    }
    assert_eq!(names(&folder), before);
}

#[test]
fn a_text_is_not_packed_over_itself() {
    let folder = with_f("same");
    symlink("f.txt", folder.join("linked")).unwrap();
    fs::hard_link(folder.join("f.txt"), folder.join("second")).unwrap();
    let said = "it is the text itself, which would be lost\n";
    for file in ["f.txt", "./f.txt", "../same/f.txt", "linked", "second"] {
        let ran = ran(&folder, &format!("pack f.txt {file}"));
        assert_eq!(ran.err, format!("mwishovala: {file}: {said}"));
        let from_input = in_a_shell(&folder, &format!("\"$0\" pack - {file} <f.txt"));
        assert_eq!((ran.status, &ran.err), (2, &from_input.err));
        assert_eq!(fs::read_to_string(folder.join("f.txt")).unwrap(), F);
    }
}

/// Nor are names written over it.
#[test]
fn a_text_is_not_lost_to_names() {
    let folder = with_f("names-over-text");
    let text = format!("{F}name 1 storage-a\n");
    fs::write(folder.join("new.names"), &text).unwrap();
    let ran = ran(&folder, "pack new.names new");
    assert_eq!(
        ran.err,
        "mwishovala: new.names: it is the text itself, which would be lost\n"
    );
    assert_eq!(fs::read_to_string(folder.join("new.names")).unwrap(), text);
    assert!(!folder.join("new").exists());
}

/// A link goes on leading to the file, and who may read it still may.
#[test]
fn links_and_permissions_stay() {
    let folder = with_f("links");
    fs::write(folder.join("other.txt"), OTHER).unwrap();
    symlink("f.fabric", folder.join("link")).unwrap();
    let file = folder.join("f.fabric");
    fs::set_permissions(&file, fs::Permissions::from_mode(0o640)).unwrap();
    let old = fs::read(&file).unwrap();
    assert_eq!(ran(&folder, "pack other.txt link").status, 0);
    assert!(folder.join("link").is_symlink());
    assert_ne!(fs::read(&file).unwrap(), old);
    assert_eq!(file.metadata().unwrap().permissions().mode() & 0o777, 0o640);
}

/// One bit of the file, and so its digest, says which OpenFlow the text chooses.
#[test]
fn an_openflow_is_packed_and_shown() {
    let folder = with_f("openflow");
    let old = fs::read(folder.join("f.fabric")).unwrap();
    for (number, line) in ["openflow 1.0", "openflow 1.3"].iter().enumerate() {
        fs::write(folder.join("text"), format!("{line}\n{F}")).unwrap();
        assert_eq!(ran(&folder, "pack text packed").status, 0);
        let packed = fs::read(folder.join("packed")).unwrap();
        assert_eq!(usize::from(packed[3] ^ old[3]), number << 3, "{line}");
        assert_eq!((&packed[..3], &packed[4..]), (&old[..3], &old[4..]));
        let shown = ran(&folder, "show packed");
        assert_eq!(shown.text().contains(line), number == 1);
        fs::write(folder.join("shown"), &shown.out).unwrap();
        assert_eq!(ran(&folder, "pack shown again").status, 0);
        assert_eq!(fs::read(folder.join("again")).unwrap(), packed);
    }
    fs::write(folder.join("text"), format!("{F}openflow 1.3\n")).unwrap();
    let wrong = ran(&folder, "pack text packed");
    assert_eq!(
        (&wrong.err[..], wrong.status),
        (
            "mwishovala: text:5:1: openflow stands before every edge, link and entry\n",
            2
        )
    );
}
