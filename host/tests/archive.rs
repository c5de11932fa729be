//! The archive that hosts link: it names its version and commit, and another
//! version's isn't linked.

#[path = "../build.rs"]
#[allow(dead_code)]
mod build;
#[path = "common/command.rs"]
mod command;

use std::ffi::OsStr;
use std::fs;
use std::path::Path;
use std::process::Command;

use command::folder;
use mwishovala::raw;

const VERSION: &str = env!("CARGO_PKG_VERSION");

#[test]
fn the_archive_linked_is_of_this_version() {
    let named = format!("mwishovala {VERSION}, commit ");
    assert!(raw::library().starts_with(&named), "{}", raw::library());
}

#[test]
fn another_versions_archive_is_refused() {
    let archive = |named: &str| [b"!<arch>\n\0", named.as_bytes(), b"\0further"].concat();
    let check = |named: &str| build::check(&archive(named), "0.1.0");
    assert_eq!(check("mwishovala 0.1.0, commit 0123456789ab"), Ok(()));
    assert_eq!(check("mwishovala 0.1.0, commit unknown"), Ok(()));
    assert_eq!(
        check("mwishovala 0.1.01, commit unknown"),
        Err("it is 'mwishovala 0.1.01, commit unknown', and this package is 0.1.0".into())
    );
    assert_eq!(
        check("mwishovala 0.2.0, commit 0123456789ab-dirty"),
        Err(
            "it is 'mwishovala 0.2.0, commit 0123456789ab-dirty', and this package is 0.1.0".into()
        )
    );
    assert_eq!(check("libfabric"), Err("it names no version".into()));
}

/// An archive that was made before the library was proved anew isn't linked.
#[test]
fn an_older_archive_is_refused() {
    let member = |name: &str, bytes: &str| {
        let padding = if bytes.len() % 2 == 1 { "\n" } else { "" };
        format!("{name:<48}{:<10}`\n{bytes}{padding}", bytes.len())
    };
    let archive = |members: &[String]| ["!<arch>\n", &members.concat()].concat();
    let proved = archive(&[member("/", "an index"), member("fabric.o/", "code")]);
    let (code, version) = (member("fabric.o/", "code"), member("version.o/", "1"));
    let other = [member("/", "its index"), version.clone(), code];
    let check = |archive: &str| build::check_made_of(archive.as_bytes(), proved.as_bytes());
    assert_eq!(check(&archive(&other)), Ok(()));
    let older = [version, member("fabric.o/", "older")];
    let refused = Err("it isn't made of the libfabric.a beside it".into());
    assert_eq!(check(&archive(&older)), refused);
    assert_eq!(check("!<arch>\n"), refused);
}

/// What `tools/archive` names: no commit where there is no checkout of its own,
/// else the commit, and that the tree has more.
#[test]
fn the_commit_is_named() {
    let folder = folder("archive");
    let project = Path::new(env!("CARGO_MANIFEST_DIR")).join("..");
    for place in ["tools", "host", "target/staticlib"] {
        fs::create_dir_all(folder.join(place)).unwrap();
    }
    for file in ["tools/archive", "host/Cargo.toml"] {
        fs::copy(project.join(file), folder.join(file)).unwrap();
    }
    let library = Path::new(env!("MWISHOVALA_LIB_DIR")).join("libmwishovala.a");
    fs::copy(library, folder.join("target/staticlib/libfabric.a")).unwrap();
    assert_eq!(made(&folder), "unknown");
    fs::write(folder.join(".gitignore"), "target/\n").unwrap();
    git(&folder, "init -q");
    assert_eq!(made(&folder), "unknown");
    git(&folder, "add .");
    git(
        &folder,
        "-c user.name=a -c user.email=b -c commit.gpgsign=false commit -qm all",
    );
    let commit = git(&folder, "rev-parse --short=12 HEAD");
    assert_eq!(made(&folder), commit.trim_end());
    fs::write(folder.join("host/further"), "").unwrap();
    assert_eq!(made(&folder), format!("{}-dirty", commit.trim_end()));
}

/// A program that is told of no other checkout.
fn in_its_checkout(program: impl AsRef<OsStr>, folder: &Path) -> Command {
    let mut command = Command::new(program);
    for told in ["GIT_DIR", "GIT_WORK_TREE", "GIT_INDEX_FILE"] {
        command.env_remove(told);
    }
    command.current_dir(folder);
    command
}

fn git(folder: &Path, arguments: &str) -> String {
    let mut git = in_its_checkout("git", folder);
    let output = git.args(arguments.split(' ')).output();
    let output = output.expect("this test needs git, which can't be run");
    assert!(output.status.success(), "git {arguments}");
    String::from_utf8(output.stdout).unwrap()
}

/// Makes the archive there, and gives the commit that it names.
fn made(folder: &Path) -> String {
    let status = in_its_checkout(folder.join("tools/archive"), folder).status();
    assert!(status.expect("tools/archive runs").success());
    let archive = fs::read(folder.join("target/staticlib/libmwishovala.a")).unwrap();
    build::check(&archive, VERSION).unwrap();
    let text = String::from_utf8_lossy(&archive).into_owned();
    let named = text.split(", commit ").nth(1).unwrap();
    named.split('\0').next().unwrap().into()
}
