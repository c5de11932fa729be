//! What the command needs of memory and of stack.

#[path = "common/command.rs"]
mod command;

use std::fs;

use command::{folder, in_a_shell};
use reference::file::write;
use reference::random::deep_ring;

/// 32 · 32 · 16 · 16 finds, of 40 bytes each in the area that the library fills.
const MANY_FINDS: &str = "\
edge 1 group 7 admits any
edge 2 group 9 admits any
entry 1 -> drop priority 2 match nw_src=1.2.3.4
entry 1 -> drop priority 2 match nw_dst=1.2.3.4
entry 1 -> drop priority 2 match tp_src=5
entry 1 -> drop priority 2 match tp_dst=6
entry 1 -> 2 priority 1 match any
";

/// Room for the program and for the area, but not for the text of the list.
#[test]
fn a_list_is_written_as_it_is_read() {
    let folder = folder("many-finds");
    fs::write(folder.join("text"), MANY_FINDS).unwrap();
    assert_eq!(in_a_shell(&folder, "\"$0\" pack text fabric").status, 0);
    for json in ["", "--json"] {
        let list = format!("\"$0\" list fabric 2 {json} >list");
        let ran = in_a_shell(
            &folder,
            &format!("ulimit -v 65536; MALLOC_ARENA_MAX=1 {list}"),
        );
        assert_eq!((ran.status, &ran.err[..]), (0, ""));
        let list = fs::read_to_string(folder.join("list")).unwrap();
        assert!(list.len() > 10 << 20);
        let finds = 32 * 32 * 16 * 16;
        match json {
            "" => assert!(list.lines().count() > finds),
            _ => assert_eq!(list.matches("\"hops\":1,").count(), finds),
        }
    }
}

/// The deepest trace, though shell and environment leave little stack.
#[test]
fn calls_have_the_stack_that_they_need() {
    let folder = folder("little-stack");
    let mut ring = deep_ring().fabric;
    ring.edges[0].group = 2;
    fs::write(folder.join("fabric"), write(&ring)).unwrap();
    for line in [
        "verdict fabric 2",
        "list fabric 2",
        "list fabric lost",
        "gate fabric 2",
        "audit fabric",
        "dot fabric 2",
    ] {
        let whole = in_a_shell(&folder, &format!("\"$0\" {line}"));
        let little = "ulimit -s 200; RUST_MIN_STACK=65536";
        let ran = in_a_shell(&folder, &format!("{little} \"$0\" {line}"));
        assert_eq!(ran, whole, "{line}");
    }
}
