//! `mwishovala gate`: 0 exactly for 'isolated', for all headers and 16 hops.

#[path = "common/command.rs"]
mod command;

use std::cell::Cell;
use std::fs;

use command::{folder, ran, with_f};
use mwishovala::Digest;
use reference::file::{to_le_words, write};
use reference::random::{any, cases, damage};
use reference::Query;

#[test]
fn the_line_is_fixed() {
    let folder = with_f("gate-line");
    let digest = Digest::of(&fs::read(folder.join("f.fabric")).unwrap());
    let isolated = ran(&folder, "gate f.fabric 1");
    let line = format!("isolated: port 1, every IPv4 header, 16 hops, sha256 {digest}\n");
    assert_eq!(
        (isolated.text(), &isolated.err[..], isolated.status),
        (&line[..], "", 0)
    );
    let reached = ran(&folder, "gate f.fabric 2");
    let line = format!("reached: port 2, from port 1, sha256 {digest}; verdict has the packet\n");
    assert_eq!(
        (reached.text(), &reached.err[..], reached.status),
        (&line[..], "", 1)
    );
    let refused = ran(&folder, "gate f.fabric 2 --budget 1");
    assert_eq!((refused.out.len(), refused.status), (0, 2));
    assert!(refused.err.contains("question 13"));
}

/// Whole files and damaged ones, against the reference's verdict.
#[test]
fn zero_is_the_references_isolated() {
    let folder = folder("gate-random");
    let isolated = Cell::new(0);
    cases(9_500_000, 300, |rng| {
        let fabric = any(rng);
        let mut file = write(&fabric);
        if rng.once_in(4) {
            file = damage(&file, rng);
        }
        fs::write(folder.join("fabric"), &file).unwrap();
        let edge = rng.pick(&fabric.edges).map(|edge| edge.port);
        let port = edge.filter(|_| !rng.once_in(10)).unwrap_or(4095);
        let query = Query {
            port: port.into(),
            limit: 16,
            budget: 5000,
            care: [0; 4],
            value: [0; 4],
        };
        let mut area = [0; 96];
        let expected = match reference::verdict(&file, &mut area, &query) % 256 {
            0 => to_le_words(&area)[0] as i32,
            _ => 2,
        };
        let ran = ran(&folder, &format!("gate fabric {port} --budget 5000"));
        assert_eq!(ran.status, expected, "{}{}", ran.text(), ran.err);
        let says_isolated = ran.text().starts_with(&format!("isolated: port {port}, "));
        assert_eq!(says_isolated, expected == 0);
        let digest = Digest::of(&file).to_string();
        assert_eq!(ran.text().contains(&digest), expected != 2);
        isolated.set(isolated.get() + i32::from(expected == 0));
    });
    // A replayed case is one alone.
    assert!(
        std::env::var_os("SEED").is_some() || isolated.get() > 50,
        "{isolated:?}"
    );
}
