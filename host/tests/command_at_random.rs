//! The command on random fabrics, damaged files and any arguments.

#[path = "common/command.rs"]
mod command;
#[path = "common/json.rs"]
mod json;

use std::fs;

use command::{folder, mwishovala, ran, with_f, COMMANDS, F};
use json::{is_json, parse, Value};
use reference::file::write;
use reference::random::{any, cases, damage, Rng};

/// `show` and `pack` of random fabrics; `dot` and `--json` of them are whole.
#[test]
fn random_fabrics() {
    let folder = folder("random");
    cases(9_000_000, 60, |rng| {
        let fabric = any(rng);
        let file = write(&fabric);
        fs::write(folder.join("fabric"), &file).unwrap();
        let shown = ran(&folder, "show fabric");
        fs::write(folder.join("text"), &shown.out).unwrap();
        assert_eq!(ran(&folder, "pack text again").status, 0);
        assert_eq!(fs::read(folder.join("again")).unwrap(), file);
        let port = rng.pick(&fabric.edges).map_or(1, |edge| edge.port);
        let lost = ran(&folder, "list fabric lost --budget 5000 --json");
        assert!(is_json(lost.text()), "{}", lost.text());
        let is_newer = shown.text().contains("\nopenflow 1.3\n");
        assert_eq!(is_newer, file[3] == 0x18);
        let is_refused_as_such = lost.text().contains("\"question\":8,");
        assert_eq!(is_refused_as_such, is_newer, "{}", lost.text());
        let run = ran(&folder, &format!("run fabric {port} any --json"));
        assert!(is_json(run.text()), "{}", run.text());
        for line in ["verdict fabric", "list fabric", "dot fabric"] {
            let json = if line.starts_with("dot") {
                ""
            } else {
                " --json"
            };
            let ran = ran(&folder, &format!("{line} {port} --budget 5000{json}"));
            assert!(json.is_empty() || is_json(ran.text()), "{line}");
            let text = ran.text();
            let is_picture = text.contains("\ndigraph fabric {\n") && text.ends_with("}\n");
            assert!(!json.is_empty() || ran.status == 2 || is_picture);
        }
        assert!(is_json(
            ran(&folder, "audit fabric --budget 5000 --json").text()
        ));
    });
}

/// Damaged files and texts get a status of 2 or an answer, and never a panic.
#[test]
fn damaged_files() {
    let folder = folder("damaged");
    cases(9_100_000, 150, |rng| {
        let fabric = any(rng);
        let file = damage(&write(&fabric), rng);
        fs::write(folder.join("fabric"), &file).unwrap();
        let port = rng.pick(&fabric.edges).map_or(1, |edge| edge.port);
        let line = match rng.below(8) {
            0 => format!("verdict fabric {port} --budget 1000"),
            1 => format!("list fabric {port} --budget 1000 --json"),
            2 => format!("run fabric {port} nw_dst=10.0.0.1"),
            3 => "audit fabric --budget 100".into(),
            4 => "show fabric".into(),
            5 => "pack fabric packed".into(),
            6 => "list fabric lost --budget 1000".into(),
            _ => format!("dot fabric {port} --budget 1000"),
        };
        let ran = ran(&folder, &line);
        assert!(ran.status != 2 || !ran.err.is_empty() || !ran.out.is_empty());
    });
}

/// Whatever the arguments, there is an end and a status; and 0 is 'isolated' for
/// the commands that judge, or help that stands alone.
#[test]
fn arguments_at_random() {
    let folder = with_f("arguments");
    let others = [
        "f.fabric",
        "f.txt",
        "2",
        "1",
        "any",
        "tp_dst=80",
        "lost",
        "0",
        "--json",
        "--hops",
        "--asked",
        "--budget",
        "--jobs",
        "-",
        "--",
        "-h",
        "--help",
        "--version",
        "--json=1",
        "--hops=3",
        "é",
        "",
    ];
    let words = [&COMMANDS[..], &others].concat();
    cases(9_300_000, 1500, |rng: &mut Rng| {
        let number = rng.between(0, 6);
        let mut arguments: Vec<&str> = (0..number)
            .filter_map(|_| rng.pick(&words).copied())
            .collect();
        if rng.once_in(2) {
            arguments.insert(0, rng.one_of(["verdict", "gate", "audit", "run", "dot"]));
        }
        // Only the files of this test are written to.
        if !arguments.contains(&"pack") {
            let ran = mwishovala(&folder, &arguments, F.as_bytes());
            let judges = matches!(arguments.first(), Some(&("verdict" | "gate" | "audit")));
            if judges && ran.status == 0 {
                assert!(is_isolated(&arguments, ran.text()), "{arguments:?}");
            }
        }
    });
}

/// Whether this is the answer 'isolated', or help that stands alone.
fn is_isolated(arguments: &[&str], answer: &str) -> bool {
    match arguments {
        ["verdict" | "audit", "--help" | "-h"] => true,
        ["audit", ..] => answer.contains(" 0 reached, 0 refused\n") || no_row_but(answer),
        _ => answer.starts_with("isolated") || answer.contains("\"verdict\":\"isolated\""),
    }
}

/// Whether an audit's JSON has 'isolated' in every row.
fn no_row_but(answer: &str) -> bool {
    let answer = parse(answer);
    let rows = answer
        .as_ref()
        .and_then(|answer| answer.get("targets")?.list());
    let isolated = |row: &Value| row.get("verdict").and_then(Value::text) == Some("isolated");
    rows.is_some_and(|rows| !rows.is_empty() && rows.iter().all(isolated))
}
