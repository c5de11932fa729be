//! `docs/JSON.md`, held to what the command prints.

#[path = "common/command.rs"]
mod command;
#[path = "common/json.rs"]
mod json;

use std::collections::BTreeSet;
use std::fs;
use std::path::Path;

use command::{folder, mwishovala, ran, with_f, F};
use json::{parse, Value};

fn page() -> String {
    let docs = Path::new(env!("CARGO_MANIFEST_DIR")).join("../docs");
    fs::read_to_string(docs.join("JSON.md")).unwrap()
}

/// What stands between fences of this kind.
fn fenced<'p>(page: &'p str, kind: &str) -> Vec<&'p str> {
    let blocks = page.split("\n```").skip(1).step_by(2);
    blocks
        .filter_map(|block| block.strip_prefix(kind)?.strip_prefix('\n'))
        .collect()
}

/// The page's examples: what is typed, and the answer.
fn examples(page: &str) -> Vec<(Vec<&str>, Value)> {
    let examples = fenced(page, "console").into_iter().map(|block| {
        let (typed, answer) = block.split_once('\n').unwrap();
        let answer = parse(answer).unwrap_or_else(|| panic!("no JSON after {typed}"));
        (typed.split(' ').skip(2).collect(), answer)
    });
    examples.collect()
}

/// The page's fabrics, in order.
const FABRICS: [&str; 6] = ["volumes", "tied", "replies", "misses", "drops", "frames"];

#[test]
fn the_pages_examples_are_what_is_printed() {
    let page = page();
    let folder = folder("json-page");
    let fabrics = fenced(&page, "text");
    assert_eq!(fabrics.len(), FABRICS.len());
    for (name, fabric) in FABRICS.iter().zip(fabrics) {
        fs::write(folder.join("text"), format!("{fabric}\n")).unwrap();
        assert_eq!(ran(&folder, &format!("pack text {name}.fabric")).status, 0);
        assert!(page.contains(&format!("packed as `{name}.fabric`")));
    }
    let examples = examples(&page);
    for (typed, expected) in &examples {
        let ran = mwishovala(&folder, typed, &[]);
        assert_eq!(parse(ran.text()).as_ref(), Some(expected), "{typed:?}");
        assert_eq!(ran.text().lines().count(), 1);
    }
    for command in ["verdict", "list", "run", "audit"] {
        assert!(
            examples.iter().any(|(typed, _)| typed[0] == command),
            "{command}"
        );
    }
}

/// Every member that an example has stands in the page's sentences.
#[test]
fn the_page_says_what_each_member_is() {
    let page = page();
    let mut names = BTreeSet::new();
    for (_, answer) in examples(&page) {
        members(&answer, &mut names);
    }
    assert!(names.len() > 30);
    for name in names {
        let said = [format!("`{name}`"), format!(".{name}`")];
        assert!(said.iter().any(|said| page.contains(said)), "{name}");
    }
}

/// The names of members, but for those that are ports, switches and fields.
fn members(value: &Value, names: &mut BTreeSet<String>) {
    match value {
        Value::Object(members_of) => {
            for (name, value) in members_of {
                names.insert(name.clone());
                match &name[..] {
                    "ports" | "switches" | "header" | "sendable" | "fields" => (),
                    _ => members(value, names),
                }
            }
        }
        Value::List(values) => values.iter().for_each(|value| members(value, names)),
        _ => (),
    }
}

/// Whatever goes wrong, a program that asks for JSON gets it, in one shape.
#[test]
fn every_failure_is_json() {
    let folder = with_f("json-failures");
    fs::write(folder.join("short"), [1, 2, 3]).unwrap();
    fs::write(folder.join("empty"), [2, 0, 1, 0x10, 0, 0, 0, 0x50]).unwrap();
    fs::write(folder.join("newer.txt"), format!("openflow 1.3\n{F}")).unwrap();
    assert_eq!(ran(&folder, "pack newer.txt newer.fabric").status, 0);
    for (line, question) in [
        ("--json", None),
        ("vrdict --json", None),
        ("verdict --json", None),
        ("verdict f.fabric --json", None),
        ("verdict f.fabric two --json", None),
        ("verdict f.fabric 2 --json --fast", None),
        ("verdict f.fabric 2 --json --asked tp_dst=x", None),
        ("verdict f.fabric 2 --json --json", None),
        ("verdict nowhere 2 --json", None),
        ("audit empty --json", None),
        ("show f.fabric --json", None),
        ("run f.fabric 1 tp_dst=1/3 --json", None),
        ("verdict short 2 --json", Some(1)),
        ("list f.txt 2 --json", Some(2)),
        ("verdict f.fabric lost --json", None),
        ("list f.fabric found --json", None),
        ("verdict f.fabric 9 --json", Some(8)),
        ("verdict f.fabric 0 --json", Some(8)),
        ("list newer.fabric lost --json", Some(8)),
        ("list newer.fabric 0 --json", Some(8)),
        ("list f.fabric lost --hops 0 --json", Some(9)),
        ("list f.fabric lost --budget 0 --json", Some(13)),
        ("audit f.fabric --hops 17 --json", Some(9)),
        ("run f.fabric 9 any --json", Some(11)),
        ("list f.fabric 2 --json --budget 1", Some(13)),
    ] {
        let ran = ran(&folder, line);
        assert_eq!((ran.status, &ran.err[..]), (2, ""), "{line}");
        let answer = parse(ran.text()).unwrap();
        let Some(Value::Object(refused)) = answer.get("refused") else {
            panic!("{line}: {}", ran.text());
        };
        let names: Vec<&str> = refused.iter().map(|(name, _)| &name[..]).collect();
        assert_eq!(names, ["question", "place", "reason", "try"]);
        let number = answer.at(&["refused", "question"]).and_then(Value::number);
        assert_eq!(number, question, "{line}");
        let reason = answer.at(&["refused", "reason"]).and_then(Value::text);
        assert!(reason.is_some_and(|reason| !reason.is_empty()));
        assert_eq!(answer.get("verdict"), None);
    }
    // After --, it is a word like any other.
    let text = ran(&folder, "verdict -- --json 1");
    assert_eq!((text.status, text.out.len()), (2, 0));
}

/// A row of an audit is refused in the same shape as a whole answer.
#[test]
fn a_row_is_refused_as_an_answer_is() {
    let folder = with_f("json-rows");
    let audit = parse(ran(&folder, "audit f.fabric --budget 1 --json").text()).unwrap();
    let verdict = parse(ran(&folder, "verdict f.fabric 2 --budget 1 --json").text()).unwrap();
    let rows = audit.get("targets").and_then(Value::list).unwrap();
    assert!(verdict.get("refused").is_some());
    assert_eq!(rows[1].get("refused"), verdict.get("refused"));
    assert_eq!(rows[1].at(&["senders", "refused"]), verdict.get("refused"));
}
