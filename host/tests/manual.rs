//! Help, manual page and completions say the same, and what they say holds.

#[path = "common/command.rs"]
mod command;

use std::collections::BTreeSet;
use std::fs;
use std::path::Path;
use std::process::Command;

use command::{folder, in_a_shell, ran, with_f, Ran, COMMANDS};
use mwishovala::limits::*;
use mwishovala::{Field, Version, USUAL_BUDGET};

fn printed(line: &str) -> String {
    ran(Path::new("."), line).text().to_string()
}

/// The options under this command's heading in its help.
fn options(command: &str) -> BTreeSet<String> {
    let help = printed(&format!("help {command}"));
    let lines = help.lines().map(str::trim_start);
    let options = lines.filter_map(|line| line.split(' ').next());
    options
        .filter(|word| word.starts_with("--"))
        .map(String::from)
        .collect()
}

/// The words of a text that look like options.
fn options_in(text: &str) -> BTreeSet<String> {
    let words = text.split(|c: char| !(c.is_ascii_alphanumeric() || c == '-'));
    let options = words.filter(|word| word.strip_prefix("--").is_some_and(|name| !name.is_empty()));
    options.map(String::from).collect()
}

/// What the help says of a command's options is what is accepted.
#[test]
fn options_are_those_of_the_help() {
    let folder = with_f("options");
    let all = options_in(&printed("--help"));
    assert_eq!(all.len(), 7);
    for command in COMMANDS {
        let own = options(command);
        for option in all.iter().filter(|option| !own.contains(*option)) {
            let Ran { err, status, .. } = ran(&folder, &format!("{command} {option} 1 2"));
            // JSON is asked for, so that it goes to standard output.
            let said = match &option[..] {
                "--json" => continue,
                "--help" | "--version" => format!("{option} stands alone"),
                _ => format!("{option} is no option of {command}"),
            };
            assert!(status == 2 && err.contains(&said), "{err}");
        }
        for option in &own {
            let Ran { err, out, .. } = ran(&folder, &format!("{command} {option}"));
            let said = err + &String::from_utf8_lossy(&out);
            assert!(!said.contains("is no option"), "{command} {option}: {said}");
        }
    }
}

#[test]
fn the_page_has_what_the_help_has() {
    let page = printed("man").replace("\\-", "-");
    let overview = printed("--help");
    for command in COMMANDS {
        let usage = printed(&format!("help {command}"));
        let usage = usage.lines().next().unwrap();
        for text in [&page, &overview] {
            assert!(text.contains(usage), "{usage}");
        }
        let synopsis = page
            .lines()
            .find(|line| line.starts_with(&format!(".B {usage}")));
        assert_eq!(options_in(synopsis.unwrap()), options(command), "{command}");
    }
    assert_eq!(options_in(&page), options_in(&overview));
    let sections = overview.split("\n\n").skip(3);
    for line in sections.flat_map(|section| section.lines().skip(1)) {
        assert!(page.replace("\\(aq", "'").contains(line), "{line}");
    }
}

/// groff has nothing to say against it.
#[test]
fn the_page_is_a_manual_page() {
    let folder = folder("page");
    fs::write(folder.join("mwishovala.1"), printed("man")).unwrap();
    match Command::new("groff").arg("--version").output() {
        Ok(_) => {
            let ran = in_a_shell(&folder, "groff -man -ww -Tutf8 mwishovala.1 >page");
            assert_eq!((ran.status, &ran.err[..]), (0, ""));
            let page = fs::read_to_string(folder.join("page")).unwrap();
            assert!(page.contains("FABRIC is a fabric file"));
        }
        Err(_) => assert!(printed("man").starts_with(".TH MWISHOVALA 1 ")),
    }
}

/// What bash offers after these words.
fn offered(folder: &Path, words: &[&str]) -> BTreeSet<String> {
    let script = format!(
        "source completions; COMP_WORDS=({}); COMP_CWORD={}; _mwishovala; \
         printf '%s\\n' \"${{COMPREPLY[@]}}\"",
        words.join(" "),
        words.len() - 1
    );
    let bash = Command::new("bash")
        .args(["-c", &script])
        .current_dir(folder)
        .output();
    let text = String::from_utf8(bash.expect("bash runs").stdout).unwrap();
    text.lines()
        .filter(|line| !line.is_empty())
        .map(String::from)
        .collect()
}

fn set(words: &[&str]) -> BTreeSet<String> {
    words.iter().map(|word| word.to_string()).collect()
}

#[test]
fn bash_offers_what_the_help_has() {
    let folder = with_f("bash");
    fs::write(folder.join("completions"), printed("completions bash")).unwrap();
    let mut first = set(&COMMANDS);
    first.extend(set(&["--help", "--version"]));
    assert_eq!(offered(&folder, &["mwishovala", "''"]), first);
    assert_eq!(offered(&folder, &["mwishovala", "ver"]), set(&["verdict"]));
    for command in COMMANDS {
        let mut options = options(command);
        options.insert("--help".into());
        assert_eq!(offered(&folder, &["mwishovala", command, "--"]), options);
    }
    let files = offered(&folder, &["mwishovala", "verdict", "f."]);
    assert_eq!(files, set(&["f.fabric", "f.txt"]));
    assert_eq!(
        offered(&folder, &["mwishovala", "help", "g"]),
        set(&["gate"])
    );
    assert_eq!(
        offered(&folder, &["mwishovala", "completions", "b"]),
        set(&["bash"])
    );
}

/// fish isn't run here: what it is told is held to the help.
#[test]
fn fish_is_told_what_the_help_has() {
    let fish = printed("completions fish");
    for command in COMMANDS {
        assert!(fish.contains(&format!(" -a {command} -d '")), "{command}");
        let after = format!("-n '__fish_seen_subcommand_from {command}' -l ");
        let told = fish.lines().filter_map(|line| line.split_once(&after));
        let told = told.map(|(_, rest)| format!("--{}", rest.split(' ').next().unwrap()));
        assert_eq!(told.collect::<BTreeSet<_>>(), options(command));
    }
}

/// The limits in the help are the library's.
#[test]
fn the_help_says_the_limits() {
    let help = printed("--help").replace('\n', " ");
    for said in [
        format!("Ports are 1 to {MOST_PORT}."),
        format!("At most {MOST_EDGES} edges, {MOST_LINKS} links, {MOST_ENTRIES} entries ("),
        format!(
            "({} in version 2), {MOST_AT_IN_PORT} of them at one in-port.",
            Version::V2.most_entries()
        ),
        format!("the most hops, 1 to {MOST_HOPS} (default: {MOST_HOPS})"),
        format!("(default: {USUAL_BUDGET})"),
    ] {
        assert!(help.contains(&said), "{said}");
    }
}

/// And what holds among equals, which isn't where they stand.
#[test]
fn the_help_says_who_takes_a_packet() {
    let help = printed("--help").replace('\n', " ");
    for said in [
        "one of the highest priority takes the packet: any, if there are several, wherever",
        "'isolated' holds under every choice, 'reached' shows one.",
    ] {
        assert!(help.contains(said), "{said}");
    }
    assert!(printed("help run").contains("It stops\nas 'tied' where two or more entries"));
    assert!(!help.contains("of equals the first"));
}

/// And what stands behind a match.
#[test]
fn the_help_says_what_entries_do_to_headers() {
    for line in ["--help", "help pack", "man"] {
        let said = printed(line).replace('\n', " ");
        assert!(
            said.contains(" match nw_dst=10.0.0.80 swap set nw_tos=4 "),
            "{line}"
        );
        let order = "may have copy, which copies nw_src over nw_dst, or swap, which swaps them, \
                     and then set, which writes fields: in this order.";
        assert!(said.contains(order), "{line}");
    }
}

/// And which fields are of version 2, how they are written, and how it is chosen.
#[test]
fn the_help_says_what_version_2_has() {
    let help = printed("--help").replace('\n', " ");
    for said in [
        "and, of version 2 alone, dl_src, dl_dst, dl_type, dl_vlan_pcp.",
        "dl_src, dl_dst  02:00:00:00:00:01  02:00:00:00:00:00/ff:ff:ff:00:00:00",
        "dl_type=ip, arp, ipv6",
        "A line 'version 2' says that headers have Ethernet's fields too",
    ] {
        assert!(help.contains(said), "{said}");
    }
    for field in Field::ALL {
        let (of_both, of_2) = help.split_once("of version 2 alone,").unwrap();
        let listed = if field.is_in(Version::V1) {
            of_both
        } else {
            of_2
        };
        assert!(listed.contains(field.name()), "{}", field.name());
    }
    assert!(printed("help gate").contains("every Ethernet"));
    let widen = printed("help widen").replace('\n', " ");
    let most = Version::V2.most_entries();
    assert!(widen.contains(&format!("or with more than {most} entries, is refused.")));
}

/// And what becomes of a packet that no entry takes.
#[test]
fn the_help_says_what_no_entry_takes() {
    for line in ["--help", "help pack", "man"] {
        let said = printed(line).replace('\n', " ").replace("\\(aq", "'");
        let rule =
            "A line 'openflow 1.3' says that a packet which no entry takes is dropped; with \
                    'openflow 1.0', or without such a line, it is lost.";
        assert!(said.contains(rule), "{line}");
        let once = "Each stands at most once, and before every edge, link and entry.";
        assert!(said.contains(once), "{line}");
    }
    let list = printed("help list").replace('\n', " ");
    for said in [
        "'lost' as TARGET, which is target 0 of document 02, asks for the packets that are lost",
        "Ports are asked about by their numbers, never by their names",
        "Under OpenFlow 1.3 nothing is lost, and 'lost' is refused",
    ] {
        assert!(list.contains(said), "{said}");
    }
    assert!(printed("--help").contains("list also takes 'lost' as TARGET."));
    assert!(printed("help run").contains("A packet that no entry takes is lost or, under OpenFlow"));
    assert!(printed("help show").contains("'openflow 1.3'"));
}

/// The word that a list takes, and no other command, is offered.
#[test]
fn lost_is_offered_for_a_list() {
    let folder = with_f("bash-lost");
    fs::write(folder.join("completions"), printed("completions bash")).unwrap();
    for command in COMMANDS {
        let offered = offered(&folder, &["mwishovala", command, "f.fabric", "los"]);
        let expected = if command == "list" {
            set(&["lost"])
        } else {
            set(&[])
        };
        assert_eq!(offered, expected, "{command}");
    }
    let fish = printed("completions fish");
    let offers: Vec<&str> = fish
        .lines()
        .filter(|line| line.ends_with("-a 'lost'"))
        .collect();
    assert_eq!(
        offers,
        ["complete -c mwishovala -n '__fish_seen_subcommand_from list' -a 'lost'"]
    );
}

/// No line is too long for a terminal.
#[test]
fn lines_are_short() {
    for line in printed("--help").lines() {
        assert!(line.chars().count() <= 80, "{line}");
    }
    for command in COMMANDS {
        for line in printed(&format!("help {command}")).lines() {
            assert!(line.chars().count() <= 80, "{line}");
        }
    }
}
