//! Fabrics as text: packing what is shown gives the same bytes, and what is
//! wrong is said with its line and column.

use mwishovala::text::{pack, show, Wrong};
use mwishovala::{accept, AnyFabric, Fabric, Header, HeaderSet, OpenFlow, Version};
use reference::file::write;
use reference::random::{any, cases, Rng};

/// Of each OpenFlow, which is shown if it isn't 1.0.
#[test]
fn packing_what_is_shown_gives_the_same_bytes() {
    cases(8_000_000, 4000, |rng| {
        let file = write(&any(rng));
        for file in [&file, &of_the_other_openflow(&file)] {
            let fabric = Fabric::read(file).unwrap();
            let shown = show(&fabric);
            assert!(pack(&shown).as_deref() == Ok(&file[..]), "{shown}");
            let is_shown = shown.lines().any(|line| line == "openflow 1.3");
            assert_eq!(is_shown, fabric.openflow == OpenFlow::V1_3);
            assert_eq!(shown.contains("openflow"), is_shown);
        }
    });
}

/// The same file but for the bit of its start that chooses.
fn of_the_other_openflow(file: &[u8]) -> Vec<u8> {
    let mut other = file.to_vec();
    other[3] ^= 1 << 3;
    other
}

/// Without the line, and with it, wherever names stand.
#[test]
fn an_openflow_is_chosen() {
    let edge = "edge 1 group 7 admits any\n";
    let file = pack(edge).unwrap();
    assert_eq!(file[3], 0x10);
    for (head, openflow) in [
        ("", OpenFlow::V1_0),
        ("openflow 1.0\n", OpenFlow::V1_0),
        ("openflow 1.3\n", OpenFlow::V1_3),
        (
            "# a remark\n\n \topenflow   1.3 # another\n",
            OpenFlow::V1_3,
        ),
        ("name 1 a\nopenflow 1.3\nswitch b 1\n", OpenFlow::V1_3),
    ] {
        let packed = pack(&format!("{head}{edge}")).unwrap();
        assert_eq!(Fabric::read(&packed).unwrap().openflow, openflow, "{head}");
        let expected = match openflow {
            OpenFlow::V1_0 => file.clone(),
            _ => of_the_other_openflow(&file),
        };
        assert_eq!(packed, expected);
    }
    assert_eq!(pack("openflow 1.3"), Ok(vec![2, 0, 1, 0x18, 0, 0, 0, 0x50]));
}

/// Anything else of it is wrong, and said at its place.
#[test]
fn wrong_openflows() {
    let edge = "edge 1 group 7 admits any";
    for (text, message) in [
        ("openflow", "1:9: 1.0 or 1.3 is missing"),
        ("\nopenflow 1.4", "2:10: '1.4' instead of 1.0 or 1.3"),
        ("openflow 1", "1:10: '1' instead of 1.0 or 1.3"),
        ("openflow 1.30", "1:10: '1.30' instead of 1.0 or 1.3"),
        ("openflow 0x1.3", "1:10: '0x1.3' instead of 1.0 or 1.3"),
        ("openflow 1.3 1.0", "1:14: '1.0' is too much"),
        (
            "openflow 1.3\n\nopenflow 1.3",
            "3:1: openflow stands here twice",
        ),
        (
            "openflow 1.0\nopenflow 1.3",
            "2:1: openflow stands here twice",
        ),
        (
            &format!("openflow 1.3\n{edge}\nopenflow 1.3"),
            "3:1: openflow stands here twice",
        ),
        (
            &format!("{edge}\n  openflow 1.3"),
            "2:3: openflow stands before every edge, link and entry",
        ),
        (
            "link 5 -> 6\nopenflow 1.0",
            "2:1: openflow stands before every edge, link and entry",
        ),
        (
            "entry 5 -> 6 priority 1 match any\nopenflow 1.0",
            "2:1: openflow stands before every edge, link and entry",
        ),
        (
            "OpenFlow 1.3",
            "1:1: 'OpenFlow': a line is version, openflow, an edge, a link, an entry, a name or \
             a switch",
        ),
    ] {
        assert_eq!(pack(text).unwrap_err().to_string(), message, "{text}");
    }
}

/// A version is chosen as an OpenFlow is, and in any order with it.
#[test]
fn a_version_is_chosen() {
    let edge = "edge 1 group 7 admits any\n";
    for (head, start) in [
        ("", [11, 0, 1, 0x10]),
        ("version 1\n", [11, 0, 1, 0x10]),
        ("version 2\n", [19, 0, 2, 0x10]),
        ("name 1 a\n version  2 # wide\n", [19, 0, 2, 0x10]),
        ("version 2\nopenflow 1.3\n", [19, 0, 2, 0x18]),
        ("openflow 1.3\nversion 2\n", [19, 0, 2, 0x18]),
    ] {
        let packed = pack(&format!("{head}{edge}")).unwrap();
        assert_eq!(packed[..4], start, "{head}");
    }
}

#[test]
fn wrong_versions() {
    let edge = "edge 1 group 7 admits any";
    for (text, message) in [
        ("version", "1:8: 1 or 2 is missing"),
        ("version 3", "1:9: '3' instead of 1 or 2"),
        ("version 2.0", "1:9: '2.0' instead of 1 or 2"),
        ("version 2 2", "1:11: '2' is too much"),
        ("version 2\nversion 2", "2:1: version stands here twice"),
        ("version 1\nversion 2", "2:1: version stands here twice"),
        (
            &format!("{edge}\nversion 2"),
            "2:1: version stands before every edge, link and entry",
        ),
        (
            &format!("{edge}\nversion 1"),
            "2:1: version stands before every edge, link and entry",
        ),
    ] {
        assert_eq!(pack(text).unwrap_err().to_string(), message, "{text}");
    }
}

#[test]
fn sets_are_read_as_they_are_written() {
    fn check<const N: usize>(rng: &mut Rng) {
        let set: HeaderSet<N> = random_set(rng);
        let text = set.to_string();
        assert_eq!(text.parse(), Ok(set), "{text}");
    }
    cases(8_100_000, 20_000, |rng| {
        check::<4>(rng);
        check::<8>(rng);
    });
}

/// So do fabrics of version 2, with sets of all fields.
#[test]
fn fabrics_of_version_2_are_read_as_they_are_written() {
    cases(8_150_000, 1000, |rng| {
        let narrow = Fabric::read(&write(&any(rng))).unwrap();
        let mut fabric: Fabric<8> = narrow.resized().unwrap();
        fabric.entries.truncate(Version::V2.most_entries());
        for edge in &mut fabric.edges {
            edge.admitted = random_set(rng);
        }
        for entry in &mut fabric.entries {
            (entry.matching, entry.rewrite) = (random_set(rng), random_set(rng));
        }
        let file = fabric.to_bytes().unwrap();
        assert_eq!(AnyFabric::read(&file), Ok(AnyFabric::V2(fabric.clone())));
        let shown = show(&fabric);
        assert!(pack(&shown).as_deref() == Ok(&file[..]), "{shown}");
    });
}

/// Masks whole, of prefixes, and of any bits; none of those that no field has.
fn random_set<const N: usize>(rng: &mut Rng) -> HeaderSet<N> {
    let word = |rng: &mut Rng| match rng.below(4) {
        0 => 0,
        1 => u32::MAX,
        2 => u32::MAX << rng.below(32),
        _ => rng.draw() as u32 & rng.draw() as u32,
    };
    let fields = HeaderSet::only(Header([0; N])).care;
    let care = fields.map(|fields| word(rng) & fields);
    let value = care.map(|care| rng.draw() as u32 & care);
    HeaderSet { care, value }
}

/// Edges and links may stand anywhere; entries are numbered as they stand.
#[test]
fn order_of_lines() {
    let sorted = "edge 1 group 1 admits any\nedge 2 group 1 admits any\nlink 5 -> 6\nlink 7 -> 8\n\
                  entry 2 -> 5 priority 1 match any\nentry 1 -> 5 priority 9 match any\n";
    let mixed =
        "entry 2 -> 5 priority 1 match any # first\nlink 7 -> 8\nedge 2 group 1 admits any\n\n\
                 \tentry 1 -> 5   priority 9 match any\nedge 1 group 1 admits any\nlink 5 -> 6";
    assert_eq!(pack(mixed), pack(sorted));
}

#[test]
fn ways_to_write_a_set() {
    let same = [
        ("nw_src=10.0.0.0/8", "nw_src=0x0a000000/0xff000000"),
        ("nw_src=10.0.0.0/8", "nw_src=10.0.0.0/255.0.0.0"),
        ("nw_dst=10.0.0.2", "nw_dst=0x0a000002/32"),
        ("nw_proto=6,tp_dst=80", "tp_dst=0x50,nw_proto=tcp"),
        ("nw_proto=17", "nw_proto=udp"),
        ("nw_proto=1", "nw_proto=icmp"),
        ("any", "nw_src=0.0.0.0/0"),
        (
            "dl_vlan=0x0001/0x00ff,nw_tos=4",
            "nw_tos=4/0xff,dl_vlan=1/0xff",
        ),
    ];
    for (one, other) in same {
        let (one, other): (HeaderSet, HeaderSet) = (one.parse().unwrap(), other.parse().unwrap());
        assert_eq!(one, other);
    }
    let words = "nw_src=1.2.3.4,nw_dst=5.6.7.8,tp_src=1,tp_dst=2,dl_vlan=3,nw_tos=4,nw_proto=5";
    let set: HeaderSet = words.parse().unwrap();
    assert_eq!(set.care, [u32::MAX; 4]);
    assert_eq!(set.value, [0x01020304, 0x05060708, 0x00010002, 0x00030405]);
    assert_eq!(set.to_string(), words);
}

#[test]
fn ways_to_write_a_set_of_version_2() {
    for (one, other) in [
        ("dl_src=02:00:00:00:00:01", "dl_src=0x020000000001"),
        ("dl_dst=0A:bC:00:00:00:ff", "dl_dst=0a:bc:00:00:00:ff"),
        (
            "dl_dst=02:00:00:00:00:00/ff:ff:ff:00:00:00",
            "dl_dst=0x020000000000/0xffffff000000",
        ),
        (
            "dl_dst=01:00:00:00:00:00/01:00:00:00:00:00",
            "dl_dst=0x10000000000/0x010000000000",
        ),
        ("any", "dl_src=00:00:00:00:00:00/00:00:00:00:00:00"),
        ("dl_type=ip", "dl_type=0x0800"),
        ("dl_type=arp", "dl_type=2054"),
        ("dl_type=ipv6", "dl_type=0x86dd"),
        ("dl_type=ip/0xff00", "dl_type=0x800/0xff00"),
        ("dl_vlan_pcp=7", "dl_vlan_pcp=0x7/0xff"),
    ] {
        let sets = [one, other].map(|text| text.parse::<HeaderSet<8>>().unwrap());
        assert_eq!(sets[0], sets[1], "{one}");
    }
    let words = "nw_src=1.2.3.4,nw_dst=5.6.7.8,tp_src=1,tp_dst=2,dl_vlan=3,nw_tos=4,nw_proto=5,\
                 dl_src=01:02:03:04:05:06,dl_dst=a1:a2:a3:a4:a5:a6,dl_type=0x0806,dl_vlan_pcp=7";
    let set: HeaderSet<8> = words.parse().unwrap();
    assert_eq!(
        set.value[4..],
        [0x0102_0304, 0x0506_a1a2, 0xa3a4_a5a6, 0x0806_0700]
    );
    assert_eq!(set, HeaderSet::only(set.lowest()));
    assert_eq!(set.to_string(), words);
    let all_masked = HeaderSet {
        care: set.care.map(|care| care & 0x5a5a_5a5a),
        value: [0; 8],
    };
    assert_eq!(all_masked.to_string().len(), 287);
    let masked =
        "dl_src=02:00:00:00:00:00/ff:ff:ff:00:00:00,dl_type=0x0800/0xff00,dl_vlan_pcp=0x04/0x04";
    assert_eq!(masked.parse::<HeaderSet<8>>().unwrap().to_string(), masked);
}

/// In version 1 Ethernet's fields are named, and not passed over.
#[test]
fn wrong_sets_of_either_version() {
    for (text, message) in [
        ("dl_src=2:0:0:0:0:1", "1:8: '2:0:0:0:0:1' is no Ethernet address, as 02:00:00:00:00:01"),
        ("dl_src=02:00:00:00:00", "1:8: '02:00:00:00:00' is no Ethernet address, as 02:00:00:00:00:01"),
        (
            "dl_dst=02:00:00:00:00:01:02",
            "1:8: '02:00:00:00:00:01:02' is no Ethernet address, as 02:00:00:00:00:01",
        ),
        ("dl_src=02:00:00:00:00:0g", "1:8: '02:00:00:00:00:0g' is no Ethernet address, as 02:00:00:00:00:01"),
        ("dl_src=10.0.0.1", "1:8: '10.0.0.1' is no Ethernet address, as 02:00:00:00:00:01"),
        (
            "dl_src=02:00:00:00:00:00/24",
            "1:26: '24' is no Ethernet address, as 02:00:00:00:00:01",
        ),
        (
            "dl_src=02:00:00:00:00:01/ff:ff:ff:00:00:00",
            "1:8: 02:00:00:00:00:01/ff:ff:ff:00:00:00 has bits outside its mask: \
             02:00:00:00:00:00/ff:ff:ff:00:00:00?",
        ),
        (
            "dl_src=0x1000000000000",
            "1:8: '0x1000000000000' is too large for dl_src: at most 281474976710655",
        ),
        ("dl_type=tcp", "1:9: 'tcp' is no dl_type"),
        ("dl_vlan_pcp=256", "1:13: '256' is too large for dl_vlan_pcp: at most 255"),
        ("nw_dst=arp", "1:8: 'arp' is no address"),
        (
            "dl_tpye=ip",
            "1:1: 'dl_tpye' is no field: these are nw_src, nw_dst, tp_src, tp_dst, dl_vlan, nw_tos, \
             nw_proto, dl_src, dl_dst, dl_type, dl_vlan_pcp",
        ),
    ] {
        let error = text.parse::<HeaderSet<8>>().unwrap_err();
        assert_eq!(error.to_string(), message, "{text}");
    }
    for field in ["dl_src", "dl_dst", "dl_type", "dl_vlan_pcp"] {
        let error = format!("tp_dst=80,{field}=0x0")
            .parse::<HeaderSet>()
            .unwrap_err();
        let message = format!("{field} is no field of version 1: version 2 has it");
        assert_eq!(error.to_string(), format!("1:11: {message}"));
        let text = format!("edge 1 group 7 admits {field}=0x0\n");
        assert_eq!(
            pack(&text).unwrap_err().to_string(),
            format!("1:23: {message}")
        );
        assert!(pack(&format!("version 2\n{text}")).is_ok());
    }
}

#[test]
fn wrong_sets() {
    let wrong = [
        ("", "1:1: '' isn't FIELD=VALUE"),
        ("tp_dst", "1:1: 'tp_dst' isn't FIELD=VALUE"),
        ("tp_dst=80,", "1:11: '' isn't FIELD=VALUE"),
        ("tp_dst=80,tp_dst=81", "1:11: tp_dst stands here twice"),
        (
            "tp_dst=65536",
            "1:8: '65536' is too large for tp_dst: at most 65535",
        ),
        (
            "tp_dst=99999999999",
            "1:8: '99999999999' is too large for tp_dst: at most 65535",
        ),
        ("tp_dst=+80", "1:8: '+80' is no tp_dst"),
        ("tp_dst=0x", "1:8: '0x' is no tp_dst"),
        ("nw_tos=1,nw_src=10.0.0", "1:17: '10.0.0' is no address"),
        (
            "nw_src=10.0.300.1",
            "1:13: '300' is too large for byte of an address: at most 255",
        ),
        (
            "tp_dst=0x100000000000000000000",
            "1:8: '0x100000000000000000000' is too large for tp_dst: at most 65535",
        ),
        (
            "nw_src=10.0.0.0/33",
            "1:17: '33' is too large for prefix length: at most 32",
        ),
        (
            "nw_src=10.0.0.1/24",
            "1:8: 10.0.0.1/24 has bits outside its mask: 10.0.0.0/24?",
        ),
        ("tp_dst=80/16", "1:11: a mask is hexadecimal, as 0xff00"),
        (
            "tp_dst=0x51/0xf0",
            "1:8: 0x51/0xf0 has bits outside its mask: 0x0050/0x00f0?",
        ),
        ("any,tp_dst=80", "1:1: 'any' isn't FIELD=VALUE"),
    ];
    for (text, message) in wrong {
        let error = text.parse::<HeaderSet>().unwrap_err();
        assert_eq!(error.to_string(), message, "{text}");
    }
}

#[test]
fn wrong_lines() {
    let wrong = [
        (
            "port 1",
            "1:1: 'port': a line is version, openflow, an edge, a link, an entry, a name or \
             a switch",
        ),
        ("\n  edge", "2:7: a port is missing"),
        ("edge 1 grup 2 admits any", "1:8: 'grup' instead of 'group'"),
        (
            "edge 1 group 70000 admits any",
            "1:14: '70000' is too large for group: at most 65535",
        ),
        (
            "edge 4096 group 1 admits any",
            "1:6: '4096' is too large for port: at most 4095",
        ),
        ("edge 1 group 1", "1:15: 'admits' is missing"),
        (
            "edge 1 group 1 admits  # any",
            "1:22: a header set, or 'any', is missing",
        ),
        ("edge 1 group 1 admits any 7", "1:27: '7' is too much"),
        ("link 1 2", "1:8: '2' instead of '->'"),
        ("link 1 -> drop", "1:11: 'drop' is no port"),
        (
            "entry 1 -> 2 priority 1 match tp_dst=x",
            "1:38: 'x' is no tp_dst",
        ),
        (
            "entry 1 -> 2 priority 1 match any get any",
            "1:35: 'get' instead of 'copy', 'swap' or 'set'",
        ),
        (
            "entry 1 -> 2 priority 1 match any none set any",
            "1:35: 'none' instead of 'copy', 'swap' or 'set'",
        ),
        (
            "entry 1 -> 2 priority 1 match any swap copy",
            "1:40: 'copy' instead of 'set'",
        ),
        (
            "entry 1 -> 2 priority 1 match any set any swap",
            "1:43: 'swap' is too much",
        ),
        (
            "entry 1 -> 2 priority 1 match any set",
            "1:38: a header set, or 'any', is missing",
        ),
        (
            "entry 1 -> 2 priority 1 match any copy set",
            "1:43: a header set, or 'any', is missing",
        ),
        ("# é\nedge é group", "2:6: 'é' is no port"),
    ];
    for (text, message) in wrong {
        assert_eq!(pack(text).unwrap_err().to_string(), message, "{text}");
    }
}

/// What a text may have at most, and one more.
#[test]
fn long_texts() {
    let line = |bytes: usize| format!("\n#{}", "é".repeat((bytes - 1) / 2));
    assert!(pack(&line(4095)).is_ok());
    assert_eq!(
        pack(&line(4097)).unwrap_err().to_string(),
        "2:1: a line of 4097 bytes: it has at most 4096"
    );
    let word = |bytes: usize| format!("edge 1 group {}7 admits any", "0".repeat(bytes - 1));
    assert!(pack(&word(512)).is_ok());
    assert_eq!(
        pack(&word(513)).unwrap_err().to_string(),
        "1:14: a word of 513 bytes: it has at most 512"
    );
    assert!(pack(&"#\n".repeat(65_536)).is_ok());
    assert_eq!(
        pack(&"#\n".repeat(65_537)).unwrap_err().to_string(),
        "65537:1: the text has more than 65536 lines"
    );
    let records = "link 5 -> 6\n".repeat(65_534);
    assert_eq!(
        pack(&records).unwrap_err().to_string(),
        "257:1: the file has 65536 words, and a start counts at most 65535"
    );
}

/// Nine megabytes in one line, of words, of fields and of one word: read once,
/// not once for each word.
#[test]
fn one_line_of_nine_megabytes() {
    const BYTES: usize = 9 << 20;
    for piece in ["a ", "tp_dst=80,", "9", "=", "\u{1b}[2J", "/", "."] {
        let line = format!("edge {}", piece.repeat(BYTES / piece.len()));
        let wrong = pack(&line).unwrap_err();
        assert_eq!((wrong.line, wrong.column), (1, 1));
        // One that is told on the command's line has no limit but its length.
        let wrong = line["edge ".len()..].parse::<HeaderSet>().unwrap_err();
        assert!(wrong.message.chars().count() < 300, "{piece}");
    }
}

/// Nothing of a text gets to a terminal but what can be printed.
#[test]
fn what_is_said_again() {
    let said = [
        ("\u{1b}[2Jedge", "1:1: '\\u{1b}[2Jedge': a line is"),
        ("edge \u{0}1", "1:6: '\\01' is no port"),
        ("edge 1\u{7f}", "1:6: '1\\u{7f}' is no port"),
        ("edge \u{202e}1", "1:6: '\\u{202e}1' is no port"),
        ("edge \\u{0}1", "1:6: '\\\\u{0}1' is no port"),
        ("edge '1'", "1:6: ''1'' is no port"),
        ("edge é", "1:6: 'é' is no port"),
        (
            "\u{feff}edge 1 group 1 admits any",
            "1:1: a byte order mark (BOM) stands before the line",
        ),
        ("edge \u{feff}1", "1:6: '\\u{feff}1' is no port"),
    ];
    for (text, message) in said {
        let wrong = pack(text).unwrap_err().to_string();
        assert!(wrong.starts_with(message), "{wrong}");
    }
    let long = format!("edge {}", "x".repeat(500));
    let expected = format!("1:6: '{}…' is no port", "x".repeat(60));
    assert_eq!(pack(&long).unwrap_err().to_string(), expected);
}

/// What the proved library refuses is said at its line.
#[test]
fn refused_lines() {
    let edges = "edge 1 group 1 admits any\nedge 2 group 1 admits any\n";
    let of = |lines: &str| pack(&format!("{edges}{lines}")).unwrap_err().to_string();
    assert_eq!(
        of("edge 1 group 2 admits any"),
        "3:6: question 4 at word 10: edge 1 follows edge 1: edge ports have to rise"
    );
    assert_eq!(
        of("link 12 -> 40\n\n link 5 -> 40\n"),
        "3:6: question 6 at word 20: link 12→40 ends where an earlier link ends"
    );
    assert_eq!(
        of("entry 1 -> drop priority 1 match any\nentry 3 -> 3 priority 1 match any"),
        "4:7: question 4 at word 37: entry 1 sends out at port 3, where it takes in"
    );
    assert_eq!(
        of("link 0 -> 4"),
        "3:6: question 4 at word 19: link 0→4: ports are 1 to 4095"
    );
    let entries = "entry 9 -> drop priority 1 match any\n".repeat(65);
    assert_eq!(
        of(&entries),
        "67:1: question 7 at word 1171: entry 64 is one more than 64 entries at in-port 9"
    );
    let many: String = (0..600)
        .map(|number| format!("entry {} -> drop priority 1 match any\n", 10 + number / 64))
        .collect();
    assert_eq!(
        of(&many),
        "515:1: question 1: the file has 43280 bytes, more than 40200"
    );
}

/// Texts that were shown, with a few characters changed.
#[test]
fn damaged_texts() {
    const CHARACTERS: [char; 16] = [
        ' ', '\n', '#', '-', '>', '=', ',', '/', '.', 'x', 'é', '\u{0}', '0', '9', '1', 'e',
    ];
    cases(8_200_000, 3000, |rng| {
        let mut file = write(&reference::random::small(rng).fabric);
        if rng.once_in(2) {
            file = of_the_other_openflow(&file);
        }
        let mut text: Vec<char> = show(&Fabric::read(&file).unwrap()).chars().collect();
        for _ in 0..rng.between(1, 4) {
            let place = rng.below(text.len());
            match rng.below(3) {
                0 => drop(text.remove(place)),
                1 => text[place] = rng.one_of(CHARACTERS),
                _ => text.insert(place, rng.one_of(CHARACTERS)),
            }
        }
        let text: String = text.into_iter().collect();
        match pack(&text) {
            Ok(file) => assert!(accept(&file).is_ok()),
            Err(wrong) => check_wrong(&text, &wrong),
        }
    });
}

/// Texts of words that stand in fabrics, and of others, in any order.
#[test]
fn texts_at_random() {
    const WORDS: [&str; 35] = [
        "version",
        "dl_type=arp",
        "dl_src=02:00:00:00:00:00/ff:ff:ff:00:00:00",
        "openflow",
        "1.0",
        "1.3",
        "name",
        "switch",
        "leaf-1",
        "edge",
        "link",
        "entry",
        "1",
        "2",
        "4095",
        "4096",
        "->",
        "drop",
        "group",
        "admits",
        "priority",
        "match",
        "copy",
        "swap",
        "set",
        "any",
        "tp_dst=80",
        "nw_src=10.0.0.0/8",
        "nw_src=1.2.3.4/",
        "=,/.",
        "99999999999999999999",
        "\u{1b}]0;",
        "\u{feff}",
        "\u{202e}é",
        "#",
    ];
    cases(8_300_000, 20_000, |rng| {
        let mut text = String::new();
        for _ in 0..rng.between(1, 30) {
            text += rng.one_of(WORDS);
            text += rng.one_of([" ", " ", " ", "\n", "", "\t"]);
        }
        match pack(&text) {
            Ok(file) => {
                let shown = match AnyFabric::read(&file).unwrap() {
                    AnyFabric::V1(fabric) => show(&fabric),
                    AnyFabric::V2(fabric) => show(&fabric),
                };
                assert_eq!(pack(&shown).as_deref(), Ok(&file[..]));
            }
            Err(wrong) => check_wrong(&text, &wrong),
        }
    });
}

/// It stands in the text, and can be printed.
fn check_wrong(text: &str, wrong: &Wrong) {
    let line = text.lines().nth(wrong.line - 1).expect("the line is there");
    assert!((1..=line.chars().count() + 1).contains(&wrong.column));
    assert!(!wrong
        .message
        .contains(|c: char| c.is_control() || c == '\u{feff}'));
}
