//! The table itself.

use super::{Command, Kind, Operand, Setting, Usual};
use crate::limits::MOST_HOPS;
use crate::query::USUAL_BUDGET;

const FABRIC: Operand = Operand {
    name: "FABRIC",
    what: "a fabric file",
    kind: Kind::File,
    optional: false,
};

const TARGET: Operand = Operand {
    name: "TARGET",
    what: "a target port",
    kind: Kind::Other,
    optional: false,
};

const ASKED: Setting = Setting {
    name: "--asked",
    value: Some("SET"),
    about: "only packets that have these headers when they get out",
    usual: Usual::Word("any"),
};

const HOPS: Setting = Setting {
    name: "--hops",
    value: Some("N"),
    about: "the most hops, 1 to 16",
    usual: Usual::Number(MOST_HOPS),
};

const BUDGET: Setting = Setting {
    name: "--budget",
    value: Some("N"),
    about: "the most units of work",
    usual: Usual::Number(USUAL_BUDGET),
};

const JOBS: Setting = Setting {
    name: "--jobs",
    value: Some("N"),
    about: "how many targets at a time, 1 to 64",
    usual: Usual::Word("all cores"),
};

const JSON: Setting = Setting {
    name: "--json",
    value: None,
    about: "the answer, or why there is none, for programs",
    usual: Usual::Nothing,
};

const DONE: &[(u8, &str)] = &[(0, "done")];
const WRITTEN: &[(u8, &str)] = &[(0, "the whole file is written")];

pub(super) const ALL: &[Command] = &[
    Command {
        name: "verdict",
        operands: &[FABRIC, TARGET],
        settings: &[ASKED, HOPS, BUDGET, JSON],
        summary: "is TARGET isolated? if not, a packet that gets there and its way",
        about: &[
            "Says 'isolated', or 'reached' with a foreign packet that gets out at TARGET and \
             its way hop by hop. 'isolated:' begins the answer only if every header and 16 \
             hops were asked about; else it begins 'isolated, but only'.",
            "Where other entries of the same priority might take the packet too, the way shown \
             is one choice, and those entries stand beside the one that takes it. Where an entry \
             copies or swaps addresses, what the header becomes stands below it.",
            "For a mount use gate, which can't be asked less.",
        ],
        statuses: &[
            (
                0,
                "isolated, for the headers and the hops that were asked about",
            ),
            (1, "reached: a foreign packet gets out at TARGET"),
        ],
    },
    Command {
        name: "gate",
        operands: &[FABRIC, TARGET],
        settings: &[BUDGET],
        summary: "for a mount: status 0 only if TARGET is isolated, for all headers",
        about: &[
            "Asks for the verdict on TARGET, for every header and 16 hops, and takes no \
             option that would ask for less. If TARGET is isolated it prints one line, \
             'isolated: port TARGET, every IPv4 header, 16 hops, sha256 DIGEST', with the \
             digest of the file that it read. Of a fabric of version 2 it has 'every Ethernet \
             and IPv4 header' there.",
            "Status 0 is for that line alone: 'mwishovala gate --help' prints this with status 2.",
        ],
        statuses: &[
            (0, "isolated: no foreign packet gets out at TARGET"),
            (1, "reached: a foreign packet gets out at TARGET"),
        ],
    },
    Command {
        name: "list",
        operands: &[
            FABRIC,
            Operand {
                what: "a target port or 'lost'",
                kind: Kind::Target,
                ..TARGET
            },
        ],
        settings: &[
            Setting {
                about: "only packets that have these headers when they get out, or are lost",
                ..ASKED
            },
            HOPS,
            BUDGET,
            JSON,
        ],
        summary: "every header that gets to TARGET, or is lost, as sets",
        about: &[
            "Each line is a find: the edge port where its packets start, whose packets they \
             are, the entries that take them to TARGET in travelling order, and their headers \
             at the start.",
            "Behind an entry stand others of the same priority that might take some of these \
             packets too. By their choices a header may get to TARGET by several ways: each \
             way stands in one find.",
            "'lost' as TARGET, which is target 0 of document 02, asks for the packets that are \
             lost: they come to an in-port where no entry takes them, after no hop or more, and \
             fewer than the limit. Each find then says where they are lost, and what their \
             headers are then, which --asked is about. Under OpenFlow 1.3 nothing is lost, and \
             'lost' is refused: what no entry takes is dropped, as its run says.",
            "Ports are asked about by their numbers, never by their names: 'lost' is what is \
             lost, also where a port is named so.",
        ],
        statuses: &[(0, "the list is whole; it says nothing of isolation")],
    },
    Command {
        name: "run",
        operands: &[
            FABRIC,
            Operand {
                name: "START",
                what: "a start port",
                kind: Kind::Other,
                optional: false,
            },
            Operand {
                name: "HEADER",
                what: "a header",
                kind: Kind::Other,
                optional: false,
            },
        ],
        settings: &[HOPS, JSON],
        summary: "where a packet goes that starts at START",
        about: &[
            "Says where the packet ends, with which header, and its way hop by hop. It stops as \
             'tied' where two or more entries of the highest priority match, even if they do \
             the same, and names them: any of them may take it.",
            "A packet that no entry takes is lost or, under OpenFlow 1.3, dropped.",
        ],
        statuses: &[(0, "the packet's fate is told, whichever it is")],
    },
    Command {
        name: "audit",
        operands: &[FABRIC],
        settings: &[ASKED, HOPS, BUDGET, JOBS, JSON],
        summary: "the verdict on every edge port, and who reaches whom",
        about: &[
            "Asks for the verdict on each edge port as the target, and lists who sends there.",
            "Below stand the ties that matter: two entries of the same in-port and priority, \
             and a header that both match, but no entry of a higher priority there. They don't \
             change the status: a verdict is under every choice.",
        ],
        statuses: &[
            (
                0,
                "all edge ports, one or more, are isolated for what was asked about",
            ),
            (1, "a foreign packet gets out at one of them"),
        ],
    },
    Command {
        name: "show",
        operands: &[FABRIC],
        settings: &[],
        summary: "the fabric as text",
        about: &[
            "pack makes the same file of it again. A fabric of version 2 begins with the line \
             'version 2', one of OpenFlow 1.3 with the line 'openflow 1.3'. Ties that matter, as \
             in an audit, stand at the end as remarks.",
        ],
        statuses: DONE,
    },
    Command {
        name: "pack",
        operands: &[
            Operand {
                name: "TEXT",
                what: "a text",
                kind: Kind::File,
                optional: false,
            },
            Operand {
                what: "a fabric file to write",
                ..FABRIC
            },
        ],
        settings: &[],
        summary: "text to a fabric file",
        about: &["FABRIC is written whole or not at all; - is standard output."],
        statuses: WRITTEN,
    },
    Command {
        name: "widen",
        operands: &[
            FABRIC,
            Operand {
                name: "OUT",
                what: "a fabric file to write",
                ..FABRIC
            },
        ],
        settings: &[],
        summary: "FABRIC of version 1 as OUT of version 2",
        about: &[
            "OUT has Ethernet's fields too: wild in every set, and not rewritten. All else is as \
             in FABRIC, and so are the answers; names are kept beside OUT as they are beside \
             FABRIC. A fabric of version 2, or with more than 400 entries, is refused.",
            "OUT is written whole or not at all; - is standard output.",
        ],
        statuses: WRITTEN,
    },
    Command {
        name: "dot",
        operands: &[
            FABRIC,
            Operand {
                optional: true,
                ..TARGET
            },
        ],
        settings: &[ASKED, HOPS, BUDGET],
        summary: "the fabric as a Graphviz picture, with a verdict on TARGET",
        about: &[
            "With TARGET, a foreign packet's way is marked in red, with the others of the same \
             priority that might take it too, or TARGET in green if it is isolated. A fabric \
             file names no switches: the boxes are guessed from the ports that entries join.",
        ],
        statuses: &[(0, "drawn, whatever the verdict")],
    },
    Command {
        name: "help",
        operands: &[Operand {
            name: "COMMAND",
            what: "a command",
            kind: Kind::Command,
            optional: true,
        }],
        settings: &[],
        summary: "this text, or all about COMMAND",
        about: &["Also 'mwishovala --help' and 'mwishovala COMMAND --help', with nothing else."],
        statuses: DONE,
    },
    Command {
        name: "man",
        operands: &[],
        settings: &[],
        summary: "the manual page, for man(1)",
        about: &["mwishovala man > mwishovala.1; man ./mwishovala.1"],
        statuses: DONE,
    },
    Command {
        name: "completions",
        operands: &[Operand {
            name: "SHELL",
            what: "a shell",
            kind: Kind::Shell,
            optional: false,
        }],
        settings: &[],
        summary: "completions for SHELL: bash or fish",
        about: &["source <(mwishovala completions bash)"],
        statuses: DONE,
    },
];
