//! Hosts in other languages: `callers/` has one in C, one in C++ and one in
//! Python, which make all calls of both versions through the header and the
//! archive. What they get of version 1 is what the reference computes, and of
//! version 2 what this host gets, whose declarations are others.

#[path = "common/command.rs"]
mod command;
mod common;

use std::ffi::OsString;
use std::fs;
use std::path::{Path, PathBuf};
use std::process::Command;

use command::folder;
use common::{fresh, reference_alone, to_host, Call, LIST, RUN, VERDICT};
use mwishovala::{limits, raw, QUERY_NUMBERS_V2};
use reference::examples::{
    fabric_f, leak_by_choice, lost_after_two_hops, run_query, under_1_3, wild_query,
};
use reference::file::write;
use reference::random::{any, cases, damage, deep_ring};
use reference::Query;

/// A program that makes a call, and what is told it before the call's name.
struct Caller {
    program: OsString,
    first: Vec<OsString>,
    folder: PathBuf,
}

/// Where this package's sources are, and where the archive is.
fn sources() -> PathBuf {
    Path::new(env!("CARGO_MANIFEST_DIR")).join("tests/callers")
}

fn archive() -> PathBuf {
    Path::new(env!("MWISHOVALA_LIB_DIR")).join("libmwishovala.a")
}

/// Runs a tool that these tests can't do without, and gives what it prints.
fn tool(program: impl Into<OsString>, arguments: &[OsString]) -> String {
    let program = program.into();
    let name = program.to_string_lossy().into_owned();
    let output = match Command::new(&program).args(arguments).output() {
        Ok(output) => output,
        Err(error) => panic!("these tests need {name}, which can't be run: {error}"),
    };
    let (out, err) = (output.stdout, String::from_utf8_lossy(&output.stderr));
    assert!(output.status.success(), "{name} {arguments:?}: {err}");
    String::from_utf8(out).expect("it prints text")
}

impl Caller {
    /// Compiled with every warning an error.
    fn compiled(name: &str, compiler: &str, standard: &str, source: &str) -> Caller {
        let folder = folder(name);
        let program = folder.join("caller");
        let include = Path::new(env!("CARGO_MANIFEST_DIR")).join("include");
        let mut arguments: Vec<OsString> = [standard, "-O2", "-Wall", "-Wextra", "-pedantic"]
            .map(OsString::from)
            .into();
        arguments.extend(["-Werror", "-pthread", "-I"].map(OsString::from));
        arguments.extend([include.into(), sources().join(source).into()]);
        arguments.extend([archive().into(), "-o".into(), program.clone().into()]);
        tool(compiler, &arguments);
        Caller {
            program: program.into(),
            first: vec![],
            folder,
        }
    }

    fn c(name: &str) -> Caller {
        Caller::compiled(name, "gcc", "-std=c11", "caller.c")
    }

    fn cpp(name: &str) -> Caller {
        Caller::compiled(name, "g++", "-std=c++17", "caller.cc")
    }

    /// With a shared object of all that is in the archive.
    fn python(name: &str) -> Caller {
        let folder = folder(name);
        let shared = folder.join("libmwishovala.so");
        let mut arguments = vec!["-shared".into(), "-o".into(), shared.clone().into()];
        arguments.push("-Wl,--whole-archive,--fatal-warnings,-z,text,-z,defs".into());
        arguments.extend([archive().into(), "-Wl,--no-whole-archive".into()]);
        tool("gcc", &arguments);
        Caller {
            program: "python3".into(),
            first: vec![sources().join("caller.py").into(), shared.into()],
            folder,
        }
    }

    fn said(&self, further: Vec<OsString>) -> String {
        let arguments = [self.first.clone(), further].concat();
        tool(&self.program, &arguments)
    }

    /// Makes a call, and compares code and area with the reference's.
    fn check(&self, call: Call, file: &[u8], lent: usize, asked: &Query) {
        let expected = reference_alone(call, file, lent, asked);
        self.compare(call.name, file, &to_host(asked).numbers(), expected);
    }

    /// The same of version 2, with what this host gets.
    fn check_v2(&self, call: CallV2, file: &[u8], lent: usize, asked: &mwishovala::Query<8>) {
        let mut area = fresh(lent);
        let code = (call.1)(file, &mut area, asked.numbers());
        self.compare(call.0, file, &asked.numbers(), (code, area));
    }

    /// What is said of this call is that code and area.
    fn compare(&self, call: &str, file: &[u8], numbers: &[u32], (code, area): (u64, Vec<u8>)) {
        let path = self.folder.join("fabric");
        fs::write(&path, file).unwrap();
        let mut told = vec![call.into(), path.into(), area.len().to_string().into()];
        let numbers = numbers.iter();
        told.extend(numbers.map(|number| OsString::from(number.to_string())));
        let hex: String = area.iter().map(|byte| format!("{byte:02x}")).collect();
        let expected = format!("{} at {}\n{hex}\n", code % 256, code / 256);
        assert_eq!(self.said(told), expected, "{call}");
    }

    fn check_all(&self, first_seed: u64) {
        self.check_empty_slices();
        self.check_deepest();
        self.check_equals();
        self.check_misses();
        self.check_version_2();
        cases(first_seed, 20, |rng| {
            let fabric = any(rng);
            let mut file = write(&fabric);
            if rng.once_in(3) {
                file = damage(&file, rng);
            }
            let lent = rng.one_of([95, 96, 97, 4000]);
            for call in [VERDICT, LIST, RUN] {
                let asked = (call.query)(rng, &fabric, 2000);
                self.check(call, &file, lent, &asked);
            }
        });
    }

    /// A length of 0 with NULL: the file is too short; an area too, unless
    /// there is nothing to write.
    fn check_empty_slices(&self) {
        let (wild, start) = (wild_query(2, 16, 9), run_query(1, 16, [0; 4]));
        for (call, asked) in [(VERDICT, &wild), (LIST, &wild), (RUN, &start)] {
            for file in [&[], &fabric_f()[..]] {
                for lent in [0, 4000] {
                    self.check(call, file, lent, asked);
                }
            }
        }
        let nothing = wild_query(1, 16, 9);
        assert_eq!(reference_alone(LIST, &fabric_f(), 0, &nothing).0, 0);
        self.check(LIST, &fabric_f(), 0, &nothing);
    }

    /// Two entries of one priority: a leak under one choice, a run that is tied.
    fn check_equals(&self) {
        let (file, wild) = (write(&leak_by_choice()), wild_query(2, 16, 9));
        self.check(VERDICT, &file, 96, &wild);
        self.check(LIST, &file, 96, &wild);
        self.check(RUN, &file, 96, &run_query(1, 16, [0, 0, 80, 0]));
    }

    /// Packets that no entry takes: under OpenFlow 1.0 lost, and listed by target 0,
    /// under 1.3 dropped.
    fn check_misses(&self) {
        let (old, new) = (lost_after_two_hops(), under_1_3(lost_after_two_hops()));
        let lost = wild_query(0, 16, 99);
        for fabric in [old, new] {
            let file = write(&fabric);
            self.check(LIST, &file, 2000, &lost);
            self.check(VERDICT, &file, 96, &lost);
            self.check(RUN, &file, 96, &run_query(1, 16, [0, 0, 80, 0]));
        }
    }

    /// Each of the asked words counts, so none is handed over in another's place.
    fn check_version_2(&self) {
        let text = "version 2\nedge 1 group 7 admits any\nedge 2 group 9 admits any\n\
                    entry 1 -> 2 priority 10 match any\n";
        let file = mwishovala::text::pack(text).unwrap();
        let header: [u32; 8] = std::array::from_fn(|word| (word as u32 + 1) << 8);
        let found = mwishovala::Query::packet(1, mwishovala::Header(header));
        let packet = mwishovala::Query {
            port: 2,
            budget: 99,
            ..found
        };
        for (call, asked) in CALLS_V2.into_iter().zip([packet, packet, found]) {
            self.check_v2(call, &file, 4000, &asked);
            self.check_v2(call, &file, 111, &asked);
            self.check_v2(call, &[], 0, &asked);
            self.check_v2(call, &fabric_f(), 4000, &asked);
            for word in 0..8 {
                let mut other = asked;
                other.asked.value[word] ^= 1 << 31;
                self.check_v2(call, &file, 4000, &other);
            }
        }
    }

    /// The most stack.
    fn check_deepest(&self) {
        let ring = deep_ring();
        let file = write(&ring.fabric);
        self.check(VERDICT, &file, 96, &ring.query);
        self.check(LIST, &file, 1 << 15, &ring.query);
    }
}

/// A call of version 2, by its name and as this host makes it.
type CallV2 = (
    &'static str,
    fn(&[u8], &mut [u8], [u32; QUERY_NUMBERS_V2]) -> u64,
);

const CALLS_V2: [CallV2; 3] = [
    ("verdict_v2", raw::verdict_v2),
    ("list_v2", raw::list_v2),
    ("run_v2", raw::run_v2),
];

#[test]
fn a_host_in_c() {
    Caller::c("caller-c").check_all(12_400_000);
}

#[test]
fn a_host_in_cpp() {
    Caller::cpp("caller-cpp").check_all(12_410_000);
}

#[test]
fn a_host_in_python() {
    Caller::python("caller-python").check_all(12_420_000);
}

/// The header's numbers are the library's, and each host sees which it is.
#[test]
fn what_header_and_archive_say_of_themselves() {
    let answers = [raw::VERDICT_WORDS, raw::VERDICT_WORDS_V2].map(|words| 4 * words);
    let ([v1, v2], stack) = (answers, limits::STACK_BYTES);
    let expected = format!("{v1} {v2} {stack}\n{}\n", raw::library());
    assert_eq!(Caller::c("caller-says").said(vec![]), expected);
    let python = Caller::python("caller-python-says");
    assert_eq!(python.said(vec![]), format!("{}\n", raw::library()));
    let header = Path::new(env!("CARGO_MANIFEST_DIR")).join("include/mwishovala.h");
    let header = fs::read_to_string(header).unwrap();
    for call in raw::CALLS {
        let declared = format!("\nuint64_t {}(", call.symbol);
        assert!(header.contains(&declared), "{}", call.symbol);
    }
}
