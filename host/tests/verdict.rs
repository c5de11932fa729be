//! The verdict of the static library against the reference.

mod common;

use common::{agreed, checks, transfers, Seen, VERDICT};
use mwishovala::{verdict, Verdict};
use reference::examples::{fabric_f, wild_query};
use reference::file::write;
use reference::random::{any, audited, benchmarks, cases, denies_on_fields, query, Rng};
use reference::set::from_words;
use reference::ways::{Packet, LEFT, TIED};
use reference::{Fabric, Query};

/// Mostly room for the answer, also none.
fn some_length(rng: &mut Rng) -> usize {
    match rng.below(6) {
        0 => rng.below(96),
        _ => rng.between(96, 130),
    }
}

/// What is shown arrives by its own entries, some of which copy or swap; its run
/// may be tied.
#[test]
fn random_fabrics() {
    let [isolated, reached, tied, moved]: [Seen; 4] = Default::default();
    cases(3_000_000, 15_000, |rng| {
        let fabric = any(rng);
        let file = write(&fabric);
        for _ in 0..4 {
            let asked = query(rng, &fabric, 20_000);
            let Ok(words) = agreed(VERDICT, &file, some_length(rng), &asked) else {
                continue;
            };
            match words[0] {
                0 => isolated.add(1),
                _ => {
                    let fate = arrives_by_its_entries(&fabric, &asked, &words);
                    reached.add(1);
                    tied.add((fate == TIED).into());
                    let way = &words[8..][..words[3] as usize];
                    moved.add(transfers(&fabric, way).into());
                }
            }
        }
    });
    for seen in [isolated, reached, tied, moved] {
        seen.at_least(1000);
    }
}

/// Follows the packet along the entries shown, and gives its run's fate.
fn arrives_by_its_entries(fabric: &Fabric, asked: &Query, words: &[u32]) -> u32 {
    let packet = Packet {
        fabric,
        start: words[2] as u16,
        header: from_words([words[4], words[5], words[6], words[7]]),
        limit: asked.limit,
    };
    let entries = &words[8..][..words[3] as usize];
    let way = packet.follow(entries).expect("each entry may take it");
    assert!(way.arrives(asked));
    let run = packet.run();
    assert!(entries.starts_with(&run.entries));
    match run.fate {
        Some(LEFT) => assert_eq!(run, way),
        fate => assert_eq!(fate, Some(TIED)),
    }
    run.fate.unwrap()
}

#[test]
fn damaged_files() {
    checks::damaged_files(VERDICT, 3_300_000, some_length);
}

#[test]
fn budgets_around_the_count() {
    let count = |file: &_, asked: &_| agreed(VERDICT, file, 96, asked).ok().map(|words| words[1]);
    let is_enough = |file: &_, asked: &_| agreed(VERDICT, file, 96, asked).is_ok();
    let seeds = (3_200_000, 8000);
    let counted = checks::budgets_around_the_count(VERDICT, seeds, 50_000, count, is_enough);
    assert!(counted == 1 || counted > 2000);
}

#[test]
fn benchmark_fabrics() {
    let with_fields = benchmarks().into_iter().chain(denies_on_fields());
    for benchmark in with_fields.chain([audited()]) {
        let (file, query) = (write(&benchmark.fabric), benchmark.query);
        let words = agreed(VERDICT, &file, 96, &query).unwrap();
        for budget in [words[1] - 1, words[1]] {
            let _ = agreed(VERDICT, &file, 96, &Query { budget, ..query });
        }
        for edge in &benchmark.fabric.edges {
            let port = u32::from(edge.port);
            let _ = agreed(VERDICT, &file, 96, &Query { port, ..query });
        }
    }
}

#[test]
fn the_least_stack_is_enough() {
    assert_eq!(checks::with_little_stack(VERDICT, 96), 24 * 256);
}

#[test]
fn calls_at_the_same_time() {
    checks::calls_at_the_same_time(VERDICT, (3_400_000, 400), 96);
}

#[test]
fn every_length_of_file_and_area() {
    checks::every_length_of_file_and_area(VERDICT, &wild_query(2, 16, 2));
}

#[test]
fn every_bit_matters_alike() {
    checks::every_bit_matters_alike(VERDICT, 96, &wild_query(2, 16, 9));
}

#[test]
fn numbers_out_of_range() {
    checks::numbers_out_of_range(VERDICT, wild_query(2, 16, 2), 8);
    let of_0 = agreed(VERDICT, &fabric_f(), 96, &wild_query(0, 16, 2));
    assert_eq!(of_0, Err((8, 0)));
    checks::values_outside_the_care(VERDICT, wild_query(2, 16, 2));
}

/// 12 before 13.
#[test]
fn questions_8_to_13_in_turn() {
    checks::questions_in_turn(
        VERDICT,
        wild_query(2, 16, 2),
        96,
        &[
            (8, |asked, _| asked.port = 3),
            (9, |asked, _| asked.limit = 17),
            (10, |asked, _| asked.value[1] = 1),
            (12, |_, lent| *lent = 95),
            (13, |asked, _| asked.budget = 1),
        ],
    );
}

/// E3 to E6 of document 01.
#[test]
fn checked_examples() {
    let of =
        |port, limit, budget| agreed(VERDICT, &fabric_f(), 96, &wild_query(port, limit, budget));
    let mut e3 = vec![1, 2, 1, 1, 0, 0x0a000002, 2, 0, 1];
    e3.resize(24, 0);
    assert_eq!(of(2, 1, 2), Ok(e3));
    assert_eq!(of(2, 1, 1), Err((13, 0)));
    assert_eq!(of(1, 1, 0), Ok(vec![0; 24]));
    assert_eq!(of(2, 17, 2), Err((9, 0)));
    assert!(of(2, 16, 2).is_ok());
}

/// An all-wild allow under 24 denies of two bits each takes 16 million units;
/// real fabrics have taken ten times as many.
#[test]
fn the_usual_budget() {
    let mut said = String::from("edge 1 group 7 admits any\nedge 2 group 7 admits any\n");
    for field in ["nw_src", "nw_dst"] {
        for pair in 0..12 {
            let bits = 3_u32 << (2 * pair);
            said += &format!("entry 1 -> drop priority 2 match {field}=0x{bits:x}/0x{bits:x}\n");
        }
    }
    said += "entry 1 -> 2 priority 1 match any\n";
    let file = mwishovala::text::pack(&said).unwrap();
    let asked = mwishovala::Query::all_wild(2);
    let Ok(Verdict::Isolated { units, .. }) = verdict(&file, &asked) else {
        panic!("it is isolated");
    };
    assert_eq!(units, 1 << 24);
}
