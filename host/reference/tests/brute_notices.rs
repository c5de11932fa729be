//! The naive checks find what is wrong in a list, a verdict or a run.

mod common;

use common::{answer, on_cases, Seen};
use reference::brute::{arrivals, check_list, check_run, check_verdict};
use reference::calls::{answer_words, list, run, verdict, Query};
use reference::fabric::Fabric;
use reference::file::write;
use reference::query::LENT_BYTES;
use reference::random::source::Rng;
use reference::random::Small;
use reference::ways::Packet;
use reference::{Bits, Header, Wide};

/// These words with a bit of one of them flipped.
fn flipped<B: Bits>(words: &[u32], word: usize, rng: &mut Rng<B>) -> Vec<u32> {
    let mut flipped = words.to_vec();
    flipped[word] ^= 1 << rng.below(32);
    flipped
}

#[test]
fn wrong_lists() {
    check_wrong_lists::<Header>((600_000, 400));
    check_wrong_lists::<Wide>((1_600_000, 400));
}

fn check_wrong_lists<B: Bits>(seeds: (u64, u64)) {
    let noticed = Seen::default();
    on_cases(seeds, |made: &Small<B>, query, ends, rng| {
        let arrivals = arrivals(ends, query);
        let is_wrong = |words: &[u32]| check_list(&made.bits, &arrivals, words).is_err();
        let listed = answer(list, &write(&made.fabric), LENT_BYTES, query);
        let words = listed.unwrap_or_default();
        let Some(first) = words.first() else {
            return;
        };
        let length = 1 + (first >> 12 & 0xffff) as usize + 2 * B::WORDS;
        assert!(is_wrong(&words[length..]), "a find is gone");
        let twice = [&words, &words[..length]].concat();
        assert!(is_wrong(&twice), "a find is there twice");
        for word in 0..length {
            let changed = flipped(&words, word, rng);
            assert!(is_wrong(&changed), "word {word} has changed");
        }
        noticed.count(true);
    });
    noticed.at_least(150);
}

#[test]
fn wrong_verdicts() {
    check_wrong_verdicts::<Header>((610_000, 400));
    check_wrong_verdicts::<Wide>((1_610_000, 400));
}

/// The units aren't checked, and another header may be as right.
fn check_wrong_verdicts<B: Bits>(seeds: (u64, u64)) {
    let (noticed, by_another) = (Seen::default(), Seen::default());
    on_cases(seeds, |made: &Small<B>, query, ends, rng| {
        let arrivals = arrivals(ends, query);
        let room = 4 * answer_words::<B>();
        let Ok(words) = answer(verdict, &write(&made.fabric), room, query) else {
            return;
        };
        let entries = 4 + B::WORDS..answer_words::<B>();
        let flips = [0, 2, 3].into_iter().chain(entries);
        let mut changed: Vec<_> = flips.map(|word| flipped(&words, word, rng)).collect();
        changed.extend(by_other_entries(&made.fabric, &words));
        for changed in changed {
            let is_wrong = check_verdict(&made.fabric, &arrivals, query, &changed).is_err();
            let is_right = arrives_so(&made.fabric, query, &changed);
            assert_eq!(is_wrong, !is_right, "{changed:x?} for {words:x?}");
            noticed.count(is_wrong);
            by_another.count(is_right);
        }
    });
    noticed.at_least(5000);
    by_another.at_least(5);
}

/// A verdict's words with another entry in the place of one on the way.
fn by_other_entries<B: Bits>(fabric: &Fabric<B>, words: &[u32]) -> Vec<Vec<u32>> {
    let mut changed = Vec::new();
    for place in (4 + B::WORDS..).take(words[3] as usize) {
        let others = (0..fabric.entries.len() as u32).filter(|&other| other != words[place]);
        for other in others {
            let mut words = words.to_vec();
            words[place] = other;
            changed.push(words);
        }
    }
    changed
}

/// Whether the packet of these words arrives by their entries: another of
/// equals may be as right.
fn arrives_so<B: Bits>(fabric: &Fabric<B>, query: &Query<B::Words>, words: &[u32]) -> bool {
    let (header, entries) = words[4..].split_at(B::WORDS);
    let entries = entries.split_at_checked(words[3] as usize);
    let (Some((used, unused)), Ok(start)) = (entries, u16::try_from(words[2])) else {
        return false;
    };
    let packet = Packet {
        fabric,
        start,
        header: B::from_slice(header),
        limit: query.limit,
    };
    let arrives = packet.follow(used).is_some_and(|way| way.arrives(query));
    words[0] == 1 && arrives && unused.iter().all(|&word| word == 0)
}

#[test]
fn wrong_runs() {
    check_wrong_runs::<Header>((620_000, 800));
    check_wrong_runs::<Wide>((1_620_000, 800));
}

/// The words of one choice's end aren't the run's, if there is another.
fn check_wrong_runs<B: Bits>(seeds: (u64, u64)) {
    let tied = Seen::default();
    on_cases(seeds, |made: &Small<B>, _, ends, rng| {
        let Some((packet, ends)) = rng.pick(ends) else {
            return;
        };
        let asked: Query<B::Words> =
            Query::packet(packet.start.into(), packet.limit, packet.header);
        let words = answer(run, &write(&made.fabric), 112, &asked).unwrap();
        assert!(check_run(packet, ends, &words).is_ok());
        for word in 0..answer_words::<B>() {
            let changed = flipped(&words, word, rng);
            assert!(check_run(packet, ends, &changed).is_err(), "word {word}");
        }
        for end in ends {
            let is_right = check_run(packet, ends, &end.words().unwrap()).is_ok();
            assert_eq!(is_right, ends.len() == 1);
        }
        tied.count(ends.len() > 1);
    });
    tied.at_least(50);
}
