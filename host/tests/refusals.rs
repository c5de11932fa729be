//! Refusals in words.

mod common;

use mwishovala::{accept, run, Header, Question, Refusal};
use reference::examples::{edge, entry, fabric, fabric_f, file_of, link, record};
use reference::file::{to_le_bytes, write};
use reference::Set;

fn said(file: &[u8]) -> String {
    accept(file).unwrap_err().to_string()
}

fn said_of(records: &[u32]) -> String {
    said(&file_of(records))
}

#[test]
fn questions_1_to_3_in_words() {
    assert_eq!(said(&[]), "question 1: the file has 0 bytes, fewer than 8");
    assert_eq!(
        said(&[0; 9]),
        "question 1: the file has 9 bytes, not a multiple of 4"
    );
    assert_eq!(
        said(&[0; 40_204]),
        "question 1: the file has 40204 bytes, more than 40200"
    );
    let start = |word: u32| said(&to_le_bytes(&[word, 0x50000000]));
    assert_eq!(
        start(0x40010002),
        "question 2: word 0 is 0x40010002, which is no start"
    );
    assert_eq!(
        start(0x10030002),
        "question 2: the start is of version 3, not 1 or 2"
    );
    assert_eq!(
        start(0x10010003),
        "question 2: the start counts 3 words, the file has 2"
    );
    assert_eq!(
        said_of(&[0x30001002]),
        "question 3 at word 2: the file stops without an end"
    );
    assert_eq!(
        said_of(&[0x70001002]),
        "question 3 at word 1: 0x70001002 is of kind 7: edges, links, entries and the end are 2 to 5"
    );
    assert_eq!(
        said_of(&[0x30001002, 0x20000001]),
        "question 3 at word 2: an edge after a link: edges, links, entries, end is the order"
    );
    assert_eq!(
        said_of(&record(0x40000001)[..5]),
        "question 3 at word 1: an entry has 18 words, but only 5 are left"
    );
    assert_eq!(
        said_of(&[0x50000000, 0, 0]),
        "question 3 at word 1: an end, but the file goes on for 2 more words"
    );
    assert_eq!(
        said_of(&[0x31001002, 0x50000000]),
        "question 3 at word 1: a link with bits set that have to be zero"
    );
}

#[test]
fn questions_4_to_7_in_words() {
    let edges = |ports: &[u16]| {
        let edges: Vec<_> = ports.iter().map(|&port| edge(1, port)).collect();
        said(&write(&fabric(&edges, &[], &[])))
    };
    assert_eq!(
        edges(&[0]),
        "question 4 at word 1: edge 0: ports are 1 to 4095"
    );
    assert_eq!(
        edges(&[3, 2]),
        "question 4 at word 10: edge 2 follows edge 3: edge ports have to rise"
    );
    let sixty_five: Vec<u16> = (1..=65).collect();
    assert_eq!(
        edges(&sixty_five),
        "question 7 at word 577: edge 65 is one more than 64 edges"
    );
    let two = [edge(1, 1), edge(1, 2)];
    let links = |links: &[_]| said(&write(&fabric(&two, links, &[])));
    assert_eq!(
        links(&[link(3, 30), link(5, 40), link(12, 40)]),
        "question 6 at word 21: link 12→40 ends where an earlier link ends"
    );
    assert_eq!(
        links(&[link(2, 9)]),
        "question 6 at word 19: link 2→9 starts at an edge port"
    );
    assert_eq!(
        links(&[link(9, 1)]),
        "question 6 at word 19: link 9→1 ends at an edge port"
    );
    assert_eq!(
        links(&[link(9, 9)]),
        "question 4 at word 19: link 9→9 ends where it starts"
    );
    assert_eq!(
        links(&[link(9, 0)]),
        "question 4 at word 19: link 9→0: ports are 1 to 4095"
    );
    assert_eq!(
        links(&[link(9, 8), link(9, 7)]),
        "question 4 at word 20: link 9→7 follows link 9→8: from-ports have to rise"
    );
    let mut stray = entry(1, 3, 0);
    stray.matching = Set { care: 0, value: 2 };
    assert_eq!(
        said(&write(&fabric(&[], &[], &[stray]))),
        "question 5 at word 1: the match of entry 0 has value bits 0x00000002 in word 3 \
         that it doesn't care for"
    );
    let entries = |entries: &[_]| said(&write(&fabric(&[], &[], entries)));
    assert_eq!(
        entries(&[entry(1, 3, 3)]),
        "question 4 at word 1: entry 0 sends out at port 3, where it takes in"
    );
    assert_eq!(
        entries(&[entry(1, 0, 3)]),
        "question 4 at word 1: entry 0 has in-port 0: in-ports are 1 to 4095"
    );
    assert_eq!(
        entries(&[entry(1, 3, 0); 65]),
        "question 7 at word 1153: entry 64 is one more than 64 entries at in-port 3"
    );
}

#[test]
fn questions_of_a_run_in_words() {
    let of = |start, hops| run(&fabric_f(), start, Header::<4>::default(), hops).unwrap_err();
    assert_eq!(
        of(3, 1).to_string(),
        "question 11: the start, port 3, is no edge port"
    );
    assert_eq!(
        of(1, 0).to_string(),
        "question 9: a hop limit of 0: it is 1 to 16"
    );
}

#[test]
fn a_refusal_is_an_error() {
    let refusal: Box<dyn std::error::Error> = accept(&[]).unwrap_err().into();
    let refusal = refusal.downcast::<Refusal>().unwrap();
    assert_eq!((refusal.question, refusal.place), (Question::Length, 0));
}

mod trace {
    use super::*;
    use common::to_host;
    use mwishovala::{list, list_growing, verdict, Query};
    use reference::examples::wild_query;

    #[test]
    fn questions_8_to_13_in_words() {
        let ask = |query: &Query| verdict(&fabric_f(), query).unwrap_err().to_string();
        let asked = to_host(&wild_query(2, 16, 2));
        let of = |change: fn(&mut Query)| {
            let mut asked = asked;
            change(&mut asked);
            ask(&asked)
        };
        assert_eq!(
            of(|q| q.port = 70_000),
            "question 8: the target, port 70000, is no edge port"
        );
        assert_eq!(
            of(|q| q.hops = 17),
            "question 9: a hop limit of 17: it is 1 to 16"
        );
        assert_eq!(
            of(|q| q.asked.value[0] = 5),
            "question 10: the asked set has value bits 0x00000005 in word 0 that it doesn't care for"
        );
        assert_eq!(
            of(|q| q.budget = 1),
            "question 13: a budget of 1 units isn't enough"
        );
        let room = list(&fabric_f(), &mut [0; 79], &asked).unwrap_err();
        assert_eq!(
            room.to_string(),
            "question 12: the answer doesn't fit in the 79 bytes lent"
        );
        let mut area = Vec::new();
        assert_eq!(
            list_growing(&fabric_f(), &mut area, 80, &asked)
                .unwrap()
                .count(),
            2
        );
        assert!(list_growing(&fabric_f(), &mut Vec::new(), 79, &asked).is_err());
    }
}
