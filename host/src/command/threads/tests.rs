//! Threads that end well, and threads that panic.

use std::sync::mpsc::channel;
use std::thread;
use std::time::Duration;

use super::super::Failure;
use super::clock::said;
use super::{call, each, gather};

fn is_unanswered<T>(result: Result<T, Failure>) -> bool {
    matches!(result, Err(Failure::Error(message)) if message.contains("no answer"))
}

#[test]
fn each_item_has_its_result() {
    let items: Vec<usize> = (0..100).collect();
    for jobs in [0, 1, 3, 200] {
        let results = each(&items, jobs, "items", |item| item * 2).ok();
        assert_eq!(results, Some(items.iter().map(|item| item * 2).collect()));
    }
    assert_eq!(each(&[(); 0], 2, "items", |()| 1).ok(), Some(vec![]));
    assert_eq!(call(|| 7).ok(), Some(7));
}

/// Whichever item it is, and however many threads are left.
#[test]
fn a_panic_takes_no_item_away_unseen() {
    let items: Vec<usize> = (0..6).collect();
    for bad in 0..6 {
        for jobs in [1, 2, 6] {
            let results = each(&items, jobs, "items", |&item| assert_ne!(item, bad));
            assert!(is_unanswered(results), "{bad} of {jobs}");
        }
    }
    assert!(is_unanswered(call(|| -> u32 { panic!("on purpose") })));
}

/// The first result comes only after the time was shown twice.
#[test]
fn the_time_is_shown_while_it_works() {
    let (sender, receiver) = channel();
    let (ticked, ticks) = channel();
    thread::spawn(move || {
        let _ = (ticks.recv(), ticks.recv());
        let _ = sender.send((0, "done"));
    });
    let mut shown = Vec::new();
    let gathered = gather(&receiver, 1, Duration::from_millis(1), |done| {
        shown.push(said(Some("ports"), done, 1, 5));
        let _ = ticked.send(());
    });
    assert_eq!(gathered, [Some("done")]);
    assert!(shown.len() >= 2);
    assert_eq!(shown[0], "working for 5 s: 0 of 1 ports");
    assert_eq!(said(None, 0, 1, 5), "working for 5 s");
}
