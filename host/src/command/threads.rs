//! Calls made in threads with stack enough, while a terminal shows the time.

mod clock;
#[cfg(test)]
mod tests;

use std::io;
use std::sync::atomic::{AtomicUsize, Ordering};
use std::sync::mpsc::{self, Receiver, RecvTimeoutError, Sender};
use std::thread::{self, Builder, Scope, ScopedJoinHandle};
use std::time::Duration;

use super::Failure;
use crate::limits::STACK_BYTES;
use clock::Clock;

/// What a call needs, and as much again for what stands around it. The usual
/// stack of a thread may be less, or what a shell leaves to the first one.
const THREAD_STACK: usize = 2 * STACK_BYTES;

/// How often the time is shown.
const TICK: Duration = Duration::from_secs(1);

/// A result, and the place of its item.
type Placed<T> = (usize, T);

/// Makes a call in a thread of its own.
pub(super) fn call<T: Send>(call: impl FnOnce() -> T + Send) -> Result<T, Failure> {
    let (sender, receiver) = mpsc::channel();
    let made = in_threads(&receiver, 1, Clock::new(None), |scope| {
        vec![spawn(scope, move || drop(sender.send((0, call()))))]
    })?;
    made.into_iter().next().ok_or_else(unanswered)
}

/// One result for each item, in their order, or a failure: a thread that panics
/// takes a result with it, and that is seen.
pub(super) fn each<I: Sync, T: Send>(
    items: &[I],
    jobs: usize,
    what: &'static str,
    work: impl Fn(&I) -> T + Sync,
) -> Result<Vec<T>, Failure> {
    let (sender, receiver) = mpsc::channel();
    let next = AtomicUsize::new(0);
    let take = |sender: Sender<Placed<T>>| loop {
        let place = next.fetch_add(1, Ordering::Relaxed);
        match items.get(place).map(&work) {
            Some(result) => drop(sender.send((place, result))),
            None => break,
        }
    };
    let take = &take;
    in_threads(&receiver, items.len(), Clock::new(Some(what)), |scope| {
        let workers = (0..jobs.clamp(1, items.len().max(1))).map(|_| sender.clone());
        let workers = workers.map(|sender| spawn(scope, move || take(sender)));
        let workers = workers.collect();
        drop(sender);
        workers
    })
}

/// Begins threads that send so many results, and waits for these.
fn in_threads<'env, T>(
    results: &Receiver<Placed<T>>,
    count: usize,
    mut clock: Clock,
    begin: impl for<'scope> FnOnce(&'scope Scope<'scope, 'env>) -> Vec<Begun<'scope>>,
) -> Result<Vec<T>, Failure> {
    let gathered = thread::scope(|scope| {
        let threads = begin(scope);
        let gathered = gather(results, count, TICK, |done| clock.show(done, count));
        clock.clear();
        // Whether one panicked, or couldn't begin, is seen by what is missing.
        threads
            .into_iter()
            .flatten()
            .for_each(|thread| drop(thread.join()));
        gathered
    });
    gathered
        .into_iter()
        .collect::<Option<_>>()
        .ok_or_else(unanswered)
}

type Begun<'scope> = io::Result<ScopedJoinHandle<'scope, ()>>;

fn spawn<'scope>(
    scope: &'scope Scope<'scope, '_>,
    work: impl FnOnce() + Send + 'scope,
) -> Begun<'scope> {
    Builder::new()
        .stack_size(THREAD_STACK)
        .spawn_scoped(scope, work)
}

/// What is sent until no thread is left to send; in between, at each tick, how
/// many results are there.
fn gather<T>(
    results: &Receiver<Placed<T>>,
    count: usize,
    tick: Duration,
    mut at_tick: impl FnMut(usize),
) -> Vec<Option<T>> {
    let mut gathered: Vec<Option<T>> = (0..count).map(|_| None).collect();
    loop {
        match results.recv_timeout(tick) {
            Ok((place, result)) => {
                if let Some(free) = gathered.get_mut(place) {
                    *free = Some(result);
                }
            }
            Err(RecvTimeoutError::Timeout) => at_tick(gathered.iter().flatten().count()),
            Err(RecvTimeoutError::Disconnected) => return gathered,
        }
    }
}

fn unanswered() -> Failure {
    Failure::Error("a thread came to no answer, so there is none".into())
}
