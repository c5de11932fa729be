//! Two ways to do the same, timed in turn.

use std::time::Duration;

use crate::cpu_time;

/// The CPU time that one go takes.
#[derive(Clone, Copy)]
pub struct Times {
    pub product: Duration,
    pub reference: Duration,
}

impl Times {
    pub fn ratio(&self) -> f64 {
        self.product.as_secs_f64() / self.reference.as_secs_f64()
    }
}

const ROUNDS: usize = 15;
/// A round has as many goes as fit in this.
const ROUND: Duration = Duration::from_millis(10);

/// The least time of each, over rounds that alternate.
pub fn race(mut product: impl FnMut(), mut reference: impl FnMut()) -> Times {
    let goes = (
        goes_in_a_round(&mut product),
        goes_in_a_round(&mut reference),
    );
    let mut least = Times {
        product: Duration::MAX,
        reference: Duration::MAX,
    };
    for _ in 0..ROUNDS {
        least.product = least.product.min(one_go(&mut product, goes.0));
        least.reference = least.reference.min(one_go(&mut reference, goes.1));
    }
    least
}

fn goes_in_a_round(go: &mut impl FnMut()) -> u32 {
    let once = one_go(go, 1).max(Duration::from_nanos(100));
    (ROUND.as_nanos() / once.as_nanos()).clamp(1, 100_000) as u32
}

fn one_go(go: &mut impl FnMut(), goes: u32) -> Duration {
    let start = cpu_time::now();
    for _ in 0..goes {
        go();
    }
    (cpu_time::now() - start) / goes
}

/// A time with three figures.
pub fn in_words(time: Duration) -> String {
    let micros = time.as_secs_f64() * 1e6;
    match micros {
        0.0..10.0 => format!("{micros:.2} µs"),
        10.0..1000.0 => format!("{micros:.1} µs"),
        _ => format!("{:.2} ms", micros / 1e3),
    }
}
