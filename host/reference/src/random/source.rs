//! Random numbers, and seeds to begin with.

use std::marker::PhantomData;

use crate::bits::{Bits, Wide};
use crate::set::Header;

/// splitmix64. What is made from it has headers of so many bits.
#[derive(Clone, Debug)]
pub struct Rng<B> {
    state: u64,
    makes: PhantomData<B>,
}

impl<B: Bits> Rng<B> {
    pub fn new(seed: u64) -> Rng<B> {
        Rng {
            state: seed,
            makes: PhantomData,
        }
    }

    pub fn draw(&mut self) -> u64 {
        self.state = self.state.wrapping_add(0x9e37_79b9_7f4a_7c15);
        let mut z = self.state;
        z = (z ^ (z >> 30)).wrapping_mul(0xbf58_476d_1ce4_e5b9);
        z = (z ^ (z >> 27)).wrapping_mul(0x94d0_49bb_1331_11eb);
        z ^ (z >> 31)
    }

    /// 0 to `end` - 1; 0 if there is none.
    pub fn below(&mut self, end: usize) -> usize {
        (self.draw() % (end.max(1) as u64)) as usize
    }

    /// `low` to `high`, both included.
    pub fn between(&mut self, low: usize, high: usize) -> usize {
        low + self.below(high.saturating_sub(low) + 1)
    }

    /// True once in `times`.
    pub fn once_in(&mut self, times: usize) -> bool {
        self.below(times) == 0
    }

    /// Any header.
    pub fn bits(&mut self) -> B {
        let mut words = B::Words::default();
        for two in words.as_mut().chunks_mut(2) {
            let drawn = self.draw();
            two.copy_from_slice(&[(drawn >> 32) as u32, drawn as u32]);
        }
        B::from_words(words) & !B::ZERO_BITS
    }

    /// One of these, which aren't none.
    pub fn one_of<T: Copy, const N: usize>(&mut self, from: [T; N]) -> T {
        from[self.below(N)]
    }

    /// One of these, if there is one.
    pub fn pick<'a, T>(&mut self, from: &'a [T]) -> Option<&'a T> {
        from.get(self.below(from.len()))
    }

    pub fn shuffle<T>(&mut self, items: &mut [T]) {
        for last in (1..items.len()).rev() {
            items.swap(last, self.below(last + 1));
        }
    }
}

/// Runs a case of version 1 for each of `number` seeds from `first` on. If one
/// fails, its seed is printed; with that in the environment as `SEED` it is run
/// alone.
pub fn cases(first: u64, number: u64, case: impl Fn(&mut Rng<Header>)) {
    cases_of(first, number, case);
}

/// The same of version 2.
pub fn wide_cases(first: u64, number: u64, case: impl Fn(&mut Rng<Wide>)) {
    cases_of(first, number, case);
}

/// The same of either.
pub fn cases_of<B: Bits>(first: u64, number: u64, case: impl Fn(&mut Rng<B>)) {
    struct Announce(u64);
    impl Drop for Announce {
        fn drop(&mut self) {
            if std::thread::panicking() {
                eprintln!("failed with SEED={}", self.0);
            }
        }
    }
    let asked = std::env::var("SEED")
        .ok()
        .and_then(|seed| seed.parse().ok());
    let (first, number) = asked.map_or((first, number), |seed| (seed, 1));
    for seed in (0..number).map(|step| first.wrapping_add(step)) {
        let _announce = Announce(seed);
        case(&mut Rng::new(seed));
    }
}
