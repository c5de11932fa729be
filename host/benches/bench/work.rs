//! What is measured: a call, of product and reference, with every query of a work.

use std::hint::black_box;

use crate::numbers::numbers;
use crate::timing::{race, Times};
use crate::to_host;
use mwishovala::raw;
use reference::calls::{answer_words, count, verdict, Query};
use reference::file::{read_as, to_le_words, write};
use reference::random::{
    audited, benchmarks, denies_on_fields, in_both_versions, lost_packets, Benchmark,
};
use reference::{wide, Wide, Words};

/// A call of product or reference.
pub type Ask<W> = fn(&[u8], &mut [u8], &Query<W>) -> u64;

/// A call of both, in one version.
#[derive(Clone, Copy)]
pub struct Call<W: 'static = [u32; 4]> {
    pub name: &'static str,
    pub product: Ask<W>,
    pub reference: Ask<W>,
    /// The bytes lent, enough for every work.
    pub lent: usize,
}

pub const VERDICT: Call = Call {
    name: "verdict",
    product: |file, area, query| raw::verdict(file, area, to_host(query).numbers()),
    reference: reference::verdict,
    lent: 4 * raw::VERDICT_WORDS,
};

pub const LIST: Call = Call {
    name: "list",
    product: |file, area, query| raw::list(file, area, to_host(query).numbers()),
    reference: reference::list,
    lent: 48 << 20,
};

pub const RUN: Call = Call {
    name: "run",
    product: |file, area, query| raw::run(file, area, to_host(query).numbers()),
    reference: reference::run,
    lent: 4 * raw::RUN_WORDS,
};

pub const WIDE_VERDICT: Call<[u32; 8]> = Call {
    name: "verdict",
    product: |file, area, query| raw::verdict_v2(file, area, numbers(query)),
    reference: wide::verdict,
    lent: 4 * raw::VERDICT_WORDS_V2,
};

pub const WIDE_LIST: Call<[u32; 8]> = Call {
    name: "list",
    product: |file, area, query| raw::list_v2(file, area, numbers(query)),
    reference: wide::list,
    lent: 80 << 20,
};

pub const WIDE_RUN: Call<[u32; 8]> = Call {
    name: "run",
    product: |file, area, query| raw::run_v2(file, area, numbers(query)),
    reference: wide::run,
    lent: 4 * raw::RUN_WORDS_V2,
};

/// A fabric file, what is asked of it, and by which calls.
pub struct Work<W: 'static = [u32; 4]> {
    pub name: &'static str,
    pub calls: &'static [Call<W>],
    file: Vec<u8>,
    queries: Vec<Query<W>>,
}

/// One query of each benchmark fabric.
pub fn traces() -> Vec<Work> {
    benchmarks().into_iter().map(trace).collect()
}

/// The same on 1, 2, 3 and 4 fields.
pub fn fields() -> Vec<Work> {
    denies_on_fields().map(trace).into()
}

/// Lists of the packets that are lost.
pub fn lost() -> Vec<Work> {
    let lists = lost_packets().map(|benchmark| Work {
        calls: &[LIST],
        ..trace(benchmark)
    });
    lists.into()
}

/// A verdict on each edge of a fabric.
pub fn audit() -> Work {
    let Benchmark {
        name,
        fabric,
        query,
    } = audited();
    let ports = fabric.edges.iter().map(|edge| u32::from(edge.port));
    Work {
        name,
        calls: &[VERDICT],
        file: write(&fabric),
        queries: ports.map(|port| Query { port, ..query }).collect(),
    }
}

/// The same fabrics in both versions.
pub fn versions() -> Vec<(Work, Work<[u32; 8]>)> {
    let both = in_both_versions().into_iter();
    both.map(|both| (trace(both.old), wide_trace(both.wide)))
        .collect()
}

fn trace(benchmark: Benchmark) -> Work {
    Work::new(benchmark, &[VERDICT, LIST])
}

fn wide_trace(benchmark: Benchmark<Wide>) -> Work<[u32; 8]> {
    Work::new(benchmark, &[WIDE_VERDICT, WIDE_LIST])
}

/// A work of either version, as far as the product alone is asked.
pub trait Measured {
    fn name(&self) -> &'static str;
    fn calls(&self) -> Vec<&'static str>;
    /// The units of all queries.
    fn units(&self) -> u64;
    /// Makes a call of the product with each query, so many times.
    fn repeat(&self, call: &str, times: usize) -> Result<(), String>;
}

/// All of them: version 1's, and version 2's.
pub fn works() -> impl Iterator<Item = Box<dyn Measured>> {
    let lists = traces().into_iter().chain(fields()).chain(lost());
    let old = lists.chain([audit()]).map(boxed);
    old.chain(versions().into_iter().map(|(_, wide)| boxed(wide)))
}

fn boxed<W: Words>(work: Work<W>) -> Box<dyn Measured> {
    Box::new(work)
}

/// Makes a call of the product with each query of a work, so many times.
pub fn repeat(work: &str, call: &str, times: usize) -> Result<(), String> {
    let named = works().find(|named| named.name() == work);
    let work = named.ok_or_else(|| format!("{work}: no such work"))?;
    work.repeat(call, times)
}

impl<W: Words> Measured for Work<W> {
    fn name(&self) -> &'static str {
        self.name
    }

    fn calls(&self) -> Vec<&'static str> {
        self.calls.iter().map(|call| call.name).collect()
    }

    fn units(&self) -> u64 {
        let units = |query: &Query<W>| match query.is_of_the_lost() {
            true => self.units_of_the_lost(query),
            false => self.units_of_a_verdict(query),
        };
        self.queries.iter().map(units).sum()
    }

    fn repeat(&self, call: &str, times: usize) -> Result<(), String> {
        let named = self.calls.iter().find(|named| named.name == call);
        let call = named.ok_or_else(|| format!("{call}: no such call"))?;
        let mut lent = vec![0; call.lent];
        (0..times).for_each(|_| self.product(call, &mut lent));
        Ok(())
    }
}

impl<W: Words> Work<W> {
    fn new(benchmark: Benchmark<W::Bits>, calls: &'static [Call<W>]) -> Work<W> {
        Work {
            name: benchmark.name,
            calls,
            file: write(&benchmark.fabric),
            queries: vec![benchmark.query],
        }
    }

    /// The units of a verdict. It is 'isolated', so that a list has as many.
    fn units_of_a_verdict(&self, query: &Query<W>) -> u64 {
        let mut answer = vec![0; 4 * answer_words::<W::Bits>()];
        let code = verdict(&self.file, &mut answer, query);
        assert_eq!(code % 256, 0, "{}: no answer", self.name);
        let words = to_le_words(&answer);
        assert_eq!(words[0], 0, "{}: reached", self.name);
        u64::from(words[1])
    }

    /// The units of a list that no verdict has.
    fn units_of_the_lost(&self, query: &Query<W>) -> u64 {
        let fabric = read_as::<W::Bits>(&self.file).expect("a fabric");
        let units = count(&fabric, query).expect("a list that ends");
        u64::from(units)
    }

    /// The times of the call with every query, of which both make the same.
    pub fn times(&self, call: &Call<W>) -> Times {
        let (mut lent, mut lent_too) = (vec![0; call.lent], vec![0; call.lent]);
        for query in &self.queries {
            let code = (call.product)(&self.file, &mut lent, query);
            assert_eq!(code, (call.reference)(&self.file, &mut lent_too, query));
            assert!(lent == lent_too, "{}: other bytes", self.name);
        }
        race(
            || self.product(call, &mut lent),
            || self.make(call.reference, &mut lent_too),
        )
    }

    pub fn product(&self, call: &Call<W>, lent: &mut [u8]) {
        self.make(call.product, lent);
    }

    fn make(&self, ask: Ask<W>, lent: &mut [u8]) {
        for query in &self.queries {
            assert_eq!(ask(black_box(&self.file), lent, query) % 256, 0);
        }
    }
}
