//! The stack that a call takes, from the pages of a thread's stack that have
//! been touched after it. The library takes no other memory.

use std::fs::File;
use std::io::{Read, Seek, SeekFrom};
use std::sync::atomic::{AtomicUsize, Ordering};
use std::thread;

use crate::work::{Call, LIST, RUN, VERDICT, WIDE_LIST, WIDE_RUN, WIDE_VERDICT};
use reference::file::write;
use reference::random::{
    deep_ring, deepest_in_version_2, every_beater_meets, lost_packets, no_beater_meets, Benchmark,
};
use reference::set::Set;
use reference::{Bits, Words};

const PAGE: usize = 4096;

/// A run with the most entries, and the deepest descents: 16 hops of 63 beaters.
pub fn table() {
    println!("{:<32} {:>10} {:>10}", "stack", "product", "reference");
    row("512 entries", &RUN, &a_packet(deep_ring()));
    for descent in [deep_ring(), every_beater_meets(), no_beater_meets()] {
        row(descent.name, &VERDICT, &descent);
        row(descent.name, &LIST, &descent);
    }
    for lost in lost_packets() {
        row(lost.name, &LIST, &lost);
    }
    let deepest = deepest_in_version_2().wide;
    row("384 entries v2", &WIDE_RUN, &a_packet(deepest.clone()));
    row(deepest.name, &WIDE_VERDICT, &deepest);
    row(deepest.name, &WIDE_LIST, &deepest);
    println!("The library takes no other memory.\n");
}

/// The run of a packet from port 1.
fn a_packet<B: Bits>(benchmark: Benchmark<B>) -> Benchmark<B> {
    let mut packet = benchmark;
    packet.query.port = 1;
    packet.query = packet.query.about(Set::only(B::NONE));
    packet
}

fn row<W: Words + Sync>(name: &str, call: &Call<W>, asked: &Benchmark<W::Bits>) {
    let (file, query) = (write(&asked.fabric), &asked.query);
    let mut area = vec![0; call.lent];
    let product = stack_of(|| (call.product)(&file, &mut area, query));
    let reference = stack_of(|| (call.reference)(&file, &mut area, query));
    let (product, reference) = (in_words(product), in_words(reference));
    let name = format!("{}, {name}", call.name);
    println!("{name:<32} {product:>10} {reference:>10}");
}

fn in_words(bytes: Option<usize>) -> String {
    bytes.map_or("unknown".into(), |bytes| format!("{} KiB", bytes / 1024))
}

/// The stack below the caller's frame that a call has touched, in whole pages.
fn stack_of(call: impl FnOnce() -> u64 + Send) -> Option<usize> {
    // Each thread has more stack than the last, so that none gets an old one.
    static SIZE: AtomicUsize = AtomicUsize::new(2 << 20);
    let size = SIZE.fetch_add(64 * PAGE, Ordering::Relaxed);
    let measure = move || {
        let here = 0_u8;
        let page = &here as *const u8 as usize / PAGE;
        assert_eq!(call() % 256, 0);
        lowest_touched(page, size).map(|lowest| (page - lowest) * PAGE)
    };
    thread::scope(|scope| {
        let thread = thread::Builder::new().stack_size(size);
        thread.spawn_scoped(scope, measure).ok()?.join().ok()?
    })
}

/// The lowest page in memory, of those that a stack of this size has below
/// this page.
fn lowest_touched(page: usize, size: usize) -> Option<usize> {
    // The thread's own frames stand above the page.
    let bottom = page - (size / PAGE - 32);
    let mut map = File::open("/proc/self/pagemap").ok()?;
    map.seek(SeekFrom::Start(bottom as u64 * 8)).ok()?;
    let mut marks = vec![0; (page - bottom + 1) * 8];
    map.read_exact(&mut marks).ok()?;
    // The two upper bits of a page's mark: in memory, or swapped out.
    let touched = marks.chunks(8).position(|mark| mark[7] >> 6 != 0)?;
    Some(bottom + touched)
}
