//! What is timed: each work is a call or a pair of calls that leaves the region as it was.

use crate::both::Heap;
use crate::traffic::{used, BOOT, START};
use std::hint::black_box;

pub const WORKS: [&str; 7] = ["pair", "file", "lookup", "report", "audit", "fresh", "setup"];

/// What a work is called in a table.
pub fn title(work: &str) -> &'static str {
    match work {
        "pair" => "allocate and free",
        "file" => "get and put",
        "lookup" => "lookup",
        "report" => "report",
        "audit" => "audit alone",
        "fresh" => "audit alone, nothing granted",
        _ => "set-up",
    }
}

/// A heap and the pages that a work uses.
pub struct Stage<H> {
    pub heap: H,
    file: u64,
    block: u64,
}

impl<H: Heap> Stage<H> {
    /// A region in use, or for `fresh` and `setup` one just set up.
    pub fn new(work: &str, pages: u64) -> Stage<H> {
        let (mut heap, file) = used::<H>(pages);
        let [block, _] = heap.allocate(1).expect("a free block");
        if work == "fresh" || work == "setup" {
            heap.setup(START, BOOT).expect("a set-up that fits");
        }
        Stage { heap, file, block }
    }

    /// Does a work so many times; the sum of its answers.
    #[inline(never)]
    pub fn run(&mut self, work: &str, times: u64) -> u64 {
        match work {
            "pair" => self.repeat(times, |stage, i| {
                let [address, _] = stage.heap.allocate(i % 2).expect("a free block");
                stage.heap.free(black_box(address)).expect("what was granted");
                address
            }),
            "file" => self.repeat(times, |stage, _| {
                let [count, _] = stage.heap.get(black_box(stage.file)).expect("a file page");
                stage.heap.put(black_box(stage.file)).expect("a file page");
                count
            }),
            "lookup" => self.repeat(times, |stage, i| {
                let [size, align] = stage.heap.lookup(black_box(stage.block + i % 4096)).expect("a block");
                size + align
            }),
            "report" => self.repeat(times, |stage, i| {
                let counts = stage.heap.report().expect("a sound region");
                counts[i as usize % 2][i as usize % 6]
            }),
            "audit" | "fresh" => self.repeat(times, |stage, _| {
                stage.heap.audit().expect("a sound region");
                0
            }),
            _ => self.repeat(times, |stage, _| {
                stage.heap.setup(black_box(START), black_box(BOOT)).expect("a set-up that fits");
                0
            }),
        }
    }

    fn repeat(&mut self, times: u64, call: impl Fn(&mut Stage<H>, u64) -> u64) -> u64 {
        (0..times).fold(0, |sum, i| sum.wrapping_add(call(self, i)))
    }
}
