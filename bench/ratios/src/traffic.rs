//! The same calls for any heap: a region that is about half in use, and calls of every kind.

use crate::both::{Answer, Heap};

pub const START: u64 = 1 << 20;
pub const BOOT: u64 = 3;

/// A small generator of numbers (xorshift), so that each run makes the same calls.
pub struct Numbers(u64);

impl Numbers {
    pub fn new() -> Numbers {
        Numbers(88_172_645_463_325_252)
    }

    pub fn below(&mut self, limit: u64) -> u64 {
        self.0 ^= self.0 << 13;
        self.0 ^= self.0 >> 7;
        self.0 ^= self.0 << 17;
        (self.0 >> 11) % limit
    }

    pub fn one_of<T: Copy, const N: usize>(&mut self, choices: [T; N]) -> T {
        choices[self.below(N as u64) as usize]
    }
}

/// One call of any kind; blocks out are kept in `out`.
pub fn step<H: Heap>(heap: &mut H, numbers: &mut Numbers, out: &mut Vec<u64>) -> Answer {
    let any = |numbers: &mut Numbers, out: &Vec<u64>| match numbers.below(8) {
        0 => START + numbers.below(1 << 25),
        1 => START + numbers.below(5000) * 4096,
        _ if out.is_empty() => numbers.below(u64::MAX),
        _ => out[numbers.below(out.len() as u64) as usize],
    };
    let kind = numbers.below(20);
    let answer = match kind {
        0..=4 => heap.allocate(numbers.below(7)),
        5..=6 => heap.allocate_file(),
        7 => heap.allocate_slab(numbers.below(70_000)),
        8..=12 => heap.free(any(numbers, out)),
        13..=14 => heap.get(any(numbers, out)),
        15..=16 => heap.put(any(numbers, out)),
        17 => heap.lookup(any(numbers, out)),
        18 => heap.report().map(|[blocks, free]| [blocks.iter().sum(), free.iter().sum()]),
        _ => heap.audit(),
    };
    if let (0..=7, Ok([address, _])) = (kind, answer) {
        out.push(address);
    }
    answer
}

/// A region with about half of its managed pages out, singly and in blocks, in many places; one page is a file page and
/// is answered. The orders below 2 have free blocks.
pub fn used<H: Heap>(pages: u64) -> (H, u64) {
    let mut heap = H::of(pages);
    heap.setup(START, BOOT).expect("a set-up that fits");
    let mut numbers = Numbers::new();
    let mut out = Vec::new();
    while let Ok([address, _]) = heap.allocate(numbers.below(3)) {
        out.push(address);
    }
    for _ in 0..out.len() / 2 {
        let at = numbers.below(out.len() as u64) as usize;
        heap.free(out.swap_remove(at)).expect("a block that was granted");
    }
    let [file, _] = heap.allocate_file().expect("a free page");
    (heap, file)
}
