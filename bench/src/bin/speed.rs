//! `speed`: times the plain heap's calls from inside, without the protocol, by region size.

use heap::{Heap, Region, MAX_ORDER};
use std::time::{Duration, Instant};

const SIZES: [u64; 5] = [64, 256, 1024, 2048, 4096];

/// A small generator of numbers (xorshift), so that each run times the same calls.
struct Numbers(u64);

impl Numbers {
    fn below(&mut self, limit: u64) -> u64 {
        self.0 ^= self.0 << 13;
        self.0 ^= self.0 >> 7;
        self.0 ^= self.0 << 17;
        (self.0 >> 11) % limit
    }
}

/// Grants and frees for about `time`; answers how many calls were made in how many seconds.
fn run(pages: u64, time: Duration) -> (u64, f64) {
    let mut words = vec![15; pages as usize];
    let mut region = Region::EMPTY;
    let mut heap: Heap = Heap::new(&mut region, &mut words);
    heap.setup(1 << 20, pages, 3).expect("a set-up that fits");
    let mut numbers = Numbers(88_172_645_463_325_252);
    let mut out = Vec::new();
    let mut calls = 0;
    let begin = Instant::now();
    while begin.elapsed() < time {
        for _ in 0..64 {
            if out.is_empty() || numbers.below(100) < 55 {
                calls += 1;
                if let Ok(address) = heap.allocate(numbers.below(MAX_ORDER as u64)) {
                    out.push(address);
                    continue;
                }
            }
            if !out.is_empty() {
                calls += 1;
                let at = numbers.below(out.len() as u64) as usize;
                heap.free(out.swap_remove(at)).expect("a block that was granted");
            }
        }
    }
    (calls, begin.elapsed().as_secs_f64())
}

fn main() {
    println!("pages  calls a second  microseconds a call");
    for pages in SIZES {
        let (calls, seconds) = run(pages, Duration::from_secs(1));
        println!("{pages:5}  {:14.0}  {:19.3}", calls as f64 / seconds, seconds * 1e6 / calls as f64);
    }
}
