//! Times in short rounds that take turns. The least round counts: what else the machine does only adds to a round.

use crate::both::{Heap, OneWalk, Plain, Proved};
use crate::works::Stage;
use std::time::{Duration, Instant};

const ROUND: Duration = Duration::from_micros(300);
const ROUNDS: usize = 1000;

/// What is timed, given how often to do it, and the nanoseconds that once took in each round so far.
struct Timed<F> {
    run: F,
    /// How often it fits a round.
    fit: u64,
    rounds: Vec<f64>,
}

impl<F: FnMut(u64) -> u64> Timed<F> {
    fn new(run: F) -> Timed<F> {
        let mut timed = Timed { run, fit: 1, rounds: Vec::with_capacity(ROUNDS) };
        while timed.took() < ROUND {
            timed.fit *= 2;
        }
        timed
    }

    fn took(&mut self) -> Duration {
        let begin = Instant::now();
        std::hint::black_box((self.run)(self.fit));
        begin.elapsed()
    }

    fn round(&mut self) {
        let took = self.took();
        self.rounds.push(took.as_nanos() as f64 / self.fit as f64);
    }

    /// The least round and the middle one.
    fn found(mut self) -> [f64; 2] {
        self.rounds.sort_by(f64::total_cmp);
        [self.rounds[0], self.rounds[ROUNDS / 2]]
    }
}

/// Nanoseconds of each of three, done so often as they are told: the least and the middle round.
pub fn in_turns(
    first: impl FnMut(u64) -> u64,
    second: impl FnMut(u64) -> u64,
    third: impl FnMut(u64) -> u64,
) -> [[f64; 2]; 3] {
    let (mut first, mut second, mut third) = (Timed::new(first), Timed::new(second), Timed::new(third));
    for _ in 0..ROUNDS {
        first.round();
        second.round();
        third.round();
    }
    [first.found(), second.found(), third.found()]
}

fn work_on<'a, H: Heap + 'a>(work: &'a str, pages: u64) -> impl FnMut(u64) -> u64 + 'a {
    let mut stage = Stage::<H>::new(work, pages);
    move |times| stage.run(work, times)
}

/// Of a work on the proved heap, the plain one that audits list by list, and the plain one whose audit is one walk.
pub fn measure(work: &str, pages: u64) -> [[f64; 2]; 3] {
    in_turns(work_on::<Proved>(work, pages), work_on::<Plain>(work, pages), work_on::<OneWalk>(work, pages))
}
