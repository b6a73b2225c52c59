//! The proved heap held against a plain one: answers, record and words.

use crate::both::{Heap, Proved};
use crate::traffic::{step, Numbers, BOOT, START};
use crate::works::{Stage, WORKS};

/// Makes `calls` calls of every kind on both heaps; an error names the first difference.
pub fn traffic<P: Heap>(pages: u64, calls: u64) -> Result<(), String> {
    let (mut proved, mut plain) = (Proved::of(pages), P::of(pages));
    let (mut numbers, mut mirror) = (Numbers::new(), Numbers::new());
    let (mut out, mut held) = (Vec::new(), Vec::new());
    if Heap::setup(&mut proved, START, BOOT) != plain.setup(START, BOOT) {
        return Err(format!("{}, {pages} pages: set-up differs", P::NAME));
    }
    for call in 0..calls {
        let answers = (step(&mut proved, &mut numbers, &mut out), step(&mut plain, &mut mirror, &mut held));
        if answers.0 != answers.1 {
            return Err(format!("{}, {pages} pages, call {call}: {:?} and {:?}", P::NAME, answers.0, answers.1));
        }
        if proved.state() != plain.state() {
            return Err(format!("{}, {pages} pages, call {call}: record or words differ after {:?}", P::NAME, answers.0));
        }
    }
    Ok(())
}

/// Does each work a few times on both heaps.
pub fn works<P: Heap>(pages: u64) -> Result<(), String> {
    for work in WORKS {
        let (mut proved, mut plain) = (Stage::<Proved>::new(work, pages), Stage::<P>::new(work, pages));
        if proved.run(work, 20) != plain.run(work, 20) || proved.heap.state() != plain.heap.state() {
            return Err(format!("{}, {pages} pages: {work} differs", P::NAME));
        }
    }
    Ok(())
}
