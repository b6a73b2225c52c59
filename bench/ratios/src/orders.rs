//! The order of a size: the proved function and plain Rust's, which counts leading zeros too.

use crate::times::in_turns;
use crate::traffic::Numbers;
use std::hint::black_box;

/// Sizes that are held against each other before anything is timed, beside the edges.
const COMPARED: usize = 1_000_000;
/// Sizes that are timed, over and over: a power of two.
const TIMED: usize = 1024;

fn plain(size: u64) -> u64 {
    heap::get_order(size).into()
}

/// 0, each power of two, its neighbours and the greatest size.
fn edges() -> impl Iterator<Item = u64> {
    let powers = (0..64).map(|digit| 1u64 << digit);
    powers.flat_map(|power| [power - 1, power, power + 1]).chain([u64::MAX])
}

/// Sizes of 1 to 64 binary digits, about as many of each.
fn mixed() -> impl Iterator<Item = u64> {
    let mut numbers = Numbers::new();
    std::iter::repeat_with(move || {
        let power = 1 << numbers.below(64);
        power + numbers.below(power)
    })
}

fn same() -> Result<(), String> {
    for size in edges().chain(mixed().take(COMPARED)) {
        let (proved, plain) = (tingmudra::get_order(size), plain(size));
        if proved != plain {
            return Err(format!("the order of {size}: {proved} and {plain}"));
        }
    }
    Ok(())
}

/// Asks for so many orders. Each answer chooses the next size, so that one ends before the next begins: where calls overlap,
/// the same instructions took 1.4 to 2.3 nanoseconds by where they lay (docs/changes/CR-01.md).
fn chain(sizes: &[u64; TIMED], times: u64, order: impl Fn(u64) -> u64) -> u64 {
    (0..times).fold(0, |sum, i| sum + order(sizes[(sum ^ i) as usize % TIMED]))
}

/// Nanoseconds for one size, the least and the middle round: proved, plain as a call, plain compiled into the loop. First
/// answers are compared; an error names the size at which they differ.
pub fn measure() -> Result<[[f64; 2]; 3], String> {
    same()?;
    let mut sizes = [0; TIMED];
    sizes.iter_mut().zip(mixed()).for_each(|(size, number)| *size = number);
    // called as the archive's function is: by its address, of which the compiler knows nothing more
    let called = black_box(plain as fn(u64) -> u64);
    Ok(in_turns(
        |times| chain(&sizes, times, tingmudra::get_order),
        |times| chain(&sizes, times, called),
        |times| chain(&sizes, times, plain),
    ))
}
