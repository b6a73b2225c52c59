//! `ratios`: the proved heap and the plain ones in one process. `bench/compare` runs it and writes what it finds down;
//! `bench/damage` has it audit damaged states.

mod both;
mod damage;
mod orders;
mod same;
mod times;
mod traffic;
mod works;

use both::{Heap, OneWalk, Plain, Proved};
use std::process::ExitCode;
use works::{Stage, WORKS};

const SIZES: [u64; 3] = [64, 512, 4096];
/// Calls whose answers, record and words are compared before anything is timed.
const COMPARED: u64 = 20_000;

const HELP: &str = "\
usage: ratios works                          lists the works: a name, a tab and what it is
       ratios times                          holds the heaps against each other, then times each work on all
       ratios orders                         the same of the order of a size, which needs no heap
       ratios damage STATES                  audits so many states, most of them damaged, by all heaps
       ratios drive HEAP WORK PAGES CALLS    does one work on one heap, for callgrind

HEAP is proved, list-by-list or one-walk: the last two are the plain heap with either of its audits. `times` prints a line
for each work and size, parted by tabs: WORK, PAGES, then nanoseconds of the least round on these three, and of the middle
one. `orders` prints such a line without WORK and PAGES, for the proved function, plain Rust's as a call, and plain Rust's
compiled into its caller. `damage` prints a line for each kind of damage: its name, the states with it, and how many of these were refused.";

fn times() -> Result<(), String> {
    for pages in SIZES {
        eprintln!("ratios: {pages} pages: {COMPARED} calls of every kind on every heap, compared");
        same::traffic::<Plain>(pages, COMPARED)?;
        same::traffic::<OneWalk>(pages, COMPARED)?;
        same::works::<Plain>(pages)?;
        same::works::<OneWalk>(pages)?;
    }
    for work in WORKS {
        for pages in SIZES {
            eprintln!("ratios: {work} on {pages} pages");
            let [[a, d], [b, e], [c, f]] = times::measure(work, pages);
            println!("{work}\t{pages}\t{a:.1}\t{b:.1}\t{c:.1}\t{d:.1}\t{e:.1}\t{f:.1}");
        }
    }
    Ok(())
}

fn orders() -> Result<(), String> {
    eprintln!("ratios: the order of a size");
    let [[a, d], [b, e], [c, f]] = orders::measure()?;
    println!("{a:.3}\t{b:.3}\t{c:.3}\t{d:.3}\t{e:.3}\t{f:.3}");
    Ok(())
}

/// What callgrind counts: nothing outside this function.
#[inline(never)]
fn driven<H: Heap>(stage: &mut Stage<H>, work: &str, calls: u64) -> u64 {
    stage.run(work, calls)
}

fn drive<H: Heap>(work: &str, pages: u64, calls: u64) {
    println!("{}", driven(&mut Stage::<H>::new(work, pages), work, calls));
}

fn main() -> ExitCode {
    let words: Vec<String> = std::env::args().skip(1).collect();
    let words: Vec<&str> = words.iter().map(String::as_str).collect();
    let done = match words[..] {
        ["works"] => {
            WORKS.iter().for_each(|work| println!("{work}\t{}", works::title(work)));
            Ok(())
        }
        ["times"] => times(),
        ["orders"] => orders(),
        ["damage", states] => match states.parse() {
            Ok(states) => damage::compare(states),
            Err(_) => return usage(2),
        },
        ["drive", heap, work, pages, calls] if WORKS.contains(&work) => match (pages.parse(), calls.parse()) {
            (Ok(pages), Ok(calls)) => {
                match heap {
                    Proved::NAME => drive::<Proved>(work, pages, calls),
                    Plain::NAME => drive::<Plain>(work, pages, calls),
                    OneWalk::NAME => drive::<OneWalk>(work, pages, calls),
                    _ => return usage(2),
                }
                Ok(())
            }
            _ => return usage(2),
        },
        ["-h" | "--help"] => return usage(0),
        _ => return usage(2),
    };
    match done {
        Ok(()) => ExitCode::SUCCESS,
        Err(difference) => {
            eprintln!("ratios: {difference}");
            ExitCode::from(1)
        }
    }
}

fn usage(status: u8) -> ExitCode {
    println!("{HELP}");
    ExitCode::from(status)
}
