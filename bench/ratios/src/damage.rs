//! Whether the proved audit and both plain ones give the same answers on states most of which are damaged.
//!
//! The states are the same in each run: sound regions, used in many ways (`image`), each changed by up to three damages
//! (`kinds`), which know what they leave of a sound state.

mod blocks;
mod image;
mod kinds;
mod record;
mod words;

use crate::both::{Answer, Heap, OneWalk, Plain, Proved};
use crate::traffic::Numbers;
use image::{renew, Image};
use kinds::{Leaves, KINDS};

/// States that are made of one sound region.
const OF_ONE: u64 = 40;

/// States with each kind of damage, and how many of these were refused; after the kinds, all states.
type Tally = Vec<[u64; 2]>;

/// Audits so many states and tells what was in them; an error names the first that is not answered as it should be.
pub fn compare(states: u64) -> Result<(), String> {
    let mut tally = vec![[0; 2]; KINDS.len() + 1];
    let many = (u128::from(states) * 10 / 21) as u64;
    for (pages, count) in [(64, many), (100, many), (4096, states - 2 * many)] {
        eprintln!("ratios: {pages} pages: {count} states, each audited by every heap");
        audit_all(pages, count, &mut tally)?;
    }
    for ((name, ..), [states, refused]) in KINDS.iter().zip(&tally) {
        println!("{name:<32}{states:>10}{refused:>10}");
    }
    let [states, damaged] = tally[KINDS.len()];
    println!("{states} states, {damaged} damaged: the proved audit and both plain ones agree");
    Ok(())
}

fn audit_all(pages: u64, count: u64, tally: &mut Tally) -> Result<(), String> {
    let mut numbers = Numbers::new();
    let (mut base, mut state, mut kinds) = (Image::of(pages), Image::of(pages), Vec::new());
    let (mut proved, mut plain, mut one_walk) = (Proved::of(pages), Plain::of(pages), OneWalk::of(pages));
    for number in 0..count {
        if number % OF_ONE == 0 {
            renew(&mut base, &mut numbers);
        }
        state.load(base.state());
        let left = damage(&mut state, &mut numbers, &mut kinds);
        let said = [audited(&mut proved, &state), audited(&mut plain, &state), audited(&mut one_walk, &state)];
        if said[1..] != [said[0]; 2] || !is_right(left, said[0]) {
            return Err(format!("{pages} pages, state {number}, {}", difference(&kinds, left, said)));
        }
        for &kind in kinds.iter().chain(&[KINDS.len()]) {
            tally[kind][0] += 1;
            tally[kind][1] += u64::from(said[0].is_err());
        }
    }
    Ok(())
}

/// Damages a sound state by up to three kinds, which are then in `kinds`; what they leave.
fn damage(state: &mut Image, numbers: &mut Numbers, kinds: &mut Vec<usize>) -> Leaves {
    let count = match numbers.below(20) {
        0 => 0,
        1..=9 => 1,
        10..=15 => 2,
        _ => 3,
    };
    let mut left = Leaves::Sound;
    kinds.clear();
    while kinds.len() < count {
        let kind = numbers.below(KINDS.len() as u64) as usize;
        let (_, leaves, change) = KINDS[kind];
        if !kinds.contains(&kind) && change.made(state, numbers) {
            kinds.push(kind);
            // a second damage may mend the first
            left = if matches!(left, Leaves::Sound) { leaves } else { Leaves::Either };
        }
    }
    left
}

fn audited<H: Heap>(heap: &mut H, state: &Image) -> Answer {
    heap.load(state.state());
    heap.audit()
}

fn is_right(left: Leaves, said: Answer) -> bool {
    match left {
        Leaves::Sound => said.is_ok(),
        Leaves::Damaged => said.is_err(),
        Leaves::Either => true,
    }
}

fn difference(kinds: &[usize], left: Leaves, said: [Answer; 3]) -> String {
    let names: Vec<&str> = kinds.iter().map(|&kind| KINDS[kind].0).collect();
    let [proved, plain, one_walk] = said.map(|answer| match answer {
        Ok(_) => "sound".to_string(),
        Err((number, _)) => format!("refused with {number}"),
    });
    let due = match left {
        Leaves::Sound => "; to be sound",
        Leaves::Damaged => "; to be refused",
        Leaves::Either => "",
    };
    let said = format!("{} {proved}, {} {plain}, {} {one_walk}", Proved::NAME, Plain::NAME, OneWalk::NAME);
    format!("damage [{}]: {said}{due}", names.join(", "))
}
