//! The kinds of damage, by name.

use super::image::{any_page, Image};
use super::{blocks, record, words};
use crate::traffic::Numbers;
use heap::Word;

/// What a kind makes of a sound state.
#[derive(Clone, Copy)]
pub enum Leaves {
    Sound,
    Damaged,
    Either,
}
use Leaves::{Damaged, Either, Sound};

#[derive(Clone, Copy)]
pub enum Change {
    /// A word for any page.
    AnyPage(fn(&Image, &mut Numbers) -> Word),
    /// A change that finds its own place; none, and nothing is changed, where there is no place for it.
    Place(fn(&mut Image, &mut Numbers) -> Option<()>),
}
use Change::{AnyPage, Place};

impl Change {
    /// Makes the change; whether there was a place for it.
    pub fn made(self, image: &mut Image, numbers: &mut Numbers) -> bool {
        match self {
            AnyPage(word) => {
                let Word(word) = word(image, numbers);
                image.words[any_page(image, numbers)] = word;
                true
            }
            Place(change) => change(image, numbers).is_some(),
        }
    }
}

/// A name, what is left, and the change.
pub type Kind = (&'static str, Leaves, Change);

pub const KINDS: &[Kind] = &[
    ("a small word", Either, AnyPage(words::small)),
    ("another page's word", Either, AnyPage(words::copied)),
    ("two words swapped", Either, Place(words::swapped)),
    ("a Compound word", Either, AnyPage(words::compound)),
    ("an Allocated word", Either, AnyPage(words::allocated)),
    ("a Free word", Either, AnyPage(words::free)),
    ("a bit of a word", Either, Place(words::bit)),
    ("a File or Slab of 0", Damaged, AnyPage(words::nobody)),
    ("a File or Slab of 1", Either, AnyPage(words::somebody)),
    ("a single page in other hands", Sound, Place(words::owner)),
    ("another next page", Damaged, Place(words::next)),
    ("another order of a later page", Damaged, Place(words::later)),
    ("another boot or metadata word", Damaged, Place(words::edge)),
    ("a count one off", Damaged, Place(record::count)),
    ("a count of 2^64 - 1", Damaged, Place(record::count_of_ones)),
    ("two counts off, as many pages", Damaged, Place(record::counts)),
    ("a head that is none", Damaged, Place(record::no_head)),
    ("a head out of range", Damaged, Place(record::head_outside)),
    ("another page as head", Damaged, Place(record::other_head)),
    ("two heads swapped", Damaged, Place(record::swapped_heads)),
    ("boot pages one off", Damaged, Place(record::boot)),
    ("a page more or less", Damaged, Place(record::page_count)),
    ("the start moved by a page", Sound, Place(record::start_by_page)),
    ("the start moved by bytes", Damaged, Place(record::start_by_bytes)),
    ("the end at 2^64", Damaged, Place(record::end)),
    ("a bit of the record", Either, Place(record::bit)),
    ("a list's first two swapped", Sound, Place(blocks::first_two_swapped)),
    ("a free block off its list", Damaged, Place(blocks::hidden)),
    ("a free block off list and count", Damaged, Place(blocks::hidden_uncounted)),
    ("a list closed to a loop", Damaged, Place(blocks::looped)),
    ("a list that leads to another", Damaged, Place(blocks::joined_lists)),
    ("a boot or metadata page listed", Damaged, Place(blocks::edge_listed)),
    ("a granted block listed", Damaged, Place(blocks::granted_listed)),
    ("two free buddies", Damaged, Place(blocks::buddies)),
    ("a granted block cut in two", Sound, Place(blocks::cut)),
    ("two granted buddies joined", Sound, Place(blocks::joined)),
    ("two that are no buddies joined", Damaged, Place(blocks::misaligned)),
    ("a block over the end", Damaged, Place(blocks::over_end)),
    ("a boot page moved, counted", Sound, Place(blocks::boot_moved)),
];
