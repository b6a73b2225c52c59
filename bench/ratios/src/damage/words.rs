//! Damages of a word or two.

use super::image::{any_page, change, edge_page, find, Image};
use crate::traffic::Numbers;
use heap::{Word, NO_PAGE};

/// The order of a word: now and then one that no block has.
fn any_order(numbers: &mut Numbers) -> usize {
    numbers.below(7) as usize
}

/// What a Free word may name as the next page: none, the highest number there is, a page, or one just beyond the last.
fn any_next(image: &Image, numbers: &mut Numbers) -> u64 {
    let page = numbers.below(image.words.len() as u64 + 2);
    numbers.one_of([NO_PAGE, Word::NEXT_NONE - 1, page, page, page, page])
}

// ---------------------------------------------------------------------------------------------- words for any page

pub fn small(_: &Image, numbers: &mut Numbers) -> Word {
    Word(numbers.below(1 << 20))
}

pub fn copied(image: &Image, numbers: &mut Numbers) -> Word {
    Word(image.words[any_page(image, numbers)])
}

pub fn compound(_: &Image, numbers: &mut Numbers) -> Word {
    Word::compound(any_order(numbers))
}

pub fn allocated(_: &Image, numbers: &mut Numbers) -> Word {
    Word::allocated(any_order(numbers))
}

pub fn free(image: &Image, numbers: &mut Numbers) -> Word {
    Word::free(any_order(numbers), any_next(image, numbers))
}

/// A File or Slab with count or item 0, which no sound region has.
pub fn nobody(_: &Image, numbers: &mut Numbers) -> Word {
    numbers.one_of([Word::file(0), Word::slab(0)])
}

/// A File or Slab with count or item 1.
pub fn somebody(_: &Image, numbers: &mut Numbers) -> Word {
    numbers.one_of([Word::file(1), Word::slab(1)])
}

// ------------------------------------------------------------------------------------------- words of certain pages

pub fn swapped(image: &mut Image, numbers: &mut Numbers) -> Option<()> {
    let (one, other) = (any_page(image, numbers), any_page(image, numbers));
    image.words.swap(one, other);
    Some(())
}

pub fn bit(image: &mut Image, numbers: &mut Numbers) -> Option<()> {
    image.words[any_page(image, numbers)] ^= 1 << numbers.below(64);
    Some(())
}

/// A single page that is out changes hands.
pub fn owner(image: &mut Image, numbers: &mut Numbers) -> Option<()> {
    let (page, _) = find(image, numbers, |_, order, is_free| order == 0 && !is_free)?;
    let (file, slab) = (Word::file(Word::COUNT_MAX), Word::slab(Word::SLAB_MASK));
    change(image, page, numbers.one_of([Word::allocated(0), Word::file(1), file, Word::slab(1), slab]))
}

/// A free block leads to another page than before.
pub fn next(image: &mut Image, numbers: &mut Numbers) -> Option<()> {
    let (page, order) = find(image, numbers, |_, _, is_free| is_free)?;
    let word = Word::free(order, any_next(image, numbers));
    change(image, page, word)
}

/// A later page of a block is Compound of another order.
pub fn later(image: &mut Image, numbers: &mut Numbers) -> Option<()> {
    let (page, order) = find(image, numbers, |_, order, _| order > 0)?;
    let at = page + 1 + numbers.below((1 << order) - 1) as usize;
    change(image, at, Word::compound(any_order(numbers)))
}

/// A boot page or a metadata page has another word than before.
pub fn edge(image: &mut Image, numbers: &mut Numbers) -> Option<()> {
    let page = edge_page(image, numbers);
    let (other, free) = (Word(image.words[any_page(image, numbers)]), Word::free(0, NO_PAGE));
    change(image, page, numbers.one_of([other, Word::allocated(0), Word::RESERVED, Word::file(1), free]))
}
