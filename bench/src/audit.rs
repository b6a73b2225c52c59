//! Whether a region's record and words are sound, in two ways that give the same answers, each as one would write it in Rust: first the blocks
//! and then list after list, or both in one walk. Which is the faster depends on how the pages are used; `ratios` times both.

use crate::region::{Region, MAX_ORDER, MAX_PAGES, PAGE_SIZE, TOP};
use crate::word::{PageInfo, Word, NO_PAGE};

/// A number for each order.
type Orders = [u64; MAX_ORDER];

pub trait Audit {
    const NAME: &'static str;
    fn is_sound(region: &Region, words: &[u64]) -> bool;
}

/// The blocks, page by page until one is wrong; then each list from its head on.
pub struct ListByList;

/// From block to block, each list taken a page on with each of its free blocks; runs of words are compared whole.
pub struct OneWalk;

/// The managed pages, from the first up to the end, if the record's numbers are those of a region with so many words.
fn managed(region: &Region, words: &[u64]) -> Option<(usize, usize)> {
    if !(1..=MAX_PAGES).contains(&region.page_count) || words.len() as u64 != region.page_count {
        return None;
    }
    let size = region.page_count * PAGE_SIZE;
    if region.start % PAGE_SIZE != 0 || region.start.checked_add(size).is_none() {
        return None;
    }
    let end = region.alloc_pages();
    (region.allocated <= end as u64).then_some((region.allocated as usize, end))
}

/// The order of the block that a word heads, and whether it is free.
pub fn head(word: u64) -> Option<(usize, bool)> {
    match Word(word).decode()? {
        PageInfo::Free { order, .. } => Some((order, true)),
        PageInfo::Allocated { order } => Some((order, false)),
        PageInfo::File { count: 1.. } | PageInfo::Slab { item: 1.. } => Some((0, false)),
        _ => None,
    }
}

/// Whether the free block of `order` that ends before page `next` is the lower one of two free buddies.
fn is_lower_buddy(words: &[u64], next: usize, to: usize, order: usize) -> bool {
    let page = next - (1 << order);
    order < TOP && page % (2 << order) == 0 && next < to && Word(words[next]).next_if_free(order).is_some()
}

impl Audit for ListByList {
    const NAME: &'static str = "list-by-list";

    fn is_sound(region: &Region, words: &[u64]) -> bool {
        let Some((from, to)) = managed(region, words) else { return false };
        words[..from].iter().all(|&word| word == Word::allocated(0).0)
            && words[to..].iter().all(|&word| word == Word::RESERVED.0)
            && tally(words, from, to) == Some((region.nr_pages, region.free_pages))
            && (0..MAX_ORDER).all(|order| list_is_sound(region, words, order))
    }
}

/// The counts of blocks and of free blocks that tile pages `from` up to `to`, if blocks do, and no two free buddies stand
/// side by side.
fn tally(words: &[u64], from: usize, to: usize) -> Option<(Orders, Orders)> {
    let mut blocks = [0; MAX_ORDER];
    let mut free = [0; MAX_ORDER];
    let mut page = from;
    while page < to {
        let (order, is_free) = head(words[page])?;
        let next = page + (1 << order);
        if page % (1 << order) != 0 || next > to {
            return None;
        }
        if words[page + 1..next].iter().any(|&word| word != Word::compound(order).0) {
            return None;
        }
        blocks[order] += 1;
        if is_free {
            free[order] += 1;
            if is_lower_buddy(words, next, to, order) {
                return None;
            }
        }
        page = next;
    }
    Some((blocks, free))
}

/// Whether list `order` holds as many free blocks of that order as the record counts; the rest is sound, so that Free words
/// are heads of managed blocks. A list that ends visits no page twice.
fn list_is_sound(region: &Region, words: &[u64], order: usize) -> bool {
    let mut page = region.next_page[order];
    for _ in 0..region.free_pages[order] {
        let Some(&word) = usize::try_from(page).ok().and_then(|page| words.get(page)) else {
            return false;
        };
        match Word(word).next_if_free(order) {
            Some(next) => page = next,
            None => return false,
        }
    }
    page == NO_PAGE
}

impl Audit for OneWalk {
    const NAME: &'static str = "one-walk";

    fn is_sound(region: &Region, words: &[u64]) -> bool {
        let Some((from, to)) = managed(region, words) else { return false };
        all_are(&words[..from], Word::allocated(0))
            && all_are(&words[to..], Word::RESERVED)
            && survey(words, from, to, region.next_page) == Some((region.nr_pages, region.free_pages, [NO_PAGE; MAX_ORDER]))
    }
}

/// Whether all words are this one; all are looked at.
fn all_are(words: &[u64], word: Word) -> bool {
    words.iter().fold(0, |other, &found| other | (found ^ word.0)) == 0
}

/// As [`tally`], and the page that each list has come to, from its head, after as many steps as it has free blocks.
fn survey(words: &[u64], from: usize, to: usize, heads: Orders) -> Option<(Orders, Orders, Orders)> {
    let mut blocks = [0; MAX_ORDER];
    let mut free = [0; MAX_ORDER];
    let mut at = heads;
    let mut page = from;
    while page < to {
        let (order, is_free) = head(words[page])?;
        let next = page + (1 << order);
        if page % (1 << order) != 0 || next > to || !all_are(&words[page + 1..next], Word::compound(order)) {
            return None;
        }
        blocks[order] += 1;
        if is_free {
            free[order] += 1;
            at[order] = page_after(words, from, to, order, at[order]);
            if is_lower_buddy(words, next, to, order) {
                return None;
            }
        }
        page = next;
    }
    Some((blocks, free, at))
}

/// The page after `page` on list `order`; `to`, which is on no list, if `page` heads no free block of that order.
fn page_after(words: &[u64], from: usize, to: usize, order: usize, page: u64) -> u64 {
    match (from as u64..to as u64).contains(&page) {
        true => Word(words[page as usize]).next_if_free(order).unwrap_or(to as u64),
        false => to as u64,
    }
}

#[cfg(test)]
mod tests {
    use super::*;
    use crate::Heap;

    /// What both audits say.
    fn said(region: &Region, words: &[u64]) -> bool {
        let sound = OneWalk::is_sound(region, words);
        assert_eq!(ListByList::is_sound(region, words), sound, "{region:?} {words:x?}");
        sound
    }

    #[test]
    fn each_bit() {
        let (mut region, mut words) = (Region::EMPTY, [0; 64]);
        let mut heap: Heap = Heap::new(&mut region, &mut words);
        heap.setup(1 << 20, 64, 3).expect("a set-up that fits");
        let file = heap.allocate_file().expect("a free page");
        heap.allocate(2).expect("a free block");
        assert!(said(&region, &words));
        let page = ((file - region.start) / PAGE_SIZE) as usize;
        for (at, bit) in (0..64).flat_map(|at| (0..64).map(move |bit| (at, bit))) {
            words[at] ^= 1 << bit;
            // the file page's count, but for its only bit
            assert_eq!(said(&region, &words), at == page && bit > Word::TYPE_SHIFT, "word {at}, bit {bit}");
            words[at] ^= 1 << bit;
        }
    }
}
