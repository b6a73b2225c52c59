//! Damages of the record's numbers.

use super::image::{add, any_page, filled, Image};
use crate::traffic::Numbers;
use heap::{Region, Word, MAX_ORDER, NO_PAGE, PAGE_SIZE};

fn any_order(numbers: &mut Numbers) -> usize {
    numbers.below(MAX_ORDER as u64) as usize
}

fn any_counts<'a>(image: &'a mut Image, numbers: &mut Numbers) -> &'a mut [u64; MAX_ORDER] {
    match numbers.below(2) {
        0 => &mut image.region.nr_pages,
        _ => &mut image.region.free_pages,
    }
}

/// Writes a list's head, if it was another.
fn set_head(image: &mut Image, order: usize, head: u64) -> Option<()> {
    (image.region.next_page[order] != head).then(|| image.region.next_page[order] = head)
}

pub fn count(image: &mut Image, numbers: &mut Numbers) -> Option<()> {
    let more = numbers.one_of([1, -1]);
    add(&mut any_counts(image, numbers)[any_order(numbers)], more);
    Some(())
}

pub fn count_of_ones(image: &mut Image, numbers: &mut Numbers) -> Option<()> {
    any_counts(image, numbers)[any_order(numbers)] = u64::MAX;
    Some(())
}

/// Two of an order more and one of the next less: as many pages as before.
pub fn counts(image: &mut Image, numbers: &mut Numbers) -> Option<()> {
    let order = numbers.below(MAX_ORDER as u64 - 1) as usize;
    let counts = any_counts(image, numbers);
    add(&mut counts[order], 2);
    add(&mut counts[order + 1], -1);
    Some(())
}

pub fn no_head(image: &mut Image, numbers: &mut Numbers) -> Option<()> {
    let order = filled(image, numbers, 1)?;
    set_head(image, order, NO_PAGE)
}

pub fn head_outside(image: &mut Image, numbers: &mut Numbers) -> Option<()> {
    let pages = image.words.len() as u64;
    let none = Word::NEXT_NONE;
    let head = numbers.one_of([pages, pages + 1, none - 1, none, none + 1, 1 << 63, NO_PAGE - 1]);
    set_head(image, any_order(numbers), head)
}

pub fn other_head(image: &mut Image, numbers: &mut Numbers) -> Option<()> {
    let page = any_page(image, numbers) as u64;
    set_head(image, any_order(numbers), page)
}

pub fn swapped_heads(image: &mut Image, numbers: &mut Numbers) -> Option<()> {
    let (one, other) = (any_order(numbers), any_order(numbers));
    let heads = &mut image.region.next_page;
    (heads[one] != heads[other]).then(|| heads.swap(one, other))
}

pub fn boot(image: &mut Image, numbers: &mut Numbers) -> Option<()> {
    add(&mut image.region.allocated, numbers.one_of([1, -1]));
    Some(())
}

pub fn page_count(image: &mut Image, numbers: &mut Numbers) -> Option<()> {
    add(&mut image.region.page_count, numbers.one_of([1, -1]));
    Some(())
}

/// The region lies a page further on or back, where that is possible.
pub fn start_by_page(image: &mut Image, numbers: &mut Numbers) -> Option<()> {
    let start = image.region.start;
    let moved = match numbers.below(2) {
        0 => start.checked_add(PAGE_SIZE)?,
        _ => start.checked_sub(PAGE_SIZE)?,
    };
    moved.checked_add(image.words.len() as u64 * PAGE_SIZE)?;
    image.region.start = moved;
    Some(())
}

pub fn start_by_bytes(image: &mut Image, numbers: &mut Numbers) -> Option<()> {
    let odd = 1 + numbers.below(PAGE_SIZE - 1);
    image.region.start = image.region.start.wrapping_add(numbers.one_of([1, odd, odd.wrapping_neg()]));
    Some(())
}

/// The region's end is 2^64: one page too far.
pub fn end(image: &mut Image, _: &mut Numbers) -> Option<()> {
    image.region.start = (image.words.len() as u64 * PAGE_SIZE).wrapping_neg();
    Some(())
}

pub fn bit(image: &mut Image, numbers: &mut Numbers) -> Option<()> {
    let Region { start, page_count, allocated, nr_pages, free_pages, next_page } = &mut *image.region;
    let order = any_order(numbers);
    let (blocks, free, head) = (&mut nr_pages[order], &mut free_pages[order], &mut next_page[order]);
    let fields = [start, page_count, allocated, blocks, free, head];
    let at = numbers.below(fields.len() as u64) as usize;
    *fields[at] ^= 1 << numbers.below(64);
    Some(())
}
