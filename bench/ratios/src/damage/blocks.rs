//! Damages of blocks and lists, most of them made so that one line of document 01's list is broken and no other.

use super::image::{add, edge_page, filled, find, listed, managed, push, unlink, write, Image};
use crate::traffic::Numbers;
use heap::audit::head;
use heap::{Word, MAX_ORDER};

const TOP: usize = MAX_ORDER - 1;

/// A free block whose head is on its list.
fn listed_block(image: &Image, numbers: &mut Numbers, least: usize) -> Option<(usize, usize)> {
    let (page, order) = find(image, numbers, |_, order, is_free| is_free && order >= least)?;
    listed(image, order).any(|at| at == page).then_some((page, order))
}

// ------------------------------------------------------------------------------------------------------- lists

pub fn first_two_swapped(image: &mut Image, numbers: &mut Numbers) -> Option<()> {
    let order = filled(image, numbers, 2)?;
    let mut pages = listed(image, order);
    let (first, second) = (pages.next()?, pages.next()?);
    drop(pages);
    let third = Word(image.words[second]).next_if_free(order)?;
    image.region.next_page[order] = second as u64;
    image.words[second] = Word::free(order, first as u64).0;
    image.words[first] = Word::free(order, third).0;
    Some(())
}

/// A free block is off its list; the counts are right.
pub fn hidden(image: &mut Image, numbers: &mut Numbers) -> Option<()> {
    let (page, order) = listed_block(image, numbers, 0)?;
    unlink(image, page, order)
}

/// A free block is off its list and not counted free.
pub fn hidden_uncounted(image: &mut Image, numbers: &mut Numbers) -> Option<()> {
    let (page, order) = listed_block(image, numbers, 0)?;
    add(&mut image.region.free_pages[order], -1);
    unlink(image, page, order)
}

/// A list's last page leads back to one of its pages; the counts are right.
pub fn looped(image: &mut Image, numbers: &mut Numbers) -> Option<()> {
    let order = filled(image, numbers, 1)?;
    let back = numbers.below(listed(image, order).count() as u64) as usize;
    let (back, last) = (listed(image, order).nth(back)?, listed(image, order).last()?);
    image.words[last] = Word::free(order, back as u64).0;
    Some(())
}

/// A list's last page leads to the first of another list.
pub fn joined_lists(image: &mut Image, numbers: &mut Numbers) -> Option<()> {
    let (order, other) = (filled(image, numbers, 1)?, filled(image, numbers, 1)?);
    let last = listed(image, order).last()?;
    let word = Word::free(order, image.region.next_page[other]);
    (order != other).then(|| image.words[last] = word.0)
}

/// A boot page or a metadata page is at the head of a list and counted free, now and then as a block too.
pub fn edge_listed(image: &mut Image, numbers: &mut Numbers) -> Option<()> {
    let (page, order) = (edge_page(image, numbers), numbers.below(MAX_ORDER as u64) as usize);
    push(image, page, order);
    add(&mut image.region.nr_pages[order], numbers.one_of([0, 1]));
    Some(())
}

/// A free block becomes a granted one and is counted as such, but stays on its list.
pub fn granted_listed(image: &mut Image, numbers: &mut Numbers) -> Option<()> {
    let (page, order) = listed_block(image, numbers, 0)?;
    image.words[page] = Word::allocated(order).0;
    add(&mut image.region.free_pages[order], -1);
    Some(())
}

// ------------------------------------------------------------------------------------------------------ blocks

/// A free block becomes two free buddies, listed and counted.
pub fn buddies(image: &mut Image, numbers: &mut Numbers) -> Option<()> {
    let (page, order) = listed_block(image, numbers, 1)?;
    unlink(image, page, order)?;
    add(&mut image.region.free_pages[order], -1);
    cut_in_two(image, page, order);
    [page + (1 << order) / 2, page].into_iter().for_each(|half| push(image, half, order - 1));
    Some(())
}

/// A granted block becomes two granted ones, counted.
pub fn cut(image: &mut Image, numbers: &mut Numbers) -> Option<()> {
    let (page, order) = find(image, numbers, |_, order, is_free| !is_free && order > 0)?;
    cut_in_two(image, page, order);
    Some(())
}

/// Writes two granted blocks in the place of one, and counts blocks anew.
fn cut_in_two(image: &mut Image, page: usize, order: usize) {
    for half in [page, page + (1 << order) / 2] {
        write(image, half, order - 1, Word::allocated(order - 1));
    }
    add(&mut image.region.nr_pages[order], -1);
    add(&mut image.region.nr_pages[order - 1], 2);
}

/// Two granted buddies become one granted block, counted.
pub fn joined(image: &mut Image, numbers: &mut Numbers) -> Option<()> {
    join(image, numbers, true)
}

/// Two granted neighbours that are no buddies become one granted block, counted: it starts at no multiple of its size.
pub fn misaligned(image: &mut Image, numbers: &mut Numbers) -> Option<()> {
    join(image, numbers, false)
}

fn join(image: &mut Image, numbers: &mut Numbers, are_buddies: bool) -> Option<()> {
    let end = managed(image).1;
    let (page, order) = find(image, numbers, |page, order, is_free| {
        let is_place = !is_free && order < TOP && page + (2 << order) <= end;
        is_place
            && (page % (2 << order) == 0) == are_buddies
            && head(image.words[page + (1 << order)]) == Some((order, false))
    })?;
    write(image, page, order + 1, Word::allocated(order + 1));
    add(&mut image.region.nr_pages[order], -2);
    add(&mut image.region.nr_pages[order + 1], 1);
    Some(())
}

/// The last block, a granted one, becomes one of the next order and ends beyond the managed pages; counted.
pub fn over_end(image: &mut Image, numbers: &mut Numbers) -> Option<()> {
    let end = managed(image).1;
    let (page, order) =
        find(image, numbers, |page, order, is_free| !is_free && order < TOP && page + (1 << order) == end)?;
    image.words[page..end].fill(Word::compound(order + 1).0);
    image.words[page] = Word::allocated(order + 1).0;
    add(&mut image.region.nr_pages[order], -1);
    add(&mut image.region.nr_pages[order + 1], 1);
    Some(())
}

/// The last boot page becomes a granted page, or the first managed page, a granted one, a boot page; counted.
pub fn boot_moved(image: &mut Image, numbers: &mut Numbers) -> Option<()> {
    let first = managed(image).0;
    let more = numbers.one_of([1, -1]);
    let page = if more == 1 { Some(first) } else { first.checked_sub(1) }?;
    if image.words[page] != Word::allocated(0).0 {
        return None;
    }
    add(&mut image.region.allocated, more);
    add(&mut image.region.nr_pages[0], -more);
    Some(())
}
