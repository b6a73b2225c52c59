//! A record and words that damages change: regions used in many ways, and what a damage looks for in one.

use crate::traffic::{step, Numbers, START};
use heap::audit::head;
use heap::{Audit, Region, Word, MAX_ORDER, NO_PAGE, PAGE_SIZE};

/// An audit that takes any state for sound: regions are made by calls alone, and kinds of damage know what they do.
pub struct Trusting;

impl Audit for Trusting {
    const NAME: &'static str = "trusting";
    fn is_sound(_: &Region, _: &[u64]) -> bool {
        true
    }
}

pub type Image = heap::Heap<'static, Trusting>;

// ------------------------------------------------------------------------------------------------ sound regions

/// Makes the image a sound region with other boot pages, elsewhere and used in another way: fresh, full, about half granted
/// in small blocks or in blocks of all orders, or as calls of every kind leave it.
pub fn renew(image: &mut Image, numbers: &mut Numbers) {
    let pages = image.words.len() as u64;
    let end = managed(image).1 as u64;
    let (few, many) = (numbers.below(9), numbers.below(end + 1));
    let boot = numbers.one_of([0, few, few, few, many, end - few]);
    let start = numbers.one_of([START, START, 0, ((pages + 1) * PAGE_SIZE).wrapping_neg()]);
    image.setup(start, pages, boot).expect("a set-up that fits");
    match numbers.below(6) {
        0 => {}
        1 => drop(fill(image, numbers, MAX_ORDER as u64)),
        2 => halve(image, numbers, 3),
        3 | 4 => halve(image, numbers, MAX_ORDER as u64),
        _ => call(image, numbers),
    }
}

/// Grants all free pages, as blocks of the orders below `orders`, file pages and slab pages; their addresses.
fn fill(image: &mut Image, numbers: &mut Numbers, orders: u64) -> Vec<u64> {
    let mut out = Vec::new();
    while image.region.next_page != [NO_PAGE; MAX_ORDER] {
        out.extend(match numbers.below(10) {
            0 => image.allocate_file(),
            1 => image.allocate_slab(1 + numbers.below(Word::SLAB_MASK)),
            _ => image.allocate(numbers.below(orders)),
        });
    }
    out
}

/// Grants all free pages and frees about half of what was granted.
fn halve(image: &mut Image, numbers: &mut Numbers, orders: u64) {
    for address in fill(image, numbers, orders) {
        if numbers.below(2) == 0 {
            image.free(address).expect("what was granted");
        }
    }
}

/// Makes calls of every kind, refused ones among them.
fn call(image: &mut Image, numbers: &mut Numbers) {
    let mut out = Vec::new();
    for _ in 0..2 * image.words.len() {
        let _ = step(image, numbers, &mut out);
    }
}

// ------------------------------------------------------------------------------------------------------- a look

/// The managed pages, from the first up to the end, whatever the record says of pages and boot pages.
pub fn managed(image: &Image) -> (usize, usize) {
    let end = Region { page_count: image.words.len() as u64, ..Region::EMPTY }.alloc_pages();
    (image.region.allocated.min(end as u64) as usize, end)
}

pub fn any_page(image: &Image, numbers: &mut Numbers) -> usize {
    numbers.below(image.words.len() as u64) as usize
}

/// A boot page or a metadata page.
pub fn edge_page(image: &Image, numbers: &mut Numbers) -> usize {
    let (from, end) = managed(image);
    let at = numbers.below((from + image.words.len() - end) as u64) as usize;
    match at < from {
        true => at,
        false => at - from + end,
    }
}

/// The first block from a random managed page on, and around, that `want` takes by its page, its order and whether it is
/// free: page and order.
pub fn find(image: &Image, numbers: &mut Numbers, want: impl Fn(usize, usize, bool) -> bool) -> Option<(usize, usize)> {
    let (from, end) = managed(image);
    if from == end {
        return None;
    }
    let first = from + numbers.below((end - from) as u64) as usize;
    (first..end).chain(from..first).find_map(|page| {
        let (order, is_free) = head(image.words[page])?;
        (page + (1 << order) <= end && want(page, order, is_free)).then_some((page, order))
    })
}

/// The pages of a list, as far as they are free blocks of its order and at most as many as there are pages.
pub fn listed(image: &Image, order: usize) -> impl Iterator<Item = usize> + '_ {
    let word = |page: u64| image.words.get(usize::try_from(page).ok()?).map(|&word| Word(word));
    let here = move |page: u64| word(page)?.next_if_free(order).map(|_| page);
    let after = move |page: &u64| here(word(*page)?.next_if_free(order)?);
    std::iter::successors(here(image.region.next_page[order]), after).map(|page| page as usize).take(image.words.len())
}

/// An order, from a random one on and around, whose list has at least so many pages.
pub fn filled(image: &Image, numbers: &mut Numbers, least: usize) -> Option<usize> {
    let first = numbers.below(MAX_ORDER as u64) as usize;
    (0..MAX_ORDER).map(|i| (first + i) % MAX_ORDER).find(|&order| listed(image, order).nth(least - 1).is_some())
}

// ---------------------------------------------------------------------------------------------------- a change

/// Writes a word, if it was another.
pub fn change(image: &mut Image, page: usize, word: Word) -> Option<()> {
    (image.words[page] != word.0).then(|| image.words[page] = word.0)
}

/// Adds to a number of the record, or takes off.
pub fn add(number: &mut u64, more: i64) {
    *number = number.wrapping_add_signed(more);
}

/// Writes a block that ends inside the region: its head, and the rest as Compound.
pub fn write(image: &mut Image, page: usize, order: usize, head: Word) {
    image.words[page] = head.0;
    image.words[page + 1..page + (1 << order)].fill(Word::compound(order).0);
}

/// Puts a page at the head of a list and counts it free.
pub fn push(image: &mut Image, page: usize, order: usize) {
    image.words[page] = Word::free(order, image.region.next_page[order]).0;
    image.region.next_page[order] = page as u64;
    add(&mut image.region.free_pages[order], 1);
}

/// Takes a page off its list, if it is there; its word and the counts stay.
pub fn unlink(image: &mut Image, page: usize, order: usize) -> Option<()> {
    let next_of = |at: usize| Word(image.words[at]).next_if_free(order);
    let next = next_of(page)?;
    if image.region.next_page[order] == page as u64 {
        image.region.next_page[order] = next;
        return Some(());
    }
    let before = listed(image, order).find(|&at| next_of(at) == Some(page as u64))?;
    image.words[before] = Word::free(order, next).0;
    Some(())
}
