//! The region record and the heap on it: set-up, audit, lists, split, merge, allocate, free, file and slab pages.

use crate::audit::{Audit, ListByList};
use crate::word::{PageInfo, Word, NO_PAGE};
use std::marker::PhantomData;

pub const PAGE_SIZE: u64 = 4096;
pub const MAX_ORDER: usize = 6;
pub const MAX_PAGES: u64 = 4096;

/// The highest order; its blocks never merge.
pub(crate) const TOP: usize = MAX_ORDER - 1;

/// Why a call was refused, by document 01's numbers.
#[derive(Clone, Copy, Debug, PartialEq, Eq)]
pub enum Refusal {
    BadCount,
    BadStart,
    TooManyBoot,
    Damaged,
    InvalidPageOrder(u64),
    OutOfMemory,
    InvalidHeapAddress(u64),
    BootPage(u64),
    InvalidPageType(u64),
    InvalidFilePage(u64),
    RefFull(u64),
    InvalidItem(u64),
}

impl Refusal {
    /// Document 01's number, and the value that the refusal carries.
    pub fn parts(self) -> (u8, Option<u64>) {
        match self {
            Refusal::BadCount => (1, None),
            Refusal::BadStart => (2, None),
            Refusal::TooManyBoot => (3, None),
            Refusal::Damaged => (4, None),
            Refusal::InvalidPageOrder(order) => (5, Some(order)),
            Refusal::OutOfMemory => (6, None),
            Refusal::InvalidHeapAddress(address) => (7, Some(address)),
            Refusal::BootPage(address) => (8, Some(address)),
            Refusal::InvalidPageType(address) => (9, Some(address)),
            Refusal::InvalidFilePage(address) => (10, Some(address)),
            Refusal::RefFull(address) => (11, Some(address)),
            Refusal::InvalidItem(item) => (12, Some(item)),
        }
    }
}

/// The region record.
#[derive(Clone, Copy, Debug, PartialEq, Eq)]
pub struct Region {
    pub start: u64,
    pub page_count: u64,
    /// Boot pages: never granted, never freed.
    pub allocated: u64,
    /// Blocks of each order.
    pub nr_pages: [u64; MAX_ORDER],
    /// Free blocks of each order.
    pub free_pages: [u64; MAX_ORDER],
    /// The head of each free list, or [`NO_PAGE`].
    pub next_page: [u64; MAX_ORDER],
}

impl Region {
    pub const EMPTY: Region = Region {
        start: 0,
        page_count: 0,
        allocated: 0,
        nr_pages: [0; MAX_ORDER],
        free_pages: [0; MAX_ORDER],
        next_page: [NO_PAGE; MAX_ORDER],
    };

    /// One beyond the last managed page; `page_count` is at most [`MAX_PAGES`].
    pub fn alloc_pages(&self) -> usize {
        (self.page_count - (self.page_count * 8).div_ceil(PAGE_SIZE)) as usize
    }

    fn address(&self, page: usize) -> u64 {
        self.start + page as u64 * PAGE_SIZE
    }

    /// The page that holds `address`; the region is sound.
    fn page_around(&self, address: u64) -> Result<usize, Refusal> {
        match address.checked_sub(self.start) {
            Some(offset) if offset < self.page_count * PAGE_SIZE => Ok((offset / PAGE_SIZE) as usize),
            _ => Err(Refusal::InvalidHeapAddress(address)),
        }
    }

    /// The page that begins at `address`; the region is sound.
    fn page_at(&self, address: u64) -> Result<usize, Refusal> {
        let page = self.page_around(address)?;
        if address % PAGE_SIZE == 0 {
            Ok(page)
        } else {
            Err(Refusal::InvalidHeapAddress(address))
        }
    }
}

/// A heap: a record and the words lent to it, audited by `A` before every call but set-up.
pub struct Heap<'a, A = ListByList> {
    pub region: &'a mut Region,
    pub words: &'a mut [u64],
    audit: PhantomData<A>,
}

impl<'a, A: Audit> Heap<'a, A> {
    pub fn new(region: &'a mut Region, words: &'a mut [u64]) -> Heap<'a, A> {
        Heap { region, words, audit: PhantomData }
    }

    // ------------------------------------------------------------------------------------------------- set-up

    /// Makes the region anew, whatever record and words held; on a refusal the record is the empty one.
    pub fn setup(&mut self, start: u64, pages: u64, boot: u64) -> Result<(), Refusal> {
        *self.region = Region::EMPTY;
        if !(1..=MAX_PAGES).contains(&pages) || self.words.len() as u64 != pages {
            return Err(Refusal::BadCount);
        }
        if start % PAGE_SIZE != 0 || start.checked_add(pages * PAGE_SIZE).is_none() {
            return Err(Refusal::BadStart);
        }
        let region = Region { start, page_count: pages, allocated: boot, ..Region::EMPTY };
        let end = region.alloc_pages();
        if boot > end as u64 {
            return Err(Refusal::TooManyBoot);
        }
        *self.region = region;

        self.words[..end].fill(Word::allocated(0).0);
        self.words[end..].fill(Word::RESERVED.0);
        let boot = boot as usize;
        let size = 1 << TOP;
        let first = boot.next_multiple_of(size);
        let last = end / size * size;
        if first >= last {
            self.free_singly(boot, end);
            return Ok(());
        }
        for page in (first..last).step_by(size) {
            self.region.nr_pages[TOP] += 1;
            self.mark_compound(page, TOP);
            self.push(page, TOP);
        }
        self.free_singly(boot, first);
        self.free_singly(last, end);
        Ok(())
    }

    fn free_singly(&mut self, from: usize, to: usize) {
        for page in from..to {
            self.region.nr_pages[0] += 1;
            self.release(page, 0);
        }
    }

    // -------------------------------------------------------------------------------------------------- audit

    pub fn audit(&self) -> Result<(), Refusal> {
        if A::is_sound(self.region, self.words) {
            Ok(())
        } else {
            Err(Refusal::Damaged)
        }
    }

    // -------------------------------------------------------------------------------------------------- lists

    fn info(&self, page: usize) -> PageInfo {
        Word(self.words[page]).decode().expect("a word of a sound region")
    }

    fn next_of(&self, page: usize) -> u64 {
        match self.info(page) {
            PageInfo::Free { next, .. } => next,
            other => unreachable!("{other:?} on a free list"),
        }
    }

    fn is_free(&self, page: usize, order: usize) -> bool {
        Word(self.words[page]).next_if_free(order).is_some()
    }

    fn push(&mut self, page: usize, order: usize) {
        self.words[page] = Word::free(order, self.region.next_page[order]).0;
        self.region.next_page[order] = page as u64;
        self.region.free_pages[order] += 1;
    }

    fn pop(&mut self, order: usize) -> Option<usize> {
        let head = self.region.next_page[order];
        if head == NO_PAGE {
            return None;
        }
        self.region.next_page[order] = self.next_of(head as usize);
        self.region.free_pages[order] -= 1;
        Some(head as usize)
    }

    /// Takes a listed block out; the rest of the list keeps its order.
    fn unlink(&mut self, page: usize, order: usize) {
        let next = self.next_of(page);
        let mut at = self.region.next_page[order];
        if at == page as u64 {
            self.region.next_page[order] = next;
        } else {
            let before = loop {
                let following = self.next_of(at as usize);
                if following == page as u64 {
                    break at as usize;
                }
                at = following;
            };
            self.words[before] = Word::free(order, next).0;
        }
        self.region.free_pages[order] -= 1;
    }

    // ----------------------------------------------------------------------------------------- split and merge

    fn mark_compound(&mut self, page: usize, order: usize) {
        self.words[page + 1..page + (1 << order)].fill(Word::compound(order).0);
    }

    /// Splits a block that is off its list; its lower half is then the head of the next lower list.
    fn split(&mut self, page: usize, order: usize) {
        let half = order - 1;
        for page in [page + (1 << half), page] {
            self.push(page, half);
            self.mark_compound(page, half);
        }
        self.region.nr_pages[order] -= 1;
        self.region.nr_pages[half] += 2;
    }

    /// Frees a block, merging with free buddies as far up as they go.
    fn release(&mut self, mut page: usize, mut order: usize) {
        while order < TOP {
            let buddy = page ^ (1 << order);
            if buddy >= self.words.len() || !self.is_free(buddy, order) {
                break;
            }
            self.unlink(buddy, order);
            self.region.nr_pages[order] -= 2;
            order += 1;
            self.region.nr_pages[order] += 1;
            page = page.min(buddy);
        }
        self.push(page, order);
        self.mark_compound(page, order);
    }

    // ------------------------------------------------------------------------------------------------ allocate

    /// The lowest order from `order` on with a free block.
    fn supply(&self, order: usize) -> Result<usize, Refusal> {
        (order..MAX_ORDER).find(|&higher| self.region.next_page[higher] != NO_PAGE).ok_or(Refusal::OutOfMemory)
    }

    /// Grants a block of `order` out of one of order `from`, and writes its head.
    fn grant(&mut self, from: usize, order: usize, head: Word) -> u64 {
        for higher in (order + 1..=from).rev() {
            let page = self.pop(higher).expect("a list that was refilled");
            self.split(page, higher);
        }
        let page = self.pop(order).expect("a list that was refilled");
        self.words[page] = head.0;
        self.region.address(page)
    }

    /// Grants a block of 2^order pages.
    pub fn allocate(&mut self, order: u64) -> Result<u64, Refusal> {
        self.audit()?;
        if order >= MAX_ORDER as u64 {
            return Err(Refusal::InvalidPageOrder(order));
        }
        let order = order as usize;
        let from = self.supply(order)?;
        Ok(self.grant(from, order, Word::allocated(order)))
    }

    /// Grants a file page with count 1.
    pub fn allocate_file(&mut self) -> Result<u64, Refusal> {
        self.audit()?;
        let from = self.supply(0)?;
        Ok(self.grant(from, 0, Word::file(1)))
    }

    /// Grants a slab page.
    pub fn allocate_slab(&mut self, item: u64) -> Result<u64, Refusal> {
        self.audit()?;
        let from = self.supply(0)?;
        if !(1..=Word::SLAB_MASK).contains(&item) {
            return Err(Refusal::InvalidItem(item));
        }
        Ok(self.grant(from, 0, Word::slab(item)))
    }

    /// Frees the block that begins at `address`.
    pub fn free(&mut self, address: u64) -> Result<(), Refusal> {
        self.audit()?;
        let page = self.region.page_at(address)?;
        if (page as u64) < self.region.allocated {
            return Err(Refusal::BootPage(address));
        }
        match self.info(page) {
            PageInfo::Allocated { order } => self.release(page, order),
            PageInfo::File { .. } | PageInfo::Slab { .. } => self.release(page, 0),
            _ => return Err(Refusal::InvalidPageType(address)),
        }
        Ok(())
    }

    // ---------------------------------------------------------------------------------------------- file pages

    fn file_at(&self, address: u64) -> Result<(usize, u64), Refusal> {
        let page = self.region.page_at(address)?;
        match self.info(page) {
            PageInfo::File { count } => Ok((page, count)),
            _ => Err(Refusal::InvalidFilePage(address)),
        }
    }

    /// Counts one more reference to a file page.
    pub fn get(&mut self, address: u64) -> Result<u64, Refusal> {
        self.audit()?;
        let (page, count) = self.file_at(address)?;
        if count == Word::COUNT_MAX {
            return Err(Refusal::RefFull(address));
        }
        self.words[page] = Word::file(count + 1).0;
        Ok(count + 1)
    }

    /// Counts one reference less, and frees the page at 0.
    pub fn put(&mut self, address: u64) -> Result<u64, Refusal> {
        self.audit()?;
        let (page, count) = self.file_at(address)?;
        if count == 1 {
            self.release(page, 0);
        } else {
            self.words[page] = Word::file(count - 1).0;
        }
        Ok(count - 1)
    }

    // ----------------------------------------------------------------------------------------- lookup, report

    /// Size and alignment of what begins on the page around `address`.
    pub fn lookup(&self, address: u64) -> Result<(u64, u64), Refusal> {
        self.audit()?;
        let page = self.region.page_around(address)?;
        match self.info(page) {
            PageInfo::Allocated { order } => Ok((PAGE_SIZE << order, PAGE_SIZE)),
            PageInfo::Slab { item } => Ok((item, item)),
            _ => Err(Refusal::InvalidPageType(address)),
        }
    }

    /// Blocks and free blocks of each order.
    pub fn report(&self) -> Result<([u64; MAX_ORDER], [u64; MAX_ORDER]), Refusal> {
        self.audit()?;
        Ok((self.region.nr_pages, self.region.free_pages))
    }

    /// The pages of list `order` from its head on; the region is sound.
    pub fn list(&self, order: usize) -> impl Iterator<Item = u64> + '_ {
        let end = |page: u64| (page != NO_PAGE).then_some(page);
        std::iter::successors(end(self.region.next_page[order]), move |&page| end(self.next_of(page as usize)))
    }
}
