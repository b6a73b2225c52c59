//! The heap: a record and the words lent to it.

use crate::ffi::{numbers, numbers_mut};
use crate::{raw, Refusal, Region, MAX_ORDER, PAGE_SIZE};
use core::fmt;

/// A region's record and its words, one a page. Both may hold anything: a call is refused with 4 where they are not
/// sound together ([what that says](crate#what-4-says)).
///
/// Calls that change something take it by `&mut`, so a heap that threads share stands behind a lock. Where record and
/// words are kept apart, `Heap { region, words }` puts them together for a call; keep its `region` again afterwards.
#[derive(Debug)]
pub struct Heap<'a> {
    /// The record; keep it beside the words.
    pub region: Region,
    /// One word a page.
    pub words: &'a mut [u64],
}

/// What a page was granted as. It is no `core::alloc::Layout`: an item size need not be a power of two.
#[derive(Clone, Copy, Debug, PartialEq, Eq, Hash)]
pub struct Layout {
    /// Bytes.
    pub size: u64,
    /// Alignment in bytes.
    pub align: u64,
}

/// Blocks and free blocks of each order. It is shown as the shell prints it.
#[derive(Clone, Copy, Debug, PartialEq, Eq, Hash)]
pub struct Report {
    /// Blocks.
    pub total_pages: [u64; MAX_ORDER],
    /// Free blocks.
    pub free_pages: [u64; MAX_ORDER],
}

impl<'a> Heap<'a> {
    /// A heap with the empty record: before [`Heap::setup`] every call is refused with 4.
    pub fn new(words: &'a mut [u64]) -> Heap<'a> {
        Heap { region: Region::EMPTY, words }
    }

    /// Sets the region up anew: `page_count` pages from `start` on, the first `allocated` of them boot pages. Refused
    /// with 1, 2 or 3, which leave the words as they were and the empty record.
    pub fn setup(&mut self, start: u64, page_count: u64, allocated: u64) -> Result<(), Refusal> {
        let record = numbers_mut(&mut self.region);
        raw::root_mem_init(record, self.words, start, page_count, allocated).result().map(drop)
    }

    /// Grants a block of 2^order pages and answers its address. Refused with 4, 5 or 6.
    pub fn allocate(&mut self, order: u64) -> Result<u64, Refusal> {
        Ok(raw::allocate_pages(numbers_mut(&mut self.region), self.words, order).result()?.0)
    }

    /// Grants a file page with count 1 and answers its address. Refused with 4 or 6.
    pub fn allocate_file(&mut self) -> Result<u64, Refusal> {
        Ok(raw::allocate_file_page(numbers_mut(&mut self.region), self.words).result()?.0)
    }

    /// Grants a slab page for items of a size and answers its address. Refused with 4, 6 or 12.
    pub fn allocate_slab(&mut self, item_size: u64) -> Result<u64, Refusal> {
        Ok(raw::allocate_slab_page(numbers_mut(&mut self.region), self.words, item_size).result()?.0)
    }

    /// Frees what was granted at an address, a file page whatever its count. Refused with 4, 7, 8 or 9.
    pub fn free(&mut self, address: u64) -> Result<(), Refusal> {
        raw::free_page(numbers_mut(&mut self.region), self.words, address).result().map(drop)
    }

    /// Counts one more reference to a file page and answers the count. Refused with 4, 7, 10 or 11.
    pub fn get(&mut self, address: u64) -> Result<u64, Refusal> {
        Ok(raw::get_file_page(numbers(&self.region), self.words, address).result()?.0)
    }

    /// Counts one reference less to a file page and answers the count; at 0 the page is free. Refused with 4, 7 or 10.
    pub fn put(&mut self, address: u64) -> Result<u64, Refusal> {
        Ok(raw::put_file_page(numbers_mut(&mut self.region), self.words, address).result()?.0)
    }

    /// What the page around an address was granted as. Refused with 4, 7 or 9; a file page and the later pages of a
    /// block are refused with 9.
    pub fn lookup(&self, address: u64) -> Result<Layout, Refusal> {
        let (size, align) = raw::layout_from_ptr(numbers(&self.region), self.words, address).result()?;
        Ok(Layout { size, align })
    }

    /// Blocks and free blocks of each order. Refused with 4.
    pub fn report(&self) -> Result<Report, Refusal> {
        let mut report = [0; raw::REPORT];
        raw::memory_info(numbers(&self.region), self.words, &mut report).result()?;
        let [t0, t1, t2, t3, t4, t5, f0, f1, f2, f3, f4, f5] = report;
        Ok(Report { total_pages: [t0, t1, t2, t3, t4, t5], free_pages: [f0, f1, f2, f3, f4, f5] })
    }

    /// Whether record and words are sound together. Refused with 4 if not. That they are those which the last call left
    /// it does not say ([what no call sees](crate#what-4-says)).
    pub fn audit(&self) -> Result<(), Refusal> {
        raw::audit(numbers(&self.region), self.words).result().map(drop)
    }
}

/// The seven lines that the shell prints, without the last newline.
impl fmt::Display for Report {
    fn fmt(&self, f: &mut fmt::Formatter<'_>) -> fmt::Result {
        for (order, (total, free)) in self.total_pages.into_iter().zip(self.free_pages).enumerate() {
            writeln!(f, "Order-{order:02}: total pages: {total:5} free pages: {free:5}")?;
        }
        write!(f, "Total memory: {}KiB free memory: {}KiB", kib(self.total_pages), kib(self.free_pages))
    }
}

/// The memory of so many blocks of each order. Anyone can make a report, so no number may overflow.
fn kib(blocks: [u64; MAX_ORDER]) -> u64 {
    let sizes = (0..).map(|order| (PAGE_SIZE / 1024) << order);
    blocks.into_iter().zip(sizes).fold(0, |sum, (count, size)| sum.saturating_add(count.saturating_mul(size)))
}
