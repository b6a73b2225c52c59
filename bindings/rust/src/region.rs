//! The region record.

/// A page's bytes.
pub const PAGE_SIZE: u64 = 4096;
/// The most pages that a region has.
pub const MAX_PAGES: u64 = 4096;
/// One more than the highest order.
pub const MAX_ORDER: usize = 6;
/// No page: the head of an empty list, and the next page of a list's last block.
pub const NO_PAGE: u64 = u64::MAX;

/// The region record: 21 numbers, as the library reads and writes them.
///
/// The words tell whether all but two of them are right. Keep `start` and `allocated` elsewhere too, and compare.
#[repr(C)]
#[derive(Clone, Copy, Debug, PartialEq, Eq, Hash)]
pub struct Region {
    /// The address of page 0.
    pub start: u64,
    /// Pages, boot and metadata pages among them.
    pub page_count: u64,
    /// Boot pages, the first ones: never granted, never freed.
    pub allocated: u64,
    /// Blocks of each order.
    pub nr_pages: [u64; MAX_ORDER],
    /// Free blocks of each order.
    pub free_pages: [u64; MAX_ORDER],
    /// The head of each free list, or [`NO_PAGE`].
    pub next_page: [u64; MAX_ORDER],
}

impl Region {
    /// The record of a region without pages, which a refused set-up leaves too.
    pub const EMPTY: Region = Region {
        start: 0,
        page_count: 0,
        allocated: 0,
        nr_pages: [0; MAX_ORDER],
        free_pages: [0; MAX_ORDER],
        next_page: [NO_PAGE; MAX_ORDER],
    };
}
