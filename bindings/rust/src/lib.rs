//! Tingmudra, a proved page heap: safe Rust over the static library `libabi.a`.
//!
//! [`Heap`] is a record and the words lent to it, one word a page. Every call ends properly on any record and any
//! words: what it cannot do it refuses with a [`Refusal`], which changes nothing but where set-up says so. Every call
//! but set-up audits record and words first.
//!
//! ```
#![doc = include_str!("../examples/ten.rs")]
//! ```
//!
//! `examples/global_alloc.rs` is a global allocator over a static region, `examples/two_regions.rs` keeps two regions.
//! [`raw`] has the same calls on records as slices of numbers, as the library exports them.
//!
//! # Where things lie
//!
//! Page p lies at the start plus 4,096 times p. The first pages are the boot pages, as many as set-up is told. The last
//! are the metadata pages, as many whole pages as 8 bytes a page take: one for up to 512 pages, eight for 4,096. The
//! heap grants neither: 64 pages with 3 boot pages have 60 to grant and to report, 240 KiB.
//!
//! The words lie in the slice that the caller lends. That may be memory anywhere, or the metadata pages themselves,
//! which begin at the start plus 4,096 times the other pages. To the heap an address is a number: it touches no page of
//! the region, but for words that lie there.
//!
//! # What 4 says
//!
//! A call is refused with 4, [`Refusal::Damaged`], exactly where record and words are not sound together. Damage that
//! leaves them sound is not seen by any call, such as:
//!
//! - a start that was moved to another page: every address is then wrong by as much;
//! - a boot count that was changed together with a block count: a boot page can then be freed, and granted;
//! - the count of a file page, or the item size of a slab page;
//! - a block of one kind that was made one of another: allocated of order 0, slab page, file page;
//! - an older sound state that was put back: what was granted since then can be granted again.
//!
//! So keep start and boot count where nothing else writes, and compare: both examples above do.
#![no_std]
#![deny(unsafe_op_in_unsafe_fn, missing_docs)]

mod ffi;
mod heap;
pub mod raw;
mod refusal;
mod region;
mod word;

pub use heap::{Heap, Layout, Report};
pub use refusal::Refusal;
pub use region::{Region, MAX_ORDER, MAX_PAGES, NO_PAGE, PAGE_SIZE};
pub use word::{decode, encode, get_order, PageInfo, MAX_COUNT, MAX_ITEM};
