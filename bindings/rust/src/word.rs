//! Page words, and the order of a size.

use crate::{raw, Refusal};

/// The largest item size of a slab page.
pub const MAX_ITEM: u64 = 0xffff;
/// The largest count of a file page.
pub const MAX_COUNT: u64 = u64::MAX >> 4;

/// What a word says of its page.
#[derive(Clone, Copy, Debug, PartialEq, Eq, Hash)]
pub enum PageInfo {
    /// The head of a free block.
    Free {
        /// Its order.
        order: u64,
        /// The next block on its list, or [`NO_PAGE`](crate::NO_PAGE).
        next: u64,
    },
    /// The head of a granted block, or a boot page.
    Allocated {
        /// Its order.
        order: u64,
    },
    /// A slab page.
    Slab {
        /// Its item size.
        item: u64,
    },
    /// A later page of a block.
    Compound {
        /// The block's order.
        order: u64,
    },
    /// A file page.
    File {
        /// Its reference count.
        count: u64,
    },
    /// A metadata page.
    Reserved,
}

/// What a word says; [`Refusal::No`] if it fits no kind.
pub fn decode(word: u64) -> Result<PageInfo, Refusal> {
    let raw::Fields { number, kind, field, next } = raw::decode(word);
    raw::Answer { number, value: 0, second: 0 }.result()?;
    Ok(match kind {
        0 => PageInfo::Free { order: field, next },
        1 => PageInfo::Allocated { order: field },
        2 => PageInfo::Slab { item: field },
        3 => PageInfo::Compound { order: field },
        4 => PageInfo::File { count: field },
        // 15: the library knows no other kind
        _ => PageInfo::Reserved,
    })
}

/// The word of fields that may be anything; [`Refusal::No`] if no word has them.
pub fn encode(info: PageInfo) -> Result<u64, Refusal> {
    let (kind, field, next) = match info {
        PageInfo::Free { order, next } => (0, order, next),
        PageInfo::Allocated { order } => (1, order, 0),
        PageInfo::Slab { item } => (2, item, 0),
        PageInfo::Compound { order } => (3, order, 0),
        PageInfo::File { count } => (4, count, 0),
        PageInfo::Reserved => (15, 0, 0),
    };
    Ok(raw::encode(kind, field, next).result()?.0)
}

/// The least order whose block holds a size in bytes: 0 for 0, 52 above 2^63. From 131,073 bytes on it is 6 or more,
/// which [`Heap::allocate`](crate::Heap::allocate) refuses.
#[must_use]
pub fn get_order(size: u64) -> u64 {
    raw::get_order(size)
}
