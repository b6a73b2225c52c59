//! The calls as the library exports them, on records as slices of numbers and with answers as numbers. Safe, and for
//! those who keep the record as numbers or test the library: a record of any other length than [`RECORD`], and a report
//! of any other than [`REPORT`], is refused with [`BAD_BUFFER`].

pub use crate::ffi::{
    allocate_file_page, allocate_pages, allocate_slab_page, audit, decode, empty_region, encode, free_page,
    get_file_page, get_order, layout_from_ptr, memory_info, put_file_page, root_mem_init,
};

/// The length of a record.
pub const RECORD: usize = 21;
/// The length of a report.
pub const REPORT: usize = 12;
/// The number of [`Refusal::BadBuffer`](crate::Refusal::BadBuffer).
pub const BAD_BUFFER: u64 = 0x4000_0000;
/// The number of [`Refusal::No`](crate::Refusal::No).
pub const NO: u64 = 0x4000_0001;

/// What a call answers: 0 or the number of its refusal, and what it carries, zeros where it carries less.
#[must_use = "a call may be refused"]
#[repr(C)]
#[derive(Clone, Copy, Debug, PartialEq, Eq, Hash)]
pub struct Answer {
    /// 0, or the number of a [`Refusal`](crate::Refusal).
    pub number: u64,
    /// The first value.
    pub value: u64,
    /// The second value.
    pub second: u64,
}

/// A page's fields: 0 where its kind has no such field.
#[repr(C)]
#[derive(Clone, Copy, Debug, PartialEq, Eq, Hash)]
pub struct Fields {
    /// 0, or [`NO`] beside zeros.
    pub number: u64,
    /// The number of the page's type.
    pub kind: u64,
    /// Order, item size or count.
    pub field: u64,
    /// The next page of a Free page.
    pub next: u64,
}
