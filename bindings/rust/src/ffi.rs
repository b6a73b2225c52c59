//! The exported functions, and all the unsafe code there is.
//!
//! A slice is passed as its pointer and its length. That is all that a caller owes the library: its promises have no
//! precondition, and Rust's borrows see to it that buffers live, do not overlap and are not used by two threads at once.

use crate::raw::{Answer, Fields, RECORD};
use crate::Region;

mod exported {
    use super::{Answer, Fields};

    extern "C" {
        pub fn tingmudra_empty_region(record: *mut u64, record_len: usize) -> Answer;
        pub fn tingmudra_root_mem_init(
            record: *mut u64,
            record_len: usize,
            words: *mut u64,
            words_len: usize,
            start: u64,
            page_count: u64,
            allocated: u64,
        ) -> Answer;
        pub fn tingmudra_allocate_pages(
            record: *mut u64,
            record_len: usize,
            words: *mut u64,
            words_len: usize,
            order: u64,
        ) -> Answer;
        pub fn tingmudra_allocate_file_page(
            record: *mut u64,
            record_len: usize,
            words: *mut u64,
            words_len: usize,
        ) -> Answer;
        pub fn tingmudra_allocate_slab_page(
            record: *mut u64,
            record_len: usize,
            words: *mut u64,
            words_len: usize,
            item_size: u64,
        ) -> Answer;
        pub fn tingmudra_free_page(
            record: *mut u64,
            record_len: usize,
            words: *mut u64,
            words_len: usize,
            address: u64,
        ) -> Answer;
        pub fn tingmudra_get_file_page(
            record: *const u64,
            record_len: usize,
            words: *mut u64,
            words_len: usize,
            address: u64,
        ) -> Answer;
        pub fn tingmudra_put_file_page(
            record: *mut u64,
            record_len: usize,
            words: *mut u64,
            words_len: usize,
            address: u64,
        ) -> Answer;
        pub fn tingmudra_layout_from_ptr(
            record: *const u64,
            record_len: usize,
            words: *const u64,
            words_len: usize,
            address: u64,
        ) -> Answer;
        pub fn tingmudra_memory_info(
            record: *const u64,
            record_len: usize,
            words: *const u64,
            words_len: usize,
            report: *mut u64,
            report_len: usize,
        ) -> Answer;
        pub fn tingmudra_audit(record: *const u64, record_len: usize, words: *const u64, words_len: usize) -> Answer;
        pub fn tingmudra_decode(word: u64) -> Fields;
        pub fn tingmudra_encode(kind: u64, field: u64, next: u64) -> Answer;
        pub fn tingmudra_get_order(size: u64) -> u64;
    }
}

/// A record as its numbers, to read.
pub fn numbers(region: &Region) -> &[u64] {
    const { assert!(size_of::<Region>() == RECORD * size_of::<u64>()) };
    // SAFETY: a `Region` is `repr(C)` and made of `RECORD` numbers, with nothing between them
    unsafe { core::slice::from_raw_parts((region as *const Region).cast(), RECORD) }
}

/// A record as its numbers, to write.
pub fn numbers_mut(region: &mut Region) -> &mut [u64] {
    // SAFETY: as above; any numbers are a `Region`
    unsafe { core::slice::from_raw_parts_mut((region as *mut Region).cast(), RECORD) }
}

/// Passes slices as pointers and lengths, then the numbers.
macro_rules! call {
    ($name:ident; $($read:ident),*; $($written:ident),*; $($number:ident),*) => {
        // SAFETY: the module's comment
        unsafe { exported::$name($($read.as_ptr(), $read.len(),)* $($written.as_mut_ptr(), $written.len(),)* $($number),*) }
    };
}

/// Makes a record that of a region without pages.
pub fn empty_region(record: &mut [u64]) -> Answer {
    call!(tingmudra_empty_region; ; record; )
}

/// Sets a region up.
pub fn root_mem_init(record: &mut [u64], words: &mut [u64], start: u64, page_count: u64, allocated: u64) -> Answer {
    call!(tingmudra_root_mem_init; ; record, words; start, page_count, allocated)
}

/// Grants a block of 2^order pages.
pub fn allocate_pages(record: &mut [u64], words: &mut [u64], order: u64) -> Answer {
    call!(tingmudra_allocate_pages; ; record, words; order)
}

/// Grants a file page.
pub fn allocate_file_page(record: &mut [u64], words: &mut [u64]) -> Answer {
    call!(tingmudra_allocate_file_page; ; record, words; )
}

/// Grants a slab page.
pub fn allocate_slab_page(record: &mut [u64], words: &mut [u64], item_size: u64) -> Answer {
    call!(tingmudra_allocate_slab_page; ; record, words; item_size)
}

/// Frees what was granted at an address.
pub fn free_page(record: &mut [u64], words: &mut [u64], address: u64) -> Answer {
    call!(tingmudra_free_page; ; record, words; address)
}

/// Counts one more reference to a file page.
pub fn get_file_page(record: &[u64], words: &mut [u64], address: u64) -> Answer {
    call!(tingmudra_get_file_page; record; words; address)
}

/// Counts one reference less to a file page.
pub fn put_file_page(record: &mut [u64], words: &mut [u64], address: u64) -> Answer {
    call!(tingmudra_put_file_page; ; record, words; address)
}

/// Size and alignment of what the page around an address was granted as.
pub fn layout_from_ptr(record: &[u64], words: &[u64], address: u64) -> Answer {
    call!(tingmudra_layout_from_ptr; record, words; ; address)
}

/// Writes blocks and free blocks of each order to a report of twelve numbers.
pub fn memory_info(record: &[u64], words: &[u64], report: &mut [u64]) -> Answer {
    call!(tingmudra_memory_info; record, words; report; )
}

/// Whether record and words are sound.
pub fn audit(record: &[u64], words: &[u64]) -> Answer {
    call!(tingmudra_audit; record, words; ; )
}

/// What a page's word says.
pub fn decode(word: u64) -> Fields {
    call!(tingmudra_decode; ; ; word)
}

/// The word of raw fields, by the kind's number.
pub fn encode(kind: u64, field: u64, next: u64) -> Answer {
    call!(tingmudra_encode; ; ; kind, field, next)
}

/// The least order whose block holds a size in bytes.
pub fn get_order(size: u64) -> u64 {
    call!(tingmudra_get_order; ; ; size)
}
