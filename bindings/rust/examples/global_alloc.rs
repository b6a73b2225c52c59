//! A global allocator over a static region, behind a spin lock. `PageHeap` needs no `std`: a monitor takes it as it is.
//!
//! It is a page heap: a request gets a block of 4,096 times a power of two bytes, so a `Box<u8>` costs a page. Where
//! that is too coarse, put an allocator of small items above it. The largest block has 128 KiB.
//!
//! - Sizes are rounded up to blocks. Alignments above a page are refused, since the heap promises no more than a page.
//! - Every refusal of a grant is a null pointer: too large, too aligned, no block free, or the region damaged.
//! - The region is set up at first use, since `std` allocates before `main`. A monitor may call `report` early on.
//! - The words lie beside the region, in an array of their own, so that all code on them is safe. The region's last
//!   pages, which the heap sets aside for them (metadata pages), stay empty: whoever is short of memory lends those.
//! - Whoever holds the lock must not be interrupted by code that allocates, which would then wait for ever. A monitor
//!   masks interrupts before it takes the lock and until it has given it back. No call of the heap waits or allocates.
#![no_std]

use core::alloc::{GlobalAlloc, Layout};
use core::cell::UnsafeCell;
use core::ops::Range;
use core::sync::atomic::{AtomicBool, AtomicUsize, Ordering};
use core::{hint, ptr};
use tingmudra::{get_order, Heap, Refusal, Region, Report, MAX_ORDER, PAGE_SIZE};

/// Memory at a multiple of 4,096.
#[repr(C, align(4096))]
struct Page([u8; PAGE_SIZE as usize]);

/// A heap of `PAGES` pages, 4,096 at most, the metadata pages among them. It is for a static: one that is moved after
/// its first use refuses every call.
pub struct PageHeap<const PAGES: usize> {
    held: AtomicBool,
    refused_frees: AtomicUsize,
    /// What the lock guards.
    kept: UnsafeCell<Kept<PAGES>>,
    /// The region. It is handed out in pieces, so no reference to it is ever made.
    pages: UnsafeCell<[Page; PAGES]>,
}

struct Kept<const PAGES: usize> {
    is_set_up: bool,
    record: Region,
    words: [u64; PAGES],
}

// SAFETY: `kept` is used under the lock alone, and of `pages` only the address
unsafe impl<const PAGES: usize> Sync for PageHeap<PAGES> {}

impl<const PAGES: usize> PageHeap<PAGES> {
    /// A heap that is not set up yet. It is all zeros, so that a static takes no room in the program's file.
    #[allow(clippy::new_without_default)] // a static needs a `const fn`
    pub const fn new() -> Self {
        let record = Region { next_page: [0; MAX_ORDER], ..Region::EMPTY };
        PageHeap {
            held: AtomicBool::new(false),
            refused_frees: AtomicUsize::new(0),
            kept: UnsafeCell::new(Kept { is_set_up: false, record, words: [0; PAGES] }),
            pages: UnsafeCell::new([const { Page([0; PAGE_SIZE as usize]) }; PAGES]),
        }
    }

    /// Blocks and free blocks of each order.
    pub fn report(&self) -> Result<Report, Refusal> {
        self.locked(|heap| heap.report())
    }

    /// How many calls of `dealloc` were refused.
    pub fn refused_frees(&self) -> usize {
        self.refused_frees.load(Ordering::Relaxed)
    }

    /// Where the region lies.
    pub fn region(&self) -> Range<*const u8> {
        let start = self.start().cast_const();
        start..start.wrapping_add(PAGES * PAGE_SIZE as usize)
    }

    fn start(&self) -> *mut u8 {
        self.pages.get().cast()
    }

    /// Makes a call of the heap with the lock held.
    fn locked<T>(&self, call: impl FnOnce(&mut Heap) -> Result<T, Refusal>) -> Result<T, Refusal> {
        while self.held.swap(true, Ordering::Acquire) {
            while self.held.load(Ordering::Relaxed) {
                hint::spin_loop();
            }
        }
        // SAFETY: this thread took the lock, so no other reference to `kept` lives until it gives it back
        let kept = unsafe { &mut *self.kept.get() };
        let answer = kept.call(self.start() as u64, call);
        self.held.store(false, Ordering::Release);
        answer
    }
}

impl<const PAGES: usize> Kept<PAGES> {
    fn call<T>(&mut self, start: u64, call: impl FnOnce(&mut Heap) -> Result<T, Refusal>) -> Result<T, Refusal> {
        let mut heap = Heap { region: self.record, words: &mut self.words };
        if !self.is_set_up {
            heap.setup(start, PAGES as u64, 0)?;
            self.is_set_up = true;
        } else if (heap.region.start, heap.region.allocated) != (start, 0) {
            // no audit sees these two, so they are compared with what they must be
            return Err(Refusal::Damaged);
        }
        let answer = call(&mut heap);
        self.record = heap.region;
        answer
    }
}

// SAFETY: nothing here unwinds. A block has the order that its size needs, begins at a page of the region, and is
// granted only where none of its pages is still out (`never-twice`, docs/PROMISES.md)
unsafe impl<const PAGES: usize> GlobalAlloc for PageHeap<PAGES> {
    /// A size of 0, which callers must not ask for, gets a page like any other.
    unsafe fn alloc(&self, layout: Layout) -> *mut u8 {
        if layout.align() as u64 > PAGE_SIZE {
            return ptr::null_mut();
        }
        match self.locked(|heap| heap.allocate(get_order(layout.size() as u64))) {
            Ok(address) => self.start().wrapping_add(address.wrapping_sub(self.start() as u64) as usize),
            Err(_) => ptr::null_mut(),
        }
    }

    /// It is refused where no block is out at the address (7, 8, 9), as at a second free, or the region is damaged (4).
    /// Nothing has changed then, and no page can be granted twice for it. `dealloc` may neither answer nor unwind, so
    /// it counts the refusal and goes on; a monitor that would rather stop does so here.
    unsafe fn dealloc(&self, block: *mut u8, _: Layout) {
        if self.locked(|heap| heap.free(block as u64)).is_err() {
            self.refused_frees.fetch_add(1, Ordering::Relaxed);
        }
    }

    /// Where the new size has the same order the block stays; else it is the trait's own `realloc`.
    unsafe fn realloc(&self, block: *mut u8, layout: Layout, size: usize) -> *mut u8 {
        if get_order(size as u64) == get_order(layout.size() as u64) {
            return block;
        }
        // SAFETY: the caller sees to it that a layout can have this size
        let new = unsafe { self.alloc(Layout::from_size_align_unchecked(size, layout.align())) };
        if !new.is_null() {
            // SAFETY: both blocks are out, so they lie apart, and each has that many bytes
            unsafe { ptr::copy_nonoverlapping(block, new, layout.size().min(size)) };
            // SAFETY: the caller hands the block over
            unsafe { self.dealloc(block, layout) };
        }
        new
    }
}

// So much for the allocator; from here on it is a program that uses it, with `alloc` as in a monitor and with threads.

extern crate alloc;
extern crate std;

use alloc::{boxed::Box, collections::BTreeMap, format, vec::Vec};
use std::{eprintln, panic, println, thread};

// the tests have heaps of their own, and run on the system's allocator
#[cfg_attr(not(test), global_allocator)]
static HEAP: PageHeap<4096> = PageHeap::new();

fn main() -> Result<(), Refusal> {
    // without a backtrace, for which `std` asks for more than 128 KiB at once
    panic::set_hook(Box::new(|panic| eprintln!("{panic}")));

    let boxed = Box::new([7_u8; 5000]);
    assert!(HEAP.region().contains(&boxed.as_ptr()));
    println!("a box of {} bytes at {:p}", boxed.len(), boxed);

    let names: BTreeMap<_, _> = (0..100).map(|n| (n, format!("page {n}"))).collect();
    println!("{} strings in a map, the last '{}'", names.len(), names[&99]);

    let threads: Vec<_> = (0..4_u64).map(|n| thread::spawn(move || (0..1000).map(|m| n * m).collect())).collect();
    let lists: Vec<Vec<u64>> = threads.into_iter().map(|thread| thread.join().expect("no panic")).collect();
    println!("{} numbers from {} threads", lists.concat().len(), lists.len());

    // a null pointer is an error here; `Box::new` and `Vec::with_capacity` end the program on one
    #[repr(align(8192))]
    struct Wide;
    println!("128 KiB and a byte: {}", Vec::<u8>::new().try_reserve_exact(128 * 1024 + 1).expect_err("refused"));
    println!("at a multiple of 8,192: {}", Vec::<(Wide, u8)>::new().try_reserve_exact(1).expect_err("refused"));

    println!("{}\nfrees refused: {}", HEAP.report()?, HEAP.refused_frees());
    Ok(())
}

#[cfg(test)]
mod tests {
    use super::*;

    const PAGE: usize = PAGE_SIZE as usize;
    const LARGEST: usize = 128 * 1024;
    const ROUNDS: usize = 3000;

    fn layout(size: usize) -> Layout {
        Layout::from_size_align(size, 1).expect("a size")
    }

    fn grant<const PAGES: usize>(heap: &PageHeap<PAGES>, size: usize) -> *mut u8 {
        // SAFETY: this heap takes any layout
        unsafe { heap.alloc(layout(size)) }
    }

    fn free<const PAGES: usize>(heap: &PageHeap<PAGES>, block: *mut u8) {
        // SAFETY: this heap takes any pointer, and no test reads or writes a block that it has freed
        unsafe { heap.dealloc(block, layout(1)) }
    }

    /// All bytes of the block that a size takes.
    fn bytes<'a>(block: *mut u8, size: usize) -> &'a mut [u8] {
        assert!(!block.is_null());
        // SAFETY: the block is out and holds numbers, from the static on; no test has two such slices of it at once
        unsafe { core::slice::from_raw_parts_mut(block, PAGE << get_order(size as u64)) }
    }

    fn are_all(bytes: &[u8], n: u8) -> bool {
        bytes[0] == n && bytes[1..] == bytes[..bytes.len() - 1]
    }

    fn free_kib<const PAGES: usize>(heap: &PageHeap<PAGES>) -> u64 {
        let free_pages = heap.report().expect("a sound region").free_pages;
        (0..).zip(free_pages).map(|(order, count)| (count * 4) << order).sum()
    }

    #[test]
    fn blocks_are_aligned_and_apart() {
        static HEAP: PageHeap<64> = PageHeap::new();
        let fresh = HEAP.report();
        let blocks = [1, PAGE, PAGE + 1, 3 * PAGE, 1, LARGEST].map(|size| (grant(&HEAP, size), size));
        for (n, (block, size)) in (1..).zip(blocks) {
            assert_eq!(block as usize % PAGE, 0);
            bytes(block, size).fill(n);
        }
        let Range { start, end } = HEAP.region();
        for (n, (block, size)) in (1..).zip(blocks) {
            let bytes = bytes(block, size);
            assert!(are_all(bytes, n), "blocks overlap");
            let range = bytes.as_ptr_range();
            assert!(start <= range.start && range.end <= end.wrapping_sub(PAGE), "outside, or in the metadata page");
            free(&HEAP, block);
        }
        assert_eq!((HEAP.report(), HEAP.refused_frees()), (fresh, 0));
    }

    #[test]
    fn sizes_are_rounded_up() {
        static HEAP: PageHeap<64> = PageHeap::new();
        assert_eq!(free_kib(&HEAP), 63 * 4);
        // no caller may ask for a size of 0, but it does no harm
        for (size, kib) in [(0, 4), (1, 4), (PAGE, 4), (PAGE + 1, 8), (5 * PAGE, 32), (LARGEST, 128)] {
            let block = grant(&HEAP, size);
            assert!(!block.is_null());
            assert_eq!(free_kib(&HEAP), 63 * 4 - kib, "size {size}");
            free(&HEAP, block);
            assert_eq!(free_kib(&HEAP), 63 * 4);
        }
    }

    #[test]
    fn refusals_are_null() {
        static HEAP: PageHeap<64> = PageHeap::new();
        for size in [LARGEST + 1, isize::MAX as usize] {
            assert!(grant(&HEAP, size).is_null());
        }
        for (align, granted) in [(64, true), (PAGE, true), (2 * PAGE, false), (1 << 40, false)] {
            let layout = Layout::from_size_align(1, align).expect("an alignment");
            // SAFETY: as in `grant`
            let block = unsafe { HEAP.alloc(layout) };
            assert_eq!(!block.is_null(), granted, "alignment {align}");
            assert_eq!(block as usize % align, 0);
        }
        let blocks = [(); 64 - 2].map(|()| grant(&HEAP, 1));
        let full = blocks.iter().position(|block| block.is_null());
        assert_eq!((full, free_kib(&HEAP)), (Some(63 - 2), 0));
        free(&HEAP, blocks[7]);
        assert!(grant(&HEAP, PAGE + 1).is_null());
        assert_eq!(grant(&HEAP, PAGE), blocks[7]);

        static TOO_MANY: PageHeap<4097> = PageHeap::new();
        assert!(grant(&TOO_MANY, 1).is_null());
        assert_eq!(TOO_MANY.report(), Err(Refusal::BadCount));
    }

    #[test]
    fn threads_lose_nothing() {
        static HEAP: PageHeap<256> = PageHeap::new();
        let fresh = HEAP.report();
        thread::scope(|scope| {
            for n in 1..=8 {
                scope.spawn(move || hammer(&HEAP, n));
            }
        });
        assert_eq!((HEAP.report(), HEAP.refused_frees()), (fresh, 0));
    }

    /// Takes and frees blocks of all orders, each filled with the thread's number for as long as it is out.
    fn hammer(heap: &PageHeap<256>, n: u8) {
        let mut out = Vec::new();
        for round in 0..ROUNDS {
            let size = PAGE << ((round + n as usize) % MAX_ORDER);
            let block = grant(heap, size);
            if !block.is_null() {
                bytes(block, size).fill(n);
                out.push((block, size));
            }
            if block.is_null() || round % 7 == 0 || round == ROUNDS - 1 {
                for (block, size) in out.drain(..) {
                    assert!(are_all(bytes(block, size), n), "another thread has this block too");
                    free(heap, block);
                }
            }
        }
    }

    #[test]
    fn realloc_keeps_contents() {
        static HEAP: PageHeap<64> = PageHeap::new();
        // SAFETY: blocks and sizes are those of the call before
        let realloc = |block, size, new| unsafe { HEAP.realloc(block, layout(size), new) };
        let text: Vec<u8> = (0..=255).cycle().take(PAGE).collect();

        let small = grant(&HEAP, 100);
        assert_eq!(realloc(small, 100, PAGE), small, "the same order");
        bytes(small, PAGE).copy_from_slice(&text);
        let large = realloc(small, PAGE, PAGE + 1);
        assert_ne!(large, small);
        assert_eq!(bytes(large, PAGE), text);
        assert_eq!(free_kib(&HEAP), 63 * 4 - 8, "the small block is back");

        assert!(realloc(large, PAGE + 1, LARGEST + 1).is_null());
        assert_eq!(bytes(large, PAGE), text, "a refusal leaves the block");
        let small = realloc(large, PAGE + 1, 1000);
        assert_eq!(bytes(small, 1000)[..1000], text[..1000]);
        free(&HEAP, small);
        assert_eq!((free_kib(&HEAP), HEAP.refused_frees()), (63 * 4, 0));
    }

    #[test]
    fn zeroed_is_zero() {
        static HEAP: PageHeap<64> = PageHeap::new();
        let block = grant(&HEAP, PAGE);
        bytes(block, PAGE).fill(7);
        free(&HEAP, block);
        // SAFETY: as in `grant`
        assert_eq!(unsafe { HEAP.alloc_zeroed(layout(PAGE)) }, block);
        assert!(are_all(bytes(block, PAGE), 0));
    }

    #[test]
    fn wrong_frees_are_refused() {
        static HEAP: PageHeap<64> = PageHeap::new();
        let (freed, block) = (grant(&HEAP, PAGE), grant(&HEAP, 2 * PAGE));
        free(&HEAP, freed);
        let before = HEAP.report();
        let metadata = HEAP.start().wrapping_add(63 * PAGE);
        let wrong = [freed, block.wrapping_add(1), block.wrapping_add(PAGE), metadata, ptr::null_mut(), &mut 0];
        for (n, wrong) in (1..).zip(wrong) {
            free(&HEAP, wrong);
            assert_eq!((HEAP.report(), HEAP.refused_frees()), (before, n));
        }
        assert_ne!(grant(&HEAP, PAGE), grant(&HEAP, PAGE), "freed twice and granted once");
    }

    #[test]
    fn damage_is_refused() {
        let damages: [(fn(&mut Kept<16>), _); 3] = [
            (|kept| kept.words[5] = 0x63, Err(Refusal::Damaged)),
            // what no audit sees
            (|kept| kept.record.start += PAGE_SIZE, Ok(())),
            (|kept| (kept.record.allocated, kept.record.nr_pages[0]) = (1, 14), Ok(())),
        ];
        for (damage, audit) in damages {
            let mut heap = PageHeap::new();
            let blocks = [(); 15].map(|()| grant(&heap, 1));
            let kept = heap.kept.get_mut();
            damage(kept);
            assert_eq!(Heap { region: kept.record, words: &mut kept.words }.audit(), audit);
            assert_eq!(heap.report(), Err(Refusal::Damaged));
            free(&heap, blocks[3]);
            assert_eq!(heap.refused_frees(), 1);
            assert!(grant(&heap, 1).is_null());
        }
    }

    #[test]
    fn a_moved_heap_refuses() {
        let heap = PageHeap::<16>::new();
        assert!(!grant(&heap, 1).is_null());
        let moved = Box::new(heap);
        assert!(grant(&moved, 1).is_null());
        assert_eq!(moved.report(), Err(Refusal::Damaged));
    }
}
