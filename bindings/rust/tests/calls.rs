//! Holds the static library, through the safe module, to document 01: every call, every refusal, every buffer.

use std::mem::{offset_of, size_of};
use tingmudra::raw::{self, Answer, Fields};
use tingmudra::{decode, encode, get_order, Heap, Layout, PageInfo, Refusal, Region, Report};
use tingmudra::{MAX_COUNT, MAX_ITEM, MAX_ORDER, NO_PAGE, PAGE_SIZE};

const START: u64 = 1_048_576;
const PAGES: u64 = 64;
/// A word that no call may read or write beyond the lent ones.
const GUARD: u64 = 0xa5a5_a5a5_a5a5_a5a5;

fn at(page: u64) -> u64 {
    START + page * PAGE_SIZE
}

/// Region R of document 01.
fn set_up_r(words: &mut [u64]) -> Heap<'_> {
    let mut heap = Heap::new(words);
    heap.setup(START, PAGES, 3).expect("region R");
    heap
}

/// The pages of a list, from its head on by the words' next pages.
fn list(heap: &Heap, order: u64) -> Vec<u64> {
    let mut pages = Vec::new();
    let mut page = heap.region.next_page[order as usize];
    while page != NO_PAGE {
        pages.push(page);
        match decode(heap.words[page as usize]) {
            Ok(PageInfo::Free { order: found, next }) if found == order => page = next,
            other => panic!("page {page} on list {order}: {other:?}"),
        }
    }
    pages
}

/// Holds that a call is refused and changes nothing.
#[track_caller]
fn refused<T: std::fmt::Debug + PartialEq>(
    heap: &mut Heap,
    call: impl FnOnce(&mut Heap) -> Result<T, Refusal>,
    refusal: Refusal,
) {
    let (region, words) = (heap.region, heap.words.to_vec());
    assert_eq!(call(heap), Err(refusal));
    assert_eq!((heap.region, &*heap.words), (region, &words[..]), "a refusal changes nothing");
}

#[test]
fn sizes_and_offsets() {
    assert_eq!(size_of::<Region>(), 168);
    assert_eq!(offset_of!(Region, start), 0);
    assert_eq!(offset_of!(Region, page_count), 8);
    assert_eq!(offset_of!(Region, allocated), 16);
    assert_eq!(offset_of!(Region, nr_pages), 24);
    assert_eq!(offset_of!(Region, free_pages), 72);
    assert_eq!(offset_of!(Region, next_page), 120);
    assert_eq!(size_of::<Answer>(), 24);
    assert_eq!((offset_of!(Answer, number), offset_of!(Answer, value), offset_of!(Answer, second)), (0, 8, 16));
    assert_eq!(size_of::<Fields>(), 32);
    assert_eq!((offset_of!(Fields, number), offset_of!(Fields, kind)), (0, 8));
    assert_eq!((offset_of!(Fields, field), offset_of!(Fields, next)), (16, 24));
}

#[test]
fn page_words() {
    let cases = [
        (PageInfo::Free { order: 2, next: NO_PAGE }, 0xffff_ffff_ffff_f020),
        (PageInfo::Free { order: 0, next: 3 }, 0x3000),
        (PageInfo::Allocated { order: 1 }, 0x11),
        (PageInfo::Compound { order: 5 }, 0x53),
        (PageInfo::Slab { item: 64 }, 0x402),
        (PageInfo::Slab { item: 6 }, 0x62),
        (PageInfo::File { count: 1 }, 0x14),
        (PageInfo::File { count: MAX_COUNT }, 0xffff_ffff_ffff_fff4),
        (PageInfo::Reserved, 0xf),
    ];
    for (info, word) in cases {
        assert_eq!(encode(info), Ok(word));
        assert_eq!(decode(word), Ok(info));
    }
    for word in [0x63, 0x5, 0x1f] {
        assert_eq!(decode(word), Err(Refusal::No));
        assert_eq!(raw::decode(word), Fields { number: raw::NO, kind: 0, field: 0, next: 0 });
    }
    let no = [
        PageInfo::Allocated { order: 6 },
        PageInfo::Compound { order: u64::MAX },
        PageInfo::Slab { item: MAX_ITEM + 1 },
        PageInfo::File { count: MAX_COUNT + 1 },
        PageInfo::Free { order: 0, next: (1 << 52) - 1 },
    ];
    for info in no {
        assert_eq!(encode(info), Err(Refusal::No));
    }
    for (kind, field, next) in [(5, 0, 0), (1, 1, 1), (15, 1, 0), (u64::MAX, u64::MAX, u64::MAX)] {
        assert_eq!(raw::encode(kind, field, next), Answer { number: raw::NO, value: 0, second: 0 });
    }
}

#[test]
fn orders() {
    let cases =
        [(0, 0), (4096, 0), (4097, 1), (131_072, 5), (131_073, 6), (1 << 63, 51), ((1 << 63) + 1, 52), (u64::MAX, 52)];
    for (size, order) in cases {
        assert_eq!(get_order(size), order, "size {size}");
    }
}

#[test]
fn after_set_up() {
    let mut words = [GUARD; 66];
    let heap = set_up_r(&mut words[1..65]);
    let counts = [2, 1, 2, 2, 2, 0];
    let next_page = [62, 60, 56, 48, 32, NO_PAGE];
    let region =
        Region { start: START, page_count: PAGES, allocated: 3, nr_pages: counts, free_pages: counts, next_page };
    assert_eq!(heap.region, region);
    let lists: [&[u64]; MAX_ORDER] = [&[62, 3], &[60], &[56, 4], &[48, 8], &[32, 16], &[]];
    for (order, pages) in (0..).zip(lists) {
        assert_eq!(list(&heap, order), pages);
    }
    assert_eq!((heap.words[2], heap.words[61], heap.words[63]), (0x1, 0x13, 0xf));
    assert_eq!(heap.audit(), Ok(()));
    assert_eq!(heap.report(), Ok(Report { total_pages: counts, free_pages: counts }));
    assert_eq!((words[0], words[65]), (GUARD, GUARD));
}

#[test]
fn grants() {
    let mut words = [0; 64];
    let mut heap = set_up_r(&mut words);
    assert_eq!(heap.allocate(1), Ok(at(60)));
    assert_eq!(heap.allocate(1), Ok(at(56)));
    assert_eq!((list(&heap, 1), list(&heap, 2)), (vec![58], vec![4]));
    let report = Report { total_pages: [2, 3, 1, 2, 2, 0], free_pages: [2, 1, 1, 2, 2, 0] };
    assert_eq!(heap.report(), Ok(report));
    assert_eq!(heap.lookup(at(56) + 100), Ok(Layout { size: 8192, align: 4096 }));
    assert_eq!(heap.free(at(56)), Ok(()));
    assert_eq!((list(&heap, 1), list(&heap, 2)), (vec![], vec![56, 4]));
    assert_eq!(heap.free(at(60)), Ok(()));
    assert_eq!(heap.allocate(4), Ok(at(32)));
    assert_eq!(heap.allocate(0), Ok(at(62)));
}

#[test]
fn reports_as_text() {
    let report = Report { total_pages: [2, 1, 2, 2, 2, 0], free_pages: [2, 0, 2, 2, 2, 0] };
    let lines = "\
Order-00: total pages:     2 free pages:     2
Order-01: total pages:     1 free pages:     0
Order-02: total pages:     2 free pages:     2
Order-03: total pages:     2 free pages:     2
Order-04: total pages:     2 free pages:     2
Order-05: total pages:     0 free pages:     0
Total memory: 240KiB free memory: 232KiB";
    assert_eq!(report.to_string(), lines);
    let report = Report { total_pages: [u64::MAX; MAX_ORDER], free_pages: [0; MAX_ORDER] };
    assert!(report.to_string().ends_with("Total memory: 18446744073709551615KiB free memory: 0KiB"));
}

#[test]
fn file_and_slab_pages() {
    let mut words = [0; 64];
    let mut heap = set_up_r(&mut words);
    assert_eq!(heap.allocate_file(), Ok(at(62)));
    assert_eq!(decode(heap.words[62]), Ok(PageInfo::File { count: 1 }));
    assert_eq!(heap.get(at(62)), Ok(2));
    assert_eq!(heap.put(at(62)), Ok(1));
    assert_eq!(heap.put(at(62)), Ok(0));
    assert_eq!(list(&heap, 0), [62, 3]);
    assert_eq!(heap.allocate_slab(64), Ok(at(62)));
    assert_eq!(heap.lookup(at(62) + 1), Ok(Layout { size: 64, align: 64 }));
    assert_eq!(heap.free(at(62)), Ok(()));
    assert_eq!(heap.lookup(at(0)), Ok(Layout { size: 4096, align: 4096 }));
}

#[test]
fn refused_set_ups() {
    let cases = [
        (0, START, 0, 0, Refusal::BadCount),
        (0, START, 64, 0, Refusal::BadCount),
        (63, START, 64, 3, Refusal::BadCount),
        (64, START, 65, 3, Refusal::BadCount),
        (4097, START, 4097, 3, Refusal::BadCount),
        (64, START + 1, 65, 64, Refusal::BadCount),
        (64, START + 1, 64, 64, Refusal::BadStart),
        (64, u64::MAX - 4095, 64, 3, Refusal::BadStart),
        (64, START, 64, 64, Refusal::TooManyBoot),
        (64, START, 64, u64::MAX, Refusal::TooManyBoot),
    ];
    for (count, start, pages, boot, refusal) in cases {
        let mut words = vec![GUARD; count];
        let mut heap = Heap { region: Region { start: 7, ..Region::EMPTY }, words: &mut words };
        assert_eq!(heap.setup(start, pages, boot), Err(refusal));
        assert_eq!(heap.region, Region::EMPTY);
        assert!(words.iter().all(|&word| word == GUARD), "a refused set-up writes no word");
    }
}

#[test]
fn refused_requests() {
    let mut words = [0; 64];
    let heap = &mut set_up_r(&mut words);
    refused(heap, |h| h.allocate(5), Refusal::OutOfMemory);
    for order in [6, u64::MAX] {
        refused(heap, |h| h.allocate(order), Refusal::InvalidPageOrder(order));
    }
    for address in [START - 1, at(64), at(5) + 8, u64::MAX] {
        refused(heap, |h| h.free(address), Refusal::InvalidHeapAddress(address));
        refused(heap, |h| h.get(address), Refusal::InvalidHeapAddress(address));
        refused(heap, |h| h.put(address), Refusal::InvalidHeapAddress(address));
    }
    refused(heap, |h| h.lookup(at(64)), Refusal::InvalidHeapAddress(at(64)));
    refused(heap, |h| h.free(at(2)), Refusal::BootPage(at(2)));
    for page in [61, 62, 63] {
        refused(heap, |h| h.free(at(page)), Refusal::InvalidPageType(at(page)));
        refused(heap, |h| h.lookup(at(page) + 7), Refusal::InvalidPageType(at(page) + 7));
    }
    for page in [2, 61, 62, 63] {
        refused(heap, |h| h.get(at(page)), Refusal::InvalidFilePage(at(page)));
        refused(heap, |h| h.put(at(page)), Refusal::InvalidFilePage(at(page)));
    }
    for item in [0, MAX_ITEM + 1] {
        refused(heap, |h| h.allocate_slab(item), Refusal::InvalidItem(item));
    }
}

#[test]
fn full_count() {
    let mut words = [0; 64];
    let heap = &mut set_up_r(&mut words);
    assert_eq!(heap.allocate_file(), Ok(at(62)));
    refused(heap, |h| h.lookup(at(62)), Refusal::InvalidPageType(at(62)));
    heap.words[62] = encode(PageInfo::File { count: MAX_COUNT }).expect("the largest count");
    refused(heap, |h| h.get(at(62)), Refusal::RefFull(at(62)));
    assert_eq!(heap.put(at(62)), Ok(MAX_COUNT - 1));
    assert_eq!(heap.free(at(62)), Ok(()));
}

#[test]
fn out_of_memory() {
    let mut words = [0; 64];
    let heap = &mut set_up_r(&mut words);
    let granted = std::iter::from_fn(|| heap.allocate(0).ok()).count();
    assert_eq!(granted, 60);
    refused(heap, |h| h.allocate(0), Refusal::OutOfMemory);
    refused(heap, |h| h.allocate(6), Refusal::InvalidPageOrder(6));
    refused(heap, |h| h.allocate_file(), Refusal::OutOfMemory);
    refused(heap, |h| h.allocate_slab(0), Refusal::OutOfMemory);
}

/// Holds that every audited call is refused with 4.
#[track_caller]
fn damaged(heap: &mut Heap) {
    refused(heap, |h| h.allocate(6), Refusal::Damaged);
    refused(heap, |h| h.allocate_file(), Refusal::Damaged);
    refused(heap, |h| h.allocate_slab(0), Refusal::Damaged);
    refused(heap, |h| h.free(1), Refusal::Damaged);
    refused(heap, |h| h.get(1), Refusal::Damaged);
    refused(heap, |h| h.put(1), Refusal::Damaged);
    refused(heap, |h| h.lookup(1), Refusal::Damaged);
    refused(heap, |h| h.report(), Refusal::Damaged);
    refused(heap, |h| h.audit(), Refusal::Damaged);
}

#[test]
fn damages() {
    let mut words = [0; 65];
    let region = set_up_r(&mut words[..64]).region;
    for count in [0, 63, 65] {
        damaged(&mut Heap { region, words: &mut words[..count] });
    }
    let words = &mut words[..64];
    damaged(&mut Heap { region: Region { allocated: 4, ..region }, words });
    let heap = &mut Heap { region, words };
    heap.words[10] = 0x63;
    damaged(heap);
    let heap = &mut set_up_r(heap.words);
    heap.words[3] = encode(PageInfo::Free { order: 0, next: 62 }).expect("a list that loops");
    damaged(heap);
    heap.region = Region::EMPTY;
    damaged(heap);
    damaged(&mut Heap::new(&mut []));
}

/// Damage that leaves record and words sound, and what comes of it: no call sees it.
#[test]
fn unseen_damages() {
    let mut words = [0; 64];
    let heap = &mut set_up_r(&mut words);
    heap.region.start += PAGE_SIZE;
    assert_eq!(heap.allocate(0), Ok(at(63)), "page 62 lies elsewhere");

    let heap = &mut set_up_r(heap.words);
    heap.region.allocated = 2;
    heap.region.nr_pages[0] += 1;
    assert_eq!(heap.free(at(2)), Ok(()), "a boot page");

    let heap = &mut set_up_r(heap.words);
    assert_eq!(heap.allocate_file(), Ok(at(62)));
    heap.words[62] = encode(PageInfo::File { count: 7 }).expect("another count");
    assert_eq!(heap.get(at(62)), Ok(8));
    for item in [64, 32] {
        heap.words[62] = encode(PageInfo::Slab { item }).expect("another kind, another item");
        assert_eq!(heap.lookup(at(62)), Ok(Layout { size: item, align: item }));
    }
    heap.words[62] = encode(PageInfo::Allocated { order: 0 }).expect("another kind");
    assert_eq!(heap.lookup(at(62)), Ok(Layout { size: 4096, align: 4096 }));

    let heap = &mut set_up_r(heap.words);
    let older = (heap.region, heap.words.to_vec());
    assert_eq!(heap.allocate(1), Ok(at(60)));
    heap.region = older.0;
    heap.words.copy_from_slice(&older.1);
    assert_eq!(heap.allocate(1), Ok(at(60)), "it is out already");
}

#[test]
fn buffers_of_another_length() {
    let bad = Answer { number: raw::BAD_BUFFER, value: 0, second: 0 };
    assert_eq!(bad.result(), Err(Refusal::BadBuffer));
    let mut words = [GUARD; 64];
    for length in [0, 20, 22] {
        let (record, words, report) = (&mut vec![GUARD; length][..], &mut words, &mut [GUARD; 12]);
        assert_eq!(raw::empty_region(record), bad);
        assert_eq!(raw::root_mem_init(record, words, START, PAGES, 3), bad);
        assert_eq!(raw::allocate_pages(record, words, 0), bad);
        assert_eq!(raw::allocate_file_page(record, words), bad);
        assert_eq!(raw::allocate_slab_page(record, words, 0), bad);
        assert_eq!(raw::free_page(record, words, at(2)), bad);
        assert_eq!(raw::get_file_page(record, words, at(2)), bad);
        assert_eq!(raw::put_file_page(record, words, at(2)), bad);
        assert_eq!(raw::layout_from_ptr(record, words, at(2)), bad);
        assert_eq!(raw::memory_info(record, words, report), bad);
        assert_eq!(raw::audit(record, words), bad);
        assert!(record.iter().chain(&*words).chain(&*report).all(|&number| number == GUARD));
    }
    let mut record = [GUARD; 21];
    assert_eq!(raw::root_mem_init(&mut record, &mut words, START, PAGES, 3).number, 0);
    for length in [0, 11, 13] {
        let mut report = vec![GUARD; length];
        assert_eq!(raw::memory_info(&record, &words, &mut report), bad);
        assert!(report.iter().all(|&number| number == GUARD));
    }
    assert_eq!(raw::audit(&record, &[]).result(), Err(Refusal::Damaged));
    assert_eq!(raw::empty_region(&mut record).number, 0);
    let empty = [[0; 15].as_slice(), &[NO_PAGE; 6]].concat();
    assert_eq!(record[..], empty[..]);
    assert_eq!(raw::root_mem_init(&mut record, &mut [], START, 0, 0).result(), Err(Refusal::BadCount));
}

#[test]
fn numbers_names_and_values() {
    let refusals = [
        (Refusal::BadCount, None),
        (Refusal::BadStart, None),
        (Refusal::TooManyBoot, None),
        (Refusal::Damaged, None),
        (Refusal::InvalidPageOrder(9), Some(9)),
        (Refusal::OutOfMemory, None),
        (Refusal::InvalidHeapAddress(9), Some(9)),
        (Refusal::BootPage(9), Some(9)),
        (Refusal::InvalidPageType(9), Some(9)),
        (Refusal::InvalidFilePage(9), Some(9)),
        (Refusal::RefFull(9), Some(9)),
        (Refusal::InvalidItem(9), Some(9)),
    ];
    let own = [(0x4000_0000, (Refusal::BadBuffer, None)), (0x4000_0001, (Refusal::No, None))];
    for (number, (refusal, value)) in (1..).zip(refusals).chain(own) {
        assert_eq!((refusal.number(), refusal.value()), (number, value));
        let carried = value.map_or(String::new(), |value| format!("({value})"));
        assert_eq!(format!("{refusal:?}"), format!("{}{carried}", refusal.name()));
        assert_eq!(refusal.to_string(), format!("refusal {number}, {refusal:?}"));
        let answer = Answer { number, value: value.unwrap_or(0), second: 0 };
        assert_eq!(answer.result(), Err(refusal));
    }
    assert_eq!((raw::BAD_BUFFER, raw::NO), (0x4000_0000, 0x4000_0001));
}

#[test]
fn unknown_numbers() {
    for number in [13, 14, 23, 0x3fff_ffff, 0x4000_0002, u64::MAX] {
        let refusal = Answer { number, value: 7, second: 8 }.result().expect_err("a refusal");
        assert_eq!(refusal, Refusal::Unknown { number, value: 7, second: 8 });
        assert_eq!((refusal.number(), refusal.name(), refusal.value()), (number, "Unknown", Some(7)));
        assert!(refusal.to_string().starts_with(&format!("refusal {number}, Unknown")));
    }
    assert_eq!(Answer { number: 0, value: 7, second: 8 }.result(), Ok((7, 8)));
}

#[test]
fn other_regions() {
    let mut words = [0; 1024];
    let mut heap = Heap::new(&mut words);
    assert_eq!(heap.setup(START, 1024, 0), Ok(()));
    assert_eq!(heap.region.nr_pages, [0, 1, 1, 1, 1, 31]);
    for (order, page) in [(4, 992), (3, 1008), (2, 1016), (1, 1020)] {
        assert_eq!(list(&heap, order), [page]);
    }
    assert_eq!(heap.words[1021..], [0x13, 0xf, 0xf]);
    assert_eq!(heap.allocate(5), Ok(at(960)));

    let mut heap = Heap::new(&mut words[..1]);
    assert_eq!(heap.setup(START, 1, 0), Ok(()));
    assert_eq!(heap.audit(), Ok(()));
    for order in 0..6 {
        refused(&mut heap, |h| h.allocate(order), Refusal::OutOfMemory);
    }
    let mut heap = Heap::new(&mut words[..513]);
    assert_eq!(heap.setup(START, 513, 0), Ok(()));
    assert_eq!(heap.words[511..], [0xf, 0xf]);
    assert_ne!(heap.words[510], 0xf);
    let mut heap = Heap::new(&mut words[..64]);
    assert_eq!(heap.setup(START, 64, 63), Ok(()));
    assert_eq!(heap.audit(), Ok(()));
}
