/*
 * Tingmudra: a proved page heap, for C99 and C++. Link with one of these archives, which have the same functions:
 *   - target/staticlib/libabi.a, which `bindings/module abi_c target/staticlib/libabi.a` writes: for user space on x86-64
 *     with SSE4.2 (x86-64-v2). It uses vector registers and the red zone, so it is not for a kernel;
 *   - target/kernel/MACHINE/libabi.a, which `bindings/kernel` writes, MACHINE being x86_64 or aarch64: for kernels and
 *     monitors. General registers only, no red zone, position-independent;
 *   - OUT.a, which `bindings/module --for aarch64 abi_c OUT.a` writes: for user space on Arm.
 * The kit makes all of them on x86-64.
 *
 * A region is a record (struct tingmudra_region) and one word a page, lent by the caller. Keep both together and hand
 * each call what the last one left. Call the tm_ functions below; they pass the record's length and refuse NULL.
 *
 * A call answers a number, 0 or that of a refusal, and up to two values; what is not said to carry a value answers 0
 * there. A refusal changes no word and no number, but for set-up, whose refusals 1 to 3 leave the empty record. Every
 * call but tm_empty, tm_setup, tm_decode, tm_encode and tm_get_order audits record and words first. The checks go by
 * the refusals' numbers, the lowest first, but TINGMUDRA_BAD_BUFFER comes before all.
 *
 * Where things lie:
 *   - page p lies at start + 4096 * p;
 *   - the first pages are the boot pages, as many as set-up is told. The last are the metadata pages: 8 * pages / 4096,
 *     rounded up. The heap grants neither: 64 pages with 3 boot pages have 60 to grant and to report, 240 KiB;
 *   - the words lie in the buffer that the caller lends. That may be memory anywhere, or the metadata pages themselves,
 *     which begin at start + 4096 * (pages - metadata pages);
 *   - to the heap an address is a number: it touches no page of the region, but for words that lie there.
 *
 * A call that audits answers 4 exactly where record and words are not sound together. Damage that leaves them sound is
 * not seen by any call (docs/EXCEPTIONS.md), such as:
 *   - a start that was moved to another page: every address is then wrong by as much;
 *   - a boot count that was changed together with a block count: a boot page can then be freed, and granted;
 *   - the count of a file page, or the item size of a slab page;
 *   - a block of one kind that was made one of another: allocated of order 0, slab page, file page;
 *   - an older sound state that was put back: what was granted since then can be granted again.
 *
 * What the library cannot check, and its caller must see to:
 *   - a buffer is as long as its caller says, and lies at a multiple of 8;
 *   - record, words and report do not overlap;
 *   - no two threads use one region at once;
 *   - the record's start and boot count are those of set-up. Keep them where nothing else writes, and compare.
 */
#ifndef TINGMUDRA_H
#define TINGMUDRA_H

#include <stddef.h>
#include <stdint.h>

#ifdef __cplusplus
extern "C" {
#endif

#define TINGMUDRA_VERSION "0.3.0"
#define TINGMUDRA_PAGE_SIZE 4096
#define TINGMUDRA_MAX_PAGES 4096
#define TINGMUDRA_MAX_ORDER 6            /* orders are 0 to 5 */
#define TINGMUDRA_REPORT 12              /* the length of a report */
#define TINGMUDRA_NO_PAGE UINT64_MAX     /* the head of an empty list, and the next page of a last block */
#define TINGMUDRA_MAX_ITEM 65535
#define TINGMUDRA_MAX_COUNT (UINT64_MAX >> 4)

/*
 * What an answer's number says. Those below 0x40000000 are the heap's refusals, by docs/RULES.md's numbers; a later
 * version may have more of them, so a switch needs a default. Those from 0x40000000 on are the boundary's own, and
 * never a refusal of the heap's.
 */
enum tingmudra_refusal {
    TINGMUDRA_OK = 0,
    TINGMUDRA_BAD_COUNT = 1,             /* set-up: pages 0 or above 4,096, or another number of words */
    TINGMUDRA_BAD_START = 2,             /* set-up: start no multiple of 4,096, or the end above 2^64 - 1 */
    TINGMUDRA_TOO_MANY_BOOT = 3,         /* set-up: more boot pages than pages that are not metadata */
    TINGMUDRA_DAMAGED = 4,               /* record and words are not sound together */
    TINGMUDRA_INVALID_PAGE_ORDER = 5,    /* carries the order: 6 or above */
    TINGMUDRA_OUT_OF_MEMORY = 6,         /* no free block of that order or a higher one */
    TINGMUDRA_INVALID_HEAP_ADDRESS = 7,  /* carries the address: outside the region or, but for lookup, inside a page */
    TINGMUDRA_BOOT_PAGE = 8,             /* carries the address: free of a boot page */
    TINGMUDRA_INVALID_PAGE_TYPE = 9,     /* carries the address: nothing was granted at its page; lookup: or a file page was */
    TINGMUDRA_INVALID_FILE_PAGE = 10,    /* carries the address: no file page */
    TINGMUDRA_REF_FULL = 11,             /* carries the address: get at count 2^60 - 1 */
    TINGMUDRA_INVALID_ITEM = 12,         /* carries the item size: 0 or above 65,535 */
    TINGMUDRA_BAD_BUFFER = 0x40000000,   /* a null pointer, or a record or report of another length */
    TINGMUDRA_NO = 0x40000001            /* encode, decode: no word has these fields, or no fields this word */
};

/* A page's type, by its number in the page's word. */
enum tingmudra_kind {
    TINGMUDRA_FREE = 0,
    TINGMUDRA_ALLOCATED = 1,
    TINGMUDRA_SLAB = 2,
    TINGMUDRA_COMPOUND = 3,
    TINGMUDRA_FILE = 4,
    TINGMUDRA_RESERVED = 15
};

/* The region record: 21 numbers. */
struct tingmudra_region {
    uint64_t start;                             /* the address of page 0 */
    uint64_t page_count;
    uint64_t allocated;                         /* boot pages: never granted, never freed */
    uint64_t nr_pages[TINGMUDRA_MAX_ORDER];     /* blocks of each order */
    uint64_t free_pages[TINGMUDRA_MAX_ORDER];   /* free blocks of each order */
    uint64_t next_page[TINGMUDRA_MAX_ORDER];    /* the head of each free list, or TINGMUDRA_NO_PAGE */
};

struct tingmudra_answer {
    uint64_t number;                            /* an enum tingmudra_refusal, or a later version's refusal */
    uint64_t value;
    uint64_t second;
};

/* What a word says of its page. */
struct tingmudra_fields {
    uint64_t number;                            /* 0, or TINGMUDRA_NO and zeros */
    uint64_t kind;                              /* an enum tingmudra_kind */
    uint64_t field;                             /* order, item size or count; 0 for a Reserved page */
    uint64_t next;                              /* a Free page's next page; 0 for other kinds */
};

/* The record is its 21 numbers and nothing between them. */
typedef char tingmudra_record_is_21_numbers
    [sizeof(struct tingmudra_region) == 21 * 8 && offsetof(struct tingmudra_region, next_page) == 15 * 8 ? 1 : -1];
typedef char tingmudra_answer_is_3_numbers[sizeof(struct tingmudra_answer) == 3 * 8 ? 1 : -1];
typedef char tingmudra_fields_are_4_numbers[sizeof(struct tingmudra_fields) == 4 * 8 ? 1 : -1];

/*
 * RAW: what the library exports. Every buffer is a pointer and a length in numbers. A record of any other length than
 * 21, or a report of any other than 12, is refused with TINGMUDRA_BAD_BUFFER; a null pointer with a length cannot be
 * seen.
 */
struct tingmudra_answer tingmudra_empty_region(uint64_t *record, size_t record_len);
struct tingmudra_answer tingmudra_root_mem_init(uint64_t *record, size_t record_len, uint64_t *words, size_t words_len,
                                                uint64_t start, uint64_t page_count, uint64_t allocated);
struct tingmudra_answer tingmudra_allocate_pages(uint64_t *record, size_t record_len, uint64_t *words,
                                                 size_t words_len, uint64_t order);
struct tingmudra_answer tingmudra_allocate_file_page(uint64_t *record, size_t record_len, uint64_t *words,
                                                     size_t words_len);
struct tingmudra_answer tingmudra_allocate_slab_page(uint64_t *record, size_t record_len, uint64_t *words,
                                                     size_t words_len, uint64_t item_size);
struct tingmudra_answer tingmudra_free_page(uint64_t *record, size_t record_len, uint64_t *words, size_t words_len,
                                            uint64_t address);
struct tingmudra_answer tingmudra_get_file_page(const uint64_t *record, size_t record_len, uint64_t *words,
                                                size_t words_len, uint64_t address);
struct tingmudra_answer tingmudra_put_file_page(uint64_t *record, size_t record_len, uint64_t *words,
                                                size_t words_len, uint64_t address);
struct tingmudra_answer tingmudra_layout_from_ptr(const uint64_t *record, size_t record_len, const uint64_t *words,
                                                  size_t words_len, uint64_t address);
struct tingmudra_answer tingmudra_memory_info(const uint64_t *record, size_t record_len, const uint64_t *words,
                                              size_t words_len, uint64_t *report, size_t report_len);
struct tingmudra_answer tingmudra_audit(const uint64_t *record, size_t record_len, const uint64_t *words,
                                        size_t words_len);
struct tingmudra_fields tingmudra_decode(uint64_t word);
struct tingmudra_answer tingmudra_encode(uint64_t kind, uint64_t field, uint64_t next);
uint64_t tingmudra_get_order(uint64_t size);

/* The record as the numbers that the raw functions take. */
#define TINGMUDRA_RECORD(region) (uint64_t *)(void *)(region), sizeof(struct tingmudra_region) / sizeof(uint64_t)
#define TINGMUDRA_RECORD_READ(region) \
    (const uint64_t *)(const void *)(region), sizeof(struct tingmudra_region) / sizeof(uint64_t)

static inline struct tingmudra_answer tingmudra_bad_buffer(void)
{
    struct tingmudra_answer answer = {TINGMUDRA_BAD_BUFFER, 0, 0};
    return answer;
}

/*
 * The name of an answer's number: "Ok" for 0, the refusal's as docs/RULES.md has it ("BadCount" to "InvalidItem"),
 * "BadBuffer" or "No", and "Unknown" for any other. Never NULL.
 */
static inline const char *tm_refusal_name(uint64_t number)
{
    switch (number) {
    case TINGMUDRA_OK: return "Ok";
    case TINGMUDRA_BAD_COUNT: return "BadCount";
    case TINGMUDRA_BAD_START: return "BadStart";
    case TINGMUDRA_TOO_MANY_BOOT: return "TooManyBoot";
    case TINGMUDRA_DAMAGED: return "Damaged";
    case TINGMUDRA_INVALID_PAGE_ORDER: return "InvalidPageOrder";
    case TINGMUDRA_OUT_OF_MEMORY: return "OutOfMemory";
    case TINGMUDRA_INVALID_HEAP_ADDRESS: return "InvalidHeapAddress";
    case TINGMUDRA_BOOT_PAGE: return "BootPage";
    case TINGMUDRA_INVALID_PAGE_TYPE: return "InvalidPageType";
    case TINGMUDRA_INVALID_FILE_PAGE: return "InvalidFilePage";
    case TINGMUDRA_REF_FULL: return "RefFull";
    case TINGMUDRA_INVALID_ITEM: return "InvalidItem";
    case TINGMUDRA_BAD_BUFFER: return "BadBuffer";
    case TINGMUDRA_NO: return "No";
    default: return "Unknown";
    }
}

/*
 * THE CALLS. `words` is one word a page, `count` their number. A null pointer is refused with TINGMUDRA_BAD_BUFFER by
 * every call.
 */

/* Makes the record that of a region without pages: counts 0, lists empty, start and boot pages 0. */
static inline struct tingmudra_answer tm_empty(struct tingmudra_region *region)
{
    return region ? tingmudra_empty_region(TINGMUDRA_RECORD(region)) : tingmudra_bad_buffer();
}

/*
 * Sets a region up: `page_count` pages from `start` on, the first `allocated` of them boot pages. What record and words
 * held plays no part. Refuses with 1, 2 or 3: the words stay as they were, and the record is the empty one.
 */
static inline struct tingmudra_answer tm_setup(struct tingmudra_region *region, uint64_t *words, size_t count,
                                               uint64_t start, uint64_t page_count, uint64_t allocated)
{
    return region && words
        ? tingmudra_root_mem_init(TINGMUDRA_RECORD(region), words, count, start, page_count, allocated)
        : tingmudra_bad_buffer();
}

/* Grants a block of 2^order pages; the value is its address. Refuses with 4, 5 (the order) or 6. */
static inline struct tingmudra_answer tm_allocate(struct tingmudra_region *region, uint64_t *words, size_t count,
                                                  uint64_t order)
{
    return region && words ? tingmudra_allocate_pages(TINGMUDRA_RECORD(region), words, count, order)
                           : tingmudra_bad_buffer();
}

/* Grants a file page with count 1; the value is its address. Refuses with 4 or 6. */
static inline struct tingmudra_answer tm_allocate_file(struct tingmudra_region *region, uint64_t *words, size_t count)
{
    return region && words ? tingmudra_allocate_file_page(TINGMUDRA_RECORD(region), words, count)
                           : tingmudra_bad_buffer();
}

/* Grants a slab page for items of a size; the value is its address. Refuses with 4, 6 or 12 (the item size). */
static inline struct tingmudra_answer tm_allocate_slab(struct tingmudra_region *region, uint64_t *words, size_t count,
                                                       uint64_t item_size)
{
    return region && words ? tingmudra_allocate_slab_page(TINGMUDRA_RECORD(region), words, count, item_size)
                           : tingmudra_bad_buffer();
}

/*
 * Frees the block, file page (whatever its count) or slab page that was granted at an address, and merges it with its
 * free buddies. Refuses with 4, 7, 8 or 9 (each but 4 with the address).
 */
static inline struct tingmudra_answer tm_free(struct tingmudra_region *region, uint64_t *words, size_t count,
                                              uint64_t address)
{
    return region && words ? tingmudra_free_page(TINGMUDRA_RECORD(region), words, count, address)
                           : tingmudra_bad_buffer();
}

/*
 * Counts one more reference to a file page; the value is the new count. The record stays as it is. Refuses with 4, 7,
 * 10 or 11 (each but 4 with the address).
 */
static inline struct tingmudra_answer tm_get(const struct tingmudra_region *region, uint64_t *words, size_t count,
                                             uint64_t address)
{
    return region && words ? tingmudra_get_file_page(TINGMUDRA_RECORD_READ(region), words, count, address)
                           : tingmudra_bad_buffer();
}

/*
 * Counts one reference less to a file page; the value is the new count, and at 0 the page is free. Refuses with 4, 7 or
 * 10 (each but 4 with the address).
 */
static inline struct tingmudra_answer tm_put(struct tingmudra_region *region, uint64_t *words, size_t count,
                                             uint64_t address)
{
    return region && words ? tingmudra_put_file_page(TINGMUDRA_RECORD(region), words, count, address)
                           : tingmudra_bad_buffer();
}

/*
 * What the page around an address was granted as: the value is its size, the second its alignment. A block answers its
 * bytes and 4,096 on its first page, a slab page its item size twice, a boot page 4,096 twice. Refuses with 4, 7 or 9
 * (each but 4 with the address); a file page and the later pages of a block are refused with 9. Changes nothing.
 */
static inline struct tingmudra_answer tm_lookup(const struct tingmudra_region *region, const uint64_t *words,
                                                size_t count, uint64_t address)
{
    return region && words ? tingmudra_layout_from_ptr(TINGMUDRA_RECORD_READ(region), words, count, address)
                           : tingmudra_bad_buffer();
}

/*
 * Writes the blocks of orders 0 to 5, then the free blocks of orders 0 to 5, to `report`. Refuses with 4 and leaves the
 * report as it was. Changes nothing else.
 */
static inline struct tingmudra_answer tm_report(const struct tingmudra_region *region, const uint64_t *words,
                                                size_t count, uint64_t report[TINGMUDRA_REPORT])
{
    return region && words && report
        ? tingmudra_memory_info(TINGMUDRA_RECORD_READ(region), words, count, report, TINGMUDRA_REPORT)
        : tingmudra_bad_buffer();
}

/*
 * Whether record and words are sound together: 0 or 4. That they are those which the last call left it does not say.
 * Changes nothing.
 */
static inline struct tingmudra_answer tm_audit(const struct tingmudra_region *region, const uint64_t *words,
                                               size_t count)
{
    return region && words ? tingmudra_audit(TINGMUDRA_RECORD_READ(region), words, count) : tingmudra_bad_buffer();
}

/* What a page's word says. Refuses with TINGMUDRA_NO a word that fits no type. */
static inline struct tingmudra_fields tm_decode(uint64_t word)
{
    return tingmudra_decode(word);
}

/*
 * The word of raw fields, as its value: order, item size or count, and a Free page's next page or TINGMUDRA_NO_PAGE; a
 * field that the kind does not have is 0. Refuses with TINGMUDRA_NO if no word has them.
 */
static inline struct tingmudra_answer tm_encode(uint64_t kind, uint64_t field, uint64_t next)
{
    return tingmudra_encode(kind, field, next);
}

/* The least order whose block holds a size in bytes: 0 for 0, 52 above 2^63. An order itself, and never refused. */
static inline uint64_t tm_get_order(uint64_t size)
{
    return tingmudra_get_order(size);
}

#ifdef __cplusplus
}
#endif

#endif
