/* Holds the static library, through tingmudra.h, to document 01: every call, every refusal, every buffer. */
#include "tingmudra.h"

#include <stdio.h>
#include <string.h>

#define START UINT64_C(1048576)
#define NONE TINGMUDRA_NO_PAGE
#define PAGES 64

static int checks, failures;

static void check(int holds, const char *expression, const char *file, int line)
{
    checks++;
    if (!holds) {
        failures++;
        printf("%s:%d: %s\n", file, line, expression);
    }
}

#define CHECK(expression) check((expression) != 0, #expression, __FILE__, __LINE__)

/* A region with numbers around record, words and report that no call may touch. */
struct state {
    uint64_t before;
    struct tingmudra_region region;
    uint64_t between;
    uint64_t words[1024];
    uint64_t beyond;
    uint64_t report[TINGMUDRA_REPORT];
    uint64_t after;
};

static struct state now, kept;
static struct tingmudra_region *const region = &now.region;
static uint64_t *const words = now.words;

static int says(struct tingmudra_answer answer, uint64_t number, uint64_t value, uint64_t second)
{
    return answer.number == number && answer.value == value && answer.second == second;
}

static int unchanged(void)
{
    return memcmp(&now, &kept, sizeof now) == 0;
}

/* Holds that a call answers a refusal with a value, and changes nothing. */
#define REFUSED(call, number, value) (kept = now, CHECK(says(call, number, value, 0)), CHECK(unchanged()))

static uint64_t at(uint64_t page)
{
    return START + page * TINGMUDRA_PAGE_SIZE;
}

/* Region R of document 01. */
static void set_up_r(void)
{
    memset(&now, 0xa5, sizeof now);
    CHECK(says(tm_setup(region, words, PAGES, START, PAGES, 3), 0, 0, 0));
}

/* Whether a list, by its head and the words' next pages, holds these pages and then none. */
static int list_is(uint64_t order, const uint64_t *pages)
{
    uint64_t page = region->next_page[order];
    for (; *pages != NONE && page == *pages; pages++) {
        struct tingmudra_fields said = tm_decode(words[page]);
        if (said.number != 0 || said.kind != TINGMUDRA_FREE || said.field != order) {
            return 0;
        }
        page = said.next;
    }
    return page == NONE && *pages == NONE;
}

#define LIST(...) ((const uint64_t[]){__VA_ARGS__, NONE})
#define EMPTY ((const uint64_t[]){NONE})
#define SIX(...) ((const uint64_t[6]){__VA_ARGS__})

static int six_are(const uint64_t *found, const uint64_t *six)
{
    return memcmp(found, six, 6 * sizeof *six) == 0;
}

static int is_empty_record(void)
{
    return region->start == 0 && region->page_count == 0 && region->allocated == 0
        && six_are(region->nr_pages, SIX(0, 0, 0, 0, 0, 0)) && six_are(region->free_pages, SIX(0, 0, 0, 0, 0, 0))
        && six_are(region->next_page, SIX(NONE, NONE, NONE, NONE, NONE, NONE));
}

static void layouts(void)
{
    CHECK(sizeof(struct tingmudra_region) == 168);
    CHECK(offsetof(struct tingmudra_region, start) == 0);
    CHECK(offsetof(struct tingmudra_region, page_count) == 8);
    CHECK(offsetof(struct tingmudra_region, allocated) == 16);
    CHECK(offsetof(struct tingmudra_region, nr_pages) == 24);
    CHECK(offsetof(struct tingmudra_region, free_pages) == 72);
    CHECK(offsetof(struct tingmudra_region, next_page) == 120);
    CHECK(sizeof(struct tingmudra_answer) == 24);
    CHECK(offsetof(struct tingmudra_answer, number) == 0);
    CHECK(offsetof(struct tingmudra_answer, value) == 8);
    CHECK(offsetof(struct tingmudra_answer, second) == 16);
    CHECK(sizeof(struct tingmudra_fields) == 32);
    CHECK(offsetof(struct tingmudra_fields, number) == 0);
    CHECK(offsetof(struct tingmudra_fields, kind) == 8);
    CHECK(offsetof(struct tingmudra_fields, field) == 16);
    CHECK(offsetof(struct tingmudra_fields, next) == 24);
}

/* The boundary's own numbers, which no refusal of the heap's will have. */
static void own_numbers(void)
{
    CHECK(tingmudra_empty_region(NULL, 0).number == UINT64_C(0x40000000));
    CHECK(tm_empty(NULL).number == UINT64_C(0x40000000));
    CHECK(tm_decode(0x63).number == UINT64_C(0x40000001));
    CHECK(tm_encode(TINGMUDRA_ALLOCATED, 6, 0).number == UINT64_C(0x40000001));
    CHECK(TINGMUDRA_BAD_BUFFER == 0x40000000 && TINGMUDRA_NO == 0x40000001);
}

static int is_named(uint64_t number, const char *name)
{
    return strcmp(tm_refusal_name(number), name) == 0;
}

static void refusal_names(void)
{
    CHECK(is_named(TINGMUDRA_OK, "Ok"));
    CHECK(is_named(TINGMUDRA_BAD_COUNT, "BadCount"));
    CHECK(is_named(TINGMUDRA_BAD_START, "BadStart"));
    CHECK(is_named(TINGMUDRA_TOO_MANY_BOOT, "TooManyBoot"));
    CHECK(is_named(TINGMUDRA_DAMAGED, "Damaged"));
    CHECK(is_named(TINGMUDRA_INVALID_PAGE_ORDER, "InvalidPageOrder"));
    CHECK(is_named(TINGMUDRA_OUT_OF_MEMORY, "OutOfMemory"));
    CHECK(is_named(TINGMUDRA_INVALID_HEAP_ADDRESS, "InvalidHeapAddress"));
    CHECK(is_named(TINGMUDRA_BOOT_PAGE, "BootPage"));
    CHECK(is_named(TINGMUDRA_INVALID_PAGE_TYPE, "InvalidPageType"));
    CHECK(is_named(TINGMUDRA_INVALID_FILE_PAGE, "InvalidFilePage"));
    CHECK(is_named(TINGMUDRA_REF_FULL, "RefFull"));
    CHECK(is_named(TINGMUDRA_INVALID_ITEM, "InvalidItem"));
    CHECK(is_named(TINGMUDRA_BAD_BUFFER, "BadBuffer"));
    CHECK(is_named(TINGMUDRA_NO, "No"));
    CHECK(is_named(13, "Unknown"));
    CHECK(is_named(UINT64_C(0x3fffffff), "Unknown"));
    CHECK(is_named(UINT64_C(0x40000002), "Unknown"));
    CHECK(is_named((UINT64_C(1) << 32) + 4, "Unknown"));
    CHECK(is_named(UINT64_MAX, "Unknown"));
}

static int word_is(uint64_t kind, uint64_t field, uint64_t next, uint64_t word)
{
    struct tingmudra_fields said = tm_decode(word);
    return says(tm_encode(kind, field, next), 0, word, 0) && said.number == 0 && said.kind == kind
        && said.field == field && said.next == next;
}

static int no_word(uint64_t word)
{
    struct tingmudra_fields said = tm_decode(word);
    return said.number == TINGMUDRA_NO && said.kind == 0 && said.field == 0 && said.next == 0;
}

static int no_fields(uint64_t kind, uint64_t field, uint64_t next)
{
    return says(tm_encode(kind, field, next), TINGMUDRA_NO, 0, 0);
}

static void page_words(void)
{
    CHECK(word_is(TINGMUDRA_FREE, 2, NONE, UINT64_C(0xfffffffffffff020)));
    CHECK(word_is(TINGMUDRA_FREE, 0, 3, 0x3000));
    CHECK(word_is(TINGMUDRA_ALLOCATED, 1, 0, 0x11));
    CHECK(word_is(TINGMUDRA_COMPOUND, 5, 0, 0x53));
    CHECK(word_is(TINGMUDRA_SLAB, 64, 0, 0x402));
    CHECK(word_is(TINGMUDRA_FILE, 1, 0, 0x14));
    CHECK(word_is(TINGMUDRA_FILE, TINGMUDRA_MAX_COUNT, 0, UINT64_C(0xfffffffffffffff4)));
    CHECK(word_is(TINGMUDRA_RESERVED, 0, 0, 0xf));
    CHECK(word_is(TINGMUDRA_SLAB, 6, 0, 0x62));
    CHECK(no_word(0x63));
    CHECK(no_word(0x5));
    CHECK(no_word(0x1f));
    CHECK(no_fields(TINGMUDRA_ALLOCATED, 6, 0));
    CHECK(no_fields(TINGMUDRA_ALLOCATED, 1, 1));
    CHECK(no_fields(TINGMUDRA_SLAB, TINGMUDRA_MAX_ITEM + 1, 0));
    CHECK(no_fields(TINGMUDRA_FILE, TINGMUDRA_MAX_COUNT + 1, 0));
    CHECK(no_fields(TINGMUDRA_FREE, 0, (UINT64_C(1) << 52) - 1));
    CHECK(no_fields(TINGMUDRA_RESERVED, 1, 0));
    CHECK(no_fields(5, 0, 0));
    CHECK(no_fields(UINT64_MAX, UINT64_MAX, UINT64_MAX));
}

static void orders(void)
{
    CHECK(tm_get_order(0) == 0);
    CHECK(tm_get_order(4096) == 0);
    CHECK(tm_get_order(4097) == 1);
    CHECK(tm_get_order(131072) == 5);
    CHECK(tm_get_order(131073) == 6);
    CHECK(tm_get_order(UINT64_C(1) << 63) == 51);
    CHECK(tm_get_order((UINT64_C(1) << 63) + 1) == 52);
    CHECK(tm_get_order(UINT64_MAX) == 52);
}

static void after_set_up(void)
{
    set_up_r();
    CHECK(region->start == START && region->page_count == PAGES && region->allocated == 3);
    CHECK(six_are(region->nr_pages, SIX(2, 1, 2, 2, 2, 0)));
    CHECK(six_are(region->free_pages, SIX(2, 1, 2, 2, 2, 0)));
    CHECK(six_are(region->next_page, SIX(62, 60, 56, 48, 32, NONE)));
    CHECK(list_is(0, LIST(62, 3)));
    CHECK(list_is(1, LIST(60)));
    CHECK(list_is(2, LIST(56, 4)));
    CHECK(list_is(3, LIST(48, 8)));
    CHECK(list_is(4, LIST(32, 16)));
    CHECK(list_is(5, EMPTY));
    CHECK(words[0] == 1 && words[2] == 1 && words[63] == 0xf && words[61] == 0x13);
    CHECK(says(tm_audit(region, words, PAGES), 0, 0, 0));
    CHECK(says(tm_report(region, words, PAGES, now.report), 0, 0, 0));
    CHECK(six_are(now.report, SIX(2, 1, 2, 2, 2, 0)));
    CHECK(six_are(now.report + 6, SIX(2, 1, 2, 2, 2, 0)));
    memset(&kept, 0xa5, sizeof kept);
    CHECK(now.before == kept.before && now.between == kept.between && now.beyond == kept.beyond);
    CHECK(now.after == kept.after && words[PAGES] == kept.words[PAGES]);
}

static void grants(void)
{
    set_up_r();
    CHECK(says(tm_allocate(region, words, PAGES, 1), 0, at(60), 0));
    CHECK(says(tm_allocate(region, words, PAGES, 1), 0, at(56), 0));
    CHECK(list_is(1, LIST(58)));
    CHECK(list_is(2, LIST(4)));
    CHECK(says(tm_report(region, words, PAGES, now.report), 0, 0, 0));
    CHECK(six_are(now.report, SIX(2, 3, 1, 2, 2, 0)));
    CHECK(six_are(now.report + 6, SIX(2, 1, 1, 2, 2, 0)));
    CHECK(says(tm_lookup(region, words, PAGES, at(56) + 100), 0, 8192, 4096));
    CHECK(says(tm_free(region, words, PAGES, at(56)), 0, 0, 0));
    CHECK(list_is(1, EMPTY));
    CHECK(list_is(2, LIST(56, 4)));
    CHECK(says(tm_free(region, words, PAGES, at(60)), 0, 0, 0));
    CHECK(says(tm_allocate(region, words, PAGES, 4), 0, at(32), 0));
    CHECK(says(tm_allocate(region, words, PAGES, 0), 0, at(62), 0));
}

static void file_and_slab_pages(void)
{
    set_up_r();
    CHECK(says(tm_allocate_file(region, words, PAGES), 0, at(62), 0));
    CHECK(words[62] == 0x14);
    CHECK(says(tm_get(region, words, PAGES, at(62)), 0, 2, 0));
    CHECK(says(tm_put(region, words, PAGES, at(62)), 0, 1, 0));
    CHECK(says(tm_put(region, words, PAGES, at(62)), 0, 0, 0));
    CHECK(list_is(0, LIST(62, 3)));
    CHECK(says(tm_allocate_slab(region, words, PAGES, 64), 0, at(62), 0));
    CHECK(words[62] == 0x402);
    CHECK(says(tm_lookup(region, words, PAGES, at(62) + 1), 0, 64, 64));
    CHECK(says(tm_free(region, words, PAGES, at(62)), 0, 0, 0));
    CHECK(says(tm_lookup(region, words, PAGES, at(0)), 0, 4096, 4096));
}

/* Refusals 1 to 3 leave the empty record and every word. */
static void refused_set_up(size_t count, uint64_t start, uint64_t pages, uint64_t boot, uint64_t number)
{
    set_up_r();
    kept = now;
    CHECK(says(tm_setup(region, words, count, start, pages, boot), number, 0, 0));
    CHECK(is_empty_record());
    kept.region = now.region;
    CHECK(unchanged());
}

static void refused_set_ups(void)
{
    refused_set_up(0, START, 0, 0, TINGMUDRA_BAD_COUNT);
    refused_set_up(0, START, PAGES, 0, TINGMUDRA_BAD_COUNT);
    refused_set_up(PAGES - 1, START, PAGES, 3, TINGMUDRA_BAD_COUNT);
    refused_set_up(PAGES, START, PAGES + 1, 3, TINGMUDRA_BAD_COUNT);
    refused_set_up(PAGES, START, 4097, 3, TINGMUDRA_BAD_COUNT);
    refused_set_up(PAGES, START + 1, PAGES + 1, 64, TINGMUDRA_BAD_COUNT);
    refused_set_up(PAGES, START + 1, PAGES, 64, TINGMUDRA_BAD_START);
    refused_set_up(PAGES, UINT64_MAX - 4095, PAGES, 3, TINGMUDRA_BAD_START);
    refused_set_up(PAGES, START, PAGES, 64, TINGMUDRA_TOO_MANY_BOOT);
    refused_set_up(PAGES, START, PAGES, UINT64_MAX, TINGMUDRA_TOO_MANY_BOOT);
}

static void refused_requests(void)
{
    uint64_t boot = at(2), compound = at(61), end = at(PAGES);
    set_up_r();
    REFUSED(tm_allocate(region, words, PAGES, 5), TINGMUDRA_OUT_OF_MEMORY, 0);
    REFUSED(tm_allocate(region, words, PAGES, 6), TINGMUDRA_INVALID_PAGE_ORDER, 6);
    REFUSED(tm_allocate(region, words, PAGES, UINT64_MAX), TINGMUDRA_INVALID_PAGE_ORDER, UINT64_MAX);
    REFUSED(tm_free(region, words, PAGES, START - 1), TINGMUDRA_INVALID_HEAP_ADDRESS, START - 1);
    REFUSED(tm_free(region, words, PAGES, end), TINGMUDRA_INVALID_HEAP_ADDRESS, end);
    REFUSED(tm_free(region, words, PAGES, at(5) + 8), TINGMUDRA_INVALID_HEAP_ADDRESS, at(5) + 8);
    REFUSED(tm_free(region, words, PAGES, boot), TINGMUDRA_BOOT_PAGE, boot);
    REFUSED(tm_free(region, words, PAGES, at(63)), TINGMUDRA_INVALID_PAGE_TYPE, at(63));
    REFUSED(tm_free(region, words, PAGES, at(62)), TINGMUDRA_INVALID_PAGE_TYPE, at(62));
    REFUSED(tm_free(region, words, PAGES, compound), TINGMUDRA_INVALID_PAGE_TYPE, compound);
    REFUSED(tm_lookup(region, words, PAGES, end), TINGMUDRA_INVALID_HEAP_ADDRESS, end);
    REFUSED(tm_lookup(region, words, PAGES, compound + 7), TINGMUDRA_INVALID_PAGE_TYPE, compound + 7);
    REFUSED(tm_get(region, words, PAGES, at(9) + 1), TINGMUDRA_INVALID_HEAP_ADDRESS, at(9) + 1);
    REFUSED(tm_put(region, words, PAGES, UINT64_MAX), TINGMUDRA_INVALID_HEAP_ADDRESS, UINT64_MAX);
    REFUSED(tm_get(region, words, PAGES, boot), TINGMUDRA_INVALID_FILE_PAGE, boot);
    REFUSED(tm_put(region, words, PAGES, at(63)), TINGMUDRA_INVALID_FILE_PAGE, at(63));
    REFUSED(tm_allocate_slab(region, words, PAGES, 0), TINGMUDRA_INVALID_ITEM, 0);
    REFUSED(tm_allocate_slab(region, words, PAGES, 65536), TINGMUDRA_INVALID_ITEM, 65536);

    CHECK(says(tm_allocate_file(region, words, PAGES), 0, at(62), 0));
    REFUSED(tm_lookup(region, words, PAGES, at(62)), TINGMUDRA_INVALID_PAGE_TYPE, at(62));
    words[62] = tm_encode(TINGMUDRA_FILE, TINGMUDRA_MAX_COUNT, 0).value;
    REFUSED(tm_get(region, words, PAGES, at(62)), TINGMUDRA_REF_FULL, at(62));
    CHECK(says(tm_put(region, words, PAGES, at(62)), 0, TINGMUDRA_MAX_COUNT - 1, 0));
    CHECK(says(tm_free(region, words, PAGES, at(62)), 0, 0, 0));
}

/* Every page granted singly, until none is left: 60 pages, and then refusal 6 before refusal 12. */
static void out_of_memory(void)
{
    int granted = 0;
    set_up_r();
    while (tm_allocate(region, words, PAGES, 0).number == 0) {
        granted++;
    }
    CHECK(granted == 60);
    REFUSED(tm_allocate(region, words, PAGES, 0), TINGMUDRA_OUT_OF_MEMORY, 0);
    REFUSED(tm_allocate(region, words, PAGES, 6), TINGMUDRA_INVALID_PAGE_ORDER, 6);
    REFUSED(tm_allocate_file(region, words, PAGES), TINGMUDRA_OUT_OF_MEMORY, 0);
    REFUSED(tm_allocate_slab(region, words, PAGES, 0), TINGMUDRA_OUT_OF_MEMORY, 0);
}

/* Every audited call on what is not sound: refusal 4, and nothing changes. */
static void damaged(size_t count)
{
    REFUSED(tm_allocate(region, words, count, 6), TINGMUDRA_DAMAGED, 0);
    REFUSED(tm_allocate_file(region, words, count), TINGMUDRA_DAMAGED, 0);
    REFUSED(tm_allocate_slab(region, words, count, 0), TINGMUDRA_DAMAGED, 0);
    REFUSED(tm_free(region, words, count, 1), TINGMUDRA_DAMAGED, 0);
    REFUSED(tm_get(region, words, count, 1), TINGMUDRA_DAMAGED, 0);
    REFUSED(tm_put(region, words, count, 1), TINGMUDRA_DAMAGED, 0);
    REFUSED(tm_lookup(region, words, count, 1), TINGMUDRA_DAMAGED, 0);
    REFUSED(tm_report(region, words, count, now.report), TINGMUDRA_DAMAGED, 0);
    REFUSED(tm_audit(region, words, count), TINGMUDRA_DAMAGED, 0);
}

static void damages(void)
{
    set_up_r();
    damaged(PAGES - 1);
    damaged(PAGES + 1);
    damaged(0);
    region->nr_pages[0]++;
    damaged(PAGES);
    set_up_r();
    words[10] = 0x63;
    damaged(PAGES);
    set_up_r();
    words[3] = tm_encode(TINGMUDRA_FREE, 0, 62).value; /* a list that loops */
    damaged(PAGES);
    memset(&now, 0xff, sizeof now);
    damaged(PAGES);
    CHECK(says(tm_empty(region), 0, 0, 0));
    CHECK(is_empty_record());
    damaged(0);
}

/* Damage that leaves record and words sound, and what comes of it: no call sees it. */
static void unseen_damages(void)
{
    set_up_r();
    region->start += TINGMUDRA_PAGE_SIZE;
    CHECK(says(tm_audit(region, words, PAGES), 0, 0, 0));
    CHECK(says(tm_allocate(region, words, PAGES, 0), 0, at(63), 0)); /* page 62 lies at(62) */

    set_up_r();
    region->allocated = 2;
    region->nr_pages[0]++;
    CHECK(says(tm_audit(region, words, PAGES), 0, 0, 0));
    CHECK(says(tm_free(region, words, PAGES, at(2)), 0, 0, 0)); /* a boot page */

    set_up_r();
    CHECK(says(tm_allocate_file(region, words, PAGES), 0, at(62), 0));
    words[62] = tm_encode(TINGMUDRA_FILE, 7, 0).value;
    CHECK(says(tm_get(region, words, PAGES, at(62)), 0, 8, 0));
    words[62] = tm_encode(TINGMUDRA_SLAB, 64, 0).value;
    CHECK(says(tm_lookup(region, words, PAGES, at(62)), 0, 64, 64));
    words[62] = tm_encode(TINGMUDRA_SLAB, 32, 0).value;
    CHECK(says(tm_lookup(region, words, PAGES, at(62)), 0, 32, 32));
    words[62] = tm_encode(TINGMUDRA_ALLOCATED, 0, 0).value;
    CHECK(says(tm_lookup(region, words, PAGES, at(62)), 0, 4096, 4096));

    set_up_r();
    kept = now;
    CHECK(says(tm_allocate(region, words, PAGES, 1), 0, at(60), 0));
    now = kept; /* an older state */
    CHECK(says(tm_allocate(region, words, PAGES, 1), 0, at(60), 0));
}

/* The words lie in the region's metadata pages: every page that is granted is written to, and they stay sound. */
static void words_in_the_region(void)
{
    static uint64_t memory[1024 * 512];
    uint64_t *lent = memory + 1022 * 512;
    struct tingmudra_answer answer;
    int granted = 0;
    CHECK(says(tm_setup(region, lent, 1024, START, 1024, 3), 0, 0, 0));
    while ((answer = tm_allocate(region, lent, 1024, 0)).number == 0) {
        memset(memory + (answer.value - START) / 8, 0xff, TINGMUDRA_PAGE_SIZE);
        granted++;
    }
    CHECK(answer.number == TINGMUDRA_OUT_OF_MEMORY && granted == 1024 - 3 - 2);
    CHECK(memory[3 * 512 - 1] == 0 && memory[3 * 512] == UINT64_MAX); /* boot pages are not granted */
    CHECK(says(tm_audit(region, lent, 1024), 0, 0, 0));
}

/* Every raw call on a record of another length. */
static void record_of(uint64_t *record, size_t length)
{
    REFUSED(tingmudra_empty_region(record, length), TINGMUDRA_BAD_BUFFER, 0);
    REFUSED(tingmudra_root_mem_init(record, length, words, PAGES, START, PAGES, 3), TINGMUDRA_BAD_BUFFER, 0);
    REFUSED(tingmudra_allocate_pages(record, length, words, PAGES, 0), TINGMUDRA_BAD_BUFFER, 0);
    REFUSED(tingmudra_allocate_file_page(record, length, words, PAGES), TINGMUDRA_BAD_BUFFER, 0);
    REFUSED(tingmudra_allocate_slab_page(record, length, words, PAGES, 0), TINGMUDRA_BAD_BUFFER, 0);
    REFUSED(tingmudra_free_page(record, length, words, PAGES, at(2)), TINGMUDRA_BAD_BUFFER, 0);
    REFUSED(tingmudra_get_file_page(record, length, words, PAGES, at(2)), TINGMUDRA_BAD_BUFFER, 0);
    REFUSED(tingmudra_put_file_page(record, length, words, PAGES, at(2)), TINGMUDRA_BAD_BUFFER, 0);
    REFUSED(tingmudra_layout_from_ptr(record, length, words, PAGES, at(2)), TINGMUDRA_BAD_BUFFER, 0);
    REFUSED(tingmudra_memory_info(record, length, words, PAGES, now.report, 12), TINGMUDRA_BAD_BUFFER, 0);
    REFUSED(tingmudra_audit(record, length, words, PAGES), TINGMUDRA_BAD_BUFFER, 0);
}

static void buffers(void)
{
    uint64_t *record = (uint64_t *)(void *)region;
    set_up_r();
    record_of(record, 0);
    record_of(record, 20);
    record_of(record, 22);
    record_of(NULL, 0);
    REFUSED(tingmudra_memory_info(record, 21, words, PAGES, now.report, 11), TINGMUDRA_BAD_BUFFER, 0);
    REFUSED(tingmudra_memory_info(record, 21, words, PAGES, now.report, 13), TINGMUDRA_BAD_BUFFER, 0);
    REFUSED(tingmudra_memory_info(record, 21, words, PAGES, NULL, 0), TINGMUDRA_BAD_BUFFER, 0);
    REFUSED(tingmudra_memory_info(record, 21, words, PAGES - 1, now.report, 11), TINGMUDRA_BAD_BUFFER, 0);
    REFUSED(tingmudra_audit(record, 21, NULL, 0), TINGMUDRA_DAMAGED, 0);
    CHECK(says(tingmudra_root_mem_init(record, 21, NULL, 0, START, 0, 0), TINGMUDRA_BAD_COUNT, 0, 0));
    CHECK(is_empty_record());
}

static void null_pointers(void)
{
    set_up_r();
    REFUSED(tm_empty(NULL), TINGMUDRA_BAD_BUFFER, 0);
    REFUSED(tm_setup(NULL, words, PAGES, START, PAGES, 3), TINGMUDRA_BAD_BUFFER, 0);
    REFUSED(tm_setup(region, NULL, PAGES, START, PAGES, 3), TINGMUDRA_BAD_BUFFER, 0);
    REFUSED(tm_allocate(NULL, words, PAGES, 0), TINGMUDRA_BAD_BUFFER, 0);
    REFUSED(tm_allocate(region, NULL, PAGES, 0), TINGMUDRA_BAD_BUFFER, 0);
    REFUSED(tm_allocate_file(NULL, words, PAGES), TINGMUDRA_BAD_BUFFER, 0);
    REFUSED(tm_allocate_file(region, NULL, PAGES), TINGMUDRA_BAD_BUFFER, 0);
    REFUSED(tm_allocate_slab(NULL, words, PAGES, 64), TINGMUDRA_BAD_BUFFER, 0);
    REFUSED(tm_allocate_slab(region, NULL, PAGES, 64), TINGMUDRA_BAD_BUFFER, 0);
    REFUSED(tm_free(NULL, words, PAGES, at(60)), TINGMUDRA_BAD_BUFFER, 0);
    REFUSED(tm_free(region, NULL, PAGES, at(60)), TINGMUDRA_BAD_BUFFER, 0);
    REFUSED(tm_get(NULL, words, PAGES, at(60)), TINGMUDRA_BAD_BUFFER, 0);
    REFUSED(tm_get(region, NULL, PAGES, at(60)), TINGMUDRA_BAD_BUFFER, 0);
    REFUSED(tm_put(NULL, words, PAGES, at(60)), TINGMUDRA_BAD_BUFFER, 0);
    REFUSED(tm_put(region, NULL, PAGES, at(60)), TINGMUDRA_BAD_BUFFER, 0);
    REFUSED(tm_lookup(NULL, words, PAGES, at(60)), TINGMUDRA_BAD_BUFFER, 0);
    REFUSED(tm_lookup(region, NULL, PAGES, at(60)), TINGMUDRA_BAD_BUFFER, 0);
    REFUSED(tm_report(NULL, words, PAGES, now.report), TINGMUDRA_BAD_BUFFER, 0);
    REFUSED(tm_report(region, NULL, PAGES, now.report), TINGMUDRA_BAD_BUFFER, 0);
    REFUSED(tm_report(region, words, PAGES, NULL), TINGMUDRA_BAD_BUFFER, 0);
    REFUSED(tm_audit(NULL, words, PAGES), TINGMUDRA_BAD_BUFFER, 0);
    REFUSED(tm_audit(region, NULL, PAGES), TINGMUDRA_BAD_BUFFER, 0);
}

static void other_regions(void)
{
    CHECK(says(tm_setup(region, words, 1024, START, 1024, 0), 0, 0, 0));
    CHECK(six_are(region->nr_pages, SIX(0, 1, 1, 1, 1, 31)));
    CHECK(list_is(4, LIST(992)));
    CHECK(list_is(3, LIST(1008)));
    CHECK(list_is(2, LIST(1016)));
    CHECK(list_is(1, LIST(1020)));
    CHECK(words[1021] == 0x13 && words[1022] == 0xf && words[1023] == 0xf);
    CHECK(says(tm_allocate(region, words, 1024, 5), 0, at(960), 0));

    CHECK(says(tm_setup(region, words, 1, START, 1, 0), 0, 0, 0));
    CHECK(words[0] == 0xf);
    for (uint64_t order = 0; order < TINGMUDRA_MAX_ORDER; order++) {
        REFUSED(tm_allocate(region, words, 1, order), TINGMUDRA_OUT_OF_MEMORY, 0);
    }
    CHECK(says(tm_setup(region, words, 513, START, 513, 0), 0, 0, 0));
    CHECK(words[510] != 0xf && words[511] == 0xf && words[512] == 0xf);
    CHECK(says(tm_setup(region, words, PAGES, START, PAGES, 63), 0, 0, 0));
    CHECK(says(tm_audit(region, words, PAGES), 0, 0, 0));
}

int main(void)
{
    layouts();
    own_numbers();
    refusal_names();
    page_words();
    orders();
    after_set_up();
    grants();
    file_and_slab_pages();
    refused_set_ups();
    refused_requests();
    out_of_memory();
    damages();
    unseen_damages();
    words_in_the_region();
    buffers();
    null_pointers();
    other_regions();
    printf("%s: %d checks passed, %d failed\n", __FILE__, checks - failures, failures);
    return failures != 0;
}
