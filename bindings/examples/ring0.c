/*
 * A monitor's first steps with its heap, where there is no operating system and no C library. Link target/kernel/MACHINE/libabi.a
 * (bindings/kernel). bindings/test links this file at the addresses where monitors stand.
 */
#include "tingmudra.h"

static uint64_t words[64];
static struct tingmudra_region region;
volatile uint64_t two_pages;

/* All that the library needs. By volatile, since a compiler may otherwise see a memcpy here and call it. */
void *memcpy(void *restrict to, const void *restrict from, size_t count)
{
    volatile unsigned char *out = to;
    const unsigned char *in = from;
    while (count--)
        *out++ = *in++;
    return to;
}

/* A monitor comes here with a stack. */
void _start(void)
{
    struct tingmudra_answer answer = tm_setup(&region, words, 64, 1048576, 64, 3);
    if (answer.number == TINGMUDRA_OK)
        answer = tm_allocate(&region, words, 64, tm_get_order(8192));
    two_pages = answer.number == TINGMUDRA_OK ? answer.value : 0;
    for (;;)
        ;
}
