#include "tingmudra.h"
#include <stdio.h>

int main(void)
{
    static uint64_t words[64];
    struct tingmudra_region region;
    struct tingmudra_answer answer = tm_setup(&region, words, 64, 1048576, 64, 3);
    if (answer.number == TINGMUDRA_OK) {
        answer = tm_allocate(&region, words, 64, tm_get_order(8192));
        printf("two pages at %llu\n", (unsigned long long)answer.value);
        answer = tm_free(&region, words, 64, answer.value);
    }
    return answer.number != TINGMUDRA_OK;
}
