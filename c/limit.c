/* limit.c: opens heaps until the host has no memory, of which `run` allows little. Those that are open stay as they
 * are, and memory that one gives back is enough for another. */
#include "mmgc.h"
#include <stdio.h>
#include <stdlib.h>

enum { MOST = 1000 };

static void check(bool holds, const char *what)
{
    if (holds)
        return;
    fprintf(stderr, "limit.c: %s\n", what);
    exit(1);
}

int main(void)
{
    static const mm_settings settings = {2, 4096, 16, 64, 8};
    static mm_heap heaps[MOST];
    uint32_t opened = 0;
    while (opened < MOST && mm_open(&heaps[opened], &settings) == MM_DONE) {
        check(mm_push(&heaps[opened], opened).status == MM_DONE, "a push");
        opened++;
    }
    check(0 < opened && opened < MOST, "no limit");
    check(mm_push(&heaps[opened], 0).status == MM_CLOSED, "a heap that wasn't opened");
    check(mm_close(&heaps[0]) == MM_DONE && mm_open(&heaps[opened], &settings) == MM_DONE, "one heap for another");
    check(mm_open(&heaps[0], &settings) == MM_NO_MEMORY, "one heap more");
    check(mm_close(&heaps[opened]) == MM_DONE, "to close");
    for (uint32_t i = 1; i < opened; i++)
        check(mm_cell(&heaps[i], 0).word == i && mm_close(&heaps[i]) == MM_DONE, "a heap that was open");
    printf("limit: refused where %u heaps were open\n", opened);
    return 0;
}
