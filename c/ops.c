/* ops.c: ops WHICH COUNT makes so many of these calls, for counting their instructions. */
#include "mmgc.h"
#include <stdio.h>
#include <stdlib.h>
#include <string.h>

static const mm_settings SETTINGS = {64, 64, 1u << 16, 65536, 65536};

int main(int words, char **word)
{
    mm_heap heap = MM_HEAP_INIT;
    const char *which = words == 3 ? word[1] : "";
    uint32_t count = words == 3 ? (uint32_t)strtoul(word[2], NULL, 10) : 0, i = 0;
    if (mm_open(&heap, &SETTINGS) != MM_DONE)
        return 1;
    /* Cell 0 is a counted object with a counted slot, cell 1 a counted one, and cell 2 a traced one. */
    mm_new_traced(&heap, false, 0, 4);
    mm_new_counted(&heap, false, 0, 2);
    mm_new_counted(&heap, false, 1, 2);
    if (strcmp(which, "push_pop") == 0)
        for (; i < count; i++)
            mm_push(&heap, i), mm_pop(&heap, 1);
    else if (strcmp(which, "cell") == 0)
        for (; i < count; i++)
            mm_cell(&heap, 1);
    else if (strcmp(which, "load") == 0)
        for (; i < count; i++)
            mm_load(&heap, 4096, 3);
    else if (strcmp(which, "get_pop") == 0)
        for (; i < count; i++)
            mm_get(&heap, 2, 3), mm_pop(&heap, 1);
    else if (strcmp(which, "put_word") == 0)
        for (; i < count; i++)
            mm_put(&heap, 2, 3, 2);
    else if (strcmp(which, "put_count") == 0)
        for (; i < count; i++)
            mm_put(&heap, 0, 0, 1);
    else if (strcmp(which, "new_pop") == 0)
        for (; i < count; i++)
            mm_new_traced(&heap, false, 0, 4), mm_pop(&heap, 1);
    else if (strcmp(which, "none") != 0)
        return 2;
    return mm_close(&heap) == MM_DONE ? 0 : 1;
}
