/* memory.c: a host that gives no memory when it is told so. */
#include "mmgc.h"
#include <stddef.h>
#include <stdio.h>
#include <stdlib.h>

struct tried {
    bool is_done;
    void *block;
};

static char none;

/* So many more calls get memory, and so many blocks aren't given back yet. */
static unsigned long allowed = -1ul, blocks;

struct tried rattle_alloc(size_t size, size_t align)
{
    struct tried tried = {false, &none};
    if (allowed == 0)
        return tried;
    allowed--;
    blocks++;
    tried.is_done = true;
    tried.block = malloc(size ? size : align);
    return tried;
}

struct tried rattle_realloc(void *block, size_t kept, size_t size, size_t align)
{
    struct tried tried = {false, block};
    (void)kept;
    if (allowed == 0)
        return tried;
    allowed--;
    tried.is_done = true;
    tried.block = realloc(block, size ? size : align);
    return tried;
}

void rattle_dealloc(void *block)
{
    blocks--;
    free(block);
}

static void check(bool holds, const char *what, int line)
{
    if (holds)
        return;
    fprintf(stderr, "memory.c:%d: %s\n", line, what);
    exit(1);
}

#define CHECK(holds) check((holds), #holds, __LINE__)

static const mm_settings SETTINGS = {4, 8, 16, 64, 8};

/* An object with a finalizer is made, and freed. */
static void one_final(mm_heap *heap, uint32_t slots)
{
    CHECK(mm_new_counted(heap, true, 0, slots).status == MM_DONE);
    CHECK(mm_pop(heap, 1).status == MM_DONE);
    CHECK(mm_reap(heap).status == MM_DONE);
}

/* Opens with ever more memory until it is enough. */
static void opening(mm_heap *heap)
{
    unsigned long given = 0;
    for (;; given++) {
        uint32_t status;
        allowed = given;
        status = mm_open(heap, &SETTINGS);
        if (status == MM_DONE)
            break;
        CHECK(status == MM_NO_MEMORY && blocks == 0);
        CHECK(mm_push(heap, 1).status == MM_CLOSED);
    }
    CHECK(given >= 2);
}

/* What was kept comes in its order, then that some were lost, then what came later. */
static void losing(mm_heap *heap)
{
    mm_final_record record;
    uint32_t kept = 0, status;
    allowed = 1;
    for (uint32_t slots = 1; slots <= 100; slots++)
        one_final(heap, slots);
    while ((status = mm_final(heap, &record)) == MM_DONE)
        CHECK(record.slots == ++kept);
    CHECK(status == MM_FINALS_LOST && 0 < kept && kept < 100);
    CHECK(mm_final(heap, &record) == MM_NO_FINAL);
    allowed = 0;
    one_final(heap, 200);
    CHECK(mm_final(heap, &record) == MM_DONE && record.slots == 200);
    CHECK(mm_final(heap, &record) == MM_NO_FINAL);
}

int main(void)
{
    mm_heap heap = MM_HEAP_INIT;
    opening(&heap);
    losing(&heap);
    allowed = -1ul;
    CHECK(mm_close(&heap) == MM_DONE && blocks == 0);
    puts("memory: opened and lost as told");
    return 0;
}
