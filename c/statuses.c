/* statuses.c: every status of every export, but those of a host without memory, and what each leaves. */
#include "mmgc.h"
#include <stdio.h>
#include <stdlib.h>
#include <string.h>

static const mm_settings SETTINGS = {4, 8, 16, 64, 8};
static unsigned checks;

static void check(bool holds, const char *what, int line)
{
    checks++;
    if (holds)
        return;
    fprintf(stderr, "statuses.c:%d: %s\n", line, what);
    exit(1);
}

#define CHECK(holds) check((holds), #holds, __LINE__)

static bool is(mm_answer answer, uint32_t status, uint32_t word)
{
    return answer.status == status && answer.word == word;
}

static bool done(mm_answer answer)
{
    return answer.status == MM_DONE;
}

static void opens(mm_heap *heap, mm_settings settings)
{
    CHECK(mm_open(heap, &settings) == MM_DONE);
}

static void closes(mm_heap *heap)
{
    CHECK(mm_close(heap) == MM_DONE);
}

/* Each call on a handle without a heap. */
static void without_a_heap(void)
{
    mm_heap heap = MM_HEAP_INIT;
    mm_final_record record = {1, 2, 3, 4}, same = record;
    mm_stat_record stat, before;
    uint32_t word = 5;
    memset(&stat, 7, sizeof stat);
    before = stat;
    CHECK(is(mm_new_traced(&heap, false, 0, 1), MM_CLOSED, 0));
    CHECK(is(mm_new_counted(&heap, false, 0, 1), MM_CLOSED, 0));
    CHECK(is(mm_new_leaf(&heap, false, 1), MM_CLOSED, 0));
    CHECK(is(mm_push(&heap, 1), MM_CLOSED, 0));
    CHECK(is(mm_dup(&heap, 0), MM_CLOSED, 0));
    CHECK(is(mm_pop(&heap, 0), MM_CLOSED, 0));
    CHECK(is(mm_slide(&heap, 0), MM_CLOSED, 0));
    CHECK(is(mm_cell(&heap, 0), MM_CLOSED, 0));
    CHECK(is(mm_get(&heap, 0, 0), MM_CLOSED, 0));
    CHECK(is(mm_put(&heap, 0, 0, 0), MM_CLOSED, 0));
    CHECK(is(mm_load(&heap, 0, 0), MM_CLOSED, 0));
    CHECK(is(mm_read(&heap, 0, 0, &word, 1), MM_CLOSED, 0) && word == 5);
    CHECK(is(mm_write(&heap, 0, 0, &word, 1), MM_CLOSED, 0));
    CHECK(is(mm_weak(&heap, 0), MM_CLOSED, 0));
    CHECK(is(mm_look(&heap, 0), MM_CLOSED, 0));
    CHECK(is(mm_root(&heap, 0, 1), MM_CLOSED, 0));
    CHECK(is(mm_fixed(&heap, 1), MM_CLOSED, 0));
    CHECK(is(mm_drop(&heap, 0), MM_CLOSED, 0));
    CHECK(is(mm_aget(&heap, 0, 0), MM_CLOSED, 0));
    CHECK(is(mm_aput(&heap, 0, 0, 0), MM_CLOSED, 0));
    CHECK(is(mm_reap(&heap), MM_CLOSED, 0));
    CHECK(is(mm_collect(&heap), MM_CLOSED, 0));
    CHECK(is(mm_begin(&heap), MM_CLOSED, 0));
    CHECK(is(mm_step(&heap, 1), MM_CLOSED, 0));
    CHECK(is(mm_finish(&heap), MM_CLOSED, 0));
    CHECK(mm_tick(&heap) == MM_CLOSED);
    CHECK(mm_final(&heap, &record) == MM_CLOSED && memcmp(&record, &same, sizeof record) == 0);
    CHECK(mm_stat(&heap, &stat) == MM_CLOSED && memcmp(&stat, &before, sizeof stat) == 0);
    CHECK(mm_close(&heap) == MM_CLOSED);
}

static void bad(uint32_t pages, uint32_t max, uint32_t zct, uint32_t queue, uint32_t stack)
{
    mm_heap heap = MM_HEAP_INIT;
    mm_settings settings = {pages, max, zct, queue, stack};
    CHECK(mm_open(&heap, &settings) == MM_BAD_SETTINGS);
    CHECK(mm_close(&heap) == MM_CLOSED);
}

static void opening(void)
{
    mm_heap heap = MM_HEAP_INIT;
    mm_settings other = {2, 2, 1, 1, 1};
    opens(&heap, SETTINGS);
    CHECK(done(mm_push(&heap, 9)));
    CHECK(mm_open(&heap, &other) == MM_OPEN);
    CHECK(is(mm_cell(&heap, 0), MM_DONE, 9));
    closes(&heap);
    CHECK(mm_open(&heap, &other) == MM_DONE);
    CHECK(is(mm_cell(&heap, 0), MM_NO_CELL, 0));
    closes(&heap);
    bad(1, 8, 1, 1, 1);
    bad(9, 8, 1, 1, 1);
    bad(2, 4097, 1, 1, 1);
    bad(2, 2, 0, 1, 1);
    bad(2, 2, 1048576, 1, 1);
    bad(2, 2, 1, 0, 1);
    bad(2, 2, 1, 65537, 1);
    bad(2, 2, 1, 1, 0);
    bad(2, 2, 1, 1, 65537);
}

static void stack(void)
{
    mm_heap heap = MM_HEAP_INIT;
    opens(&heap, SETTINGS);
    CHECK(is(mm_cell(&heap, 0), MM_NO_CELL, 0));
    CHECK(is(mm_dup(&heap, 0), MM_NO_CELL, 0));
    CHECK(is(mm_pop(&heap, 1), MM_NO_CELL, 0));
    for (uint32_t word = 10; word < 17; word++)
        CHECK(is(mm_push(&heap, word), MM_DONE, 0));
    CHECK(is(mm_dup(&heap, 6), MM_DONE, 0));
    CHECK(is(mm_cell(&heap, 0), MM_DONE, 10));
    CHECK(is(mm_cell(&heap, 1), MM_DONE, 16));
    CHECK(is(mm_cell(&heap, 7), MM_DONE, 10));
    CHECK(is(mm_cell(&heap, 8), MM_NO_CELL, 0));
    CHECK(is(mm_push(&heap, 1), MM_STACK_FULL, 0));
    CHECK(is(mm_dup(&heap, 0), MM_STACK_FULL, 0));
    CHECK(is(mm_new_traced(&heap, false, 0, 1), MM_STACK_FULL, 0));
    CHECK(is(mm_new_counted(&heap, false, 0, 1), MM_STACK_FULL, 0));
    CHECK(is(mm_new_leaf(&heap, false, 1), MM_STACK_FULL, 0));
    CHECK(is(mm_pop(&heap, 9), MM_NO_CELL, 0));
    CHECK(is(mm_pop(&heap, 8), MM_DONE, 0));
    CHECK(is(mm_pop(&heap, 0), MM_DONE, 0));
    closes(&heap);
}

static void sliding(void)
{
    mm_heap heap = MM_HEAP_INIT;
    opens(&heap, SETTINGS);
    CHECK(is(mm_slide(&heap, 0), MM_NO_CELL, 0));
    for (uint32_t word = 10; word < 15; word++)
        CHECK(done(mm_push(&heap, word)));
    CHECK(is(mm_slide(&heap, 5), MM_NO_CELL, 0));
    CHECK(is(mm_slide(&heap, UINT32_MAX), MM_NO_CELL, 0));
    CHECK(is(mm_slide(&heap, 0), MM_DONE, 0));
    CHECK(is(mm_cell(&heap, 4), MM_DONE, 10));
    CHECK(is(mm_slide(&heap, 3), MM_DONE, 0));
    CHECK(is(mm_cell(&heap, 0), MM_DONE, 14));
    CHECK(is(mm_cell(&heap, 1), MM_DONE, 10));
    CHECK(is(mm_cell(&heap, 2), MM_NO_CELL, 0));
    CHECK(is(mm_slide(&heap, 1), MM_DONE, 0));
    CHECK(is(mm_cell(&heap, 0), MM_DONE, 14));
    CHECK(is(mm_cell(&heap, 1), MM_NO_CELL, 0));
    closes(&heap);
}

/* The first object lies at 4,096, the begin of page 1. One of four slots takes 32 bytes. */
static void births(void)
{
    mm_heap heap = MM_HEAP_INIT;
    mm_stat_record stat;
    opens(&heap, SETTINGS);
    CHECK(is(mm_new_traced(&heap, false, 0, 4), MM_DONE, 4096));
    CHECK(is(mm_new_counted(&heap, true, 2, 4), MM_DONE, 4128));
    CHECK(is(mm_new_leaf(&heap, false, 4), MM_DONE, 4160));
    CHECK(is(mm_cell(&heap, 0), MM_DONE, 4160));
    CHECK(is(mm_new_traced(&heap, false, 5, 4), MM_SHAPE, 0));
    CHECK(is(mm_new_counted(&heap, false, 0, 1048576), MM_SHAPE, 0));
    CHECK(is(mm_new_leaf(&heap, false, 1048576), MM_SHAPE, 0));
    CHECK(is(mm_new_leaf(&heap, false, 1048575), MM_FULL, 0));
    CHECK(mm_stat(&heap, &stat) == MM_DONE);
    CHECK(stat.born == 3 && stat.freed == 0 && stat.objects == 3 && stat.zero == 1);
    CHECK(stat.cells == 3 && stat.pages == 4 && stat.areas == 0 && !stat.running && stat.threshold == 16);
    closes(&heap);
}

static void slots(void)
{
    mm_heap heap = MM_HEAP_INIT;
    uint32_t holder, held;
    opens(&heap, SETTINGS);
    holder = mm_new_traced(&heap, false, 1, 3).word;
    held = mm_new_counted(&heap, false, 0, 1).word;
    CHECK(is(mm_put(&heap, 1, 0, 0), MM_DONE, 0));
    CHECK(is(mm_put(&heap, 1, 1, 0), MM_DONE, MM_LOOSE));
    CHECK(is(mm_push(&heap, 5), MM_DONE, 0));
    CHECK(is(mm_put(&heap, 2, 2, 0), MM_DONE, 0));
    CHECK(is(mm_put(&heap, 2, 0, 0), MM_NOT_COUNTED, 0));
    CHECK(is(mm_put(&heap, 2, 3, 0), MM_NO_SLOT, 0));
    CHECK(is(mm_put(&heap, 0, 0, 0), MM_NOTHING, 0));
    CHECK(is(mm_put(&heap, 3, 0, 0), MM_NO_CELL, 0));
    CHECK(is(mm_put(&heap, 2, 0, 3), MM_NO_CELL, 0));
    CHECK(is(mm_get(&heap, 2, 0), MM_DONE, held));
    CHECK(is(mm_get(&heap, 3, 2), MM_DONE, 5));
    CHECK(is(mm_get(&heap, 4, 3), MM_NO_SLOT, 0));
    CHECK(is(mm_get(&heap, 0, 0), MM_NOTHING, 0));
    CHECK(is(mm_get(&heap, 5, 0), MM_NO_CELL, 0));
    CHECK(is(mm_load(&heap, holder, 0), MM_DONE, held));
    CHECK(is(mm_load(&heap, holder + 27, 2), MM_DONE, 5));
    CHECK(is(mm_load(&heap, holder, 3), MM_NO_SLOT, 0));
    CHECK(is(mm_load(&heap, 5, 0), MM_NOTHING, 0));
    for (int i = 0; i < 3; i++)
        CHECK(done(mm_push(&heap, 0)));
    CHECK(is(mm_get(&heap, 7, 0), MM_STACK_FULL, 0));
    CHECK(is(mm_weak(&heap, 7), MM_STACK_FULL, 0));
    closes(&heap);
}

/* Cell 0 means nothing, 1 a weak reference, 2 a traced object, and 3 a leaf of five slots. */
static void words_in_bulk(void)
{
    mm_heap heap = MM_HEAP_INIT;
    uint32_t out[6] = {90, 91, 92, 93, 94, 95}, leaf;
    const uint32_t words[6] = {1, 2, 3, 4, 5, 6};
    opens(&heap, SETTINGS);
    leaf = mm_new_leaf(&heap, false, 5).word;
    CHECK(done(mm_new_traced(&heap, false, 0, 5)) && done(mm_weak(&heap, 0)) && done(mm_push(&heap, 7)));
    CHECK(is(mm_write(&heap, 4, 0, words, 1), MM_NO_CELL, 0));
    CHECK(is(mm_write(&heap, 0, 0, words, 1), MM_NOTHING, 0));
    CHECK(is(mm_write(&heap, 1, 0, words, 1), MM_NO_SLOT, 0));
    CHECK(is(mm_write(&heap, 2, 0, words, 1), MM_SCANNED, 0));
    CHECK(is(mm_write(&heap, 2, 9, words, 1), MM_SCANNED, 0));
    CHECK(is(mm_write(&heap, 3, 0, words, 6), MM_NO_SLOT, 0));
    CHECK(is(mm_write(&heap, 3, 6, words, 0), MM_NO_SLOT, 0));
    CHECK(is(mm_write(&heap, 3, UINT32_MAX, words, 2), MM_NO_SLOT, 0));
    CHECK(is(mm_load(&heap, leaf, 0), MM_DONE, 0));
    CHECK(is(mm_write(&heap, 3, 0, words, 5), MM_DONE, 0));
    CHECK(is(mm_write(&heap, 3, 1, words + 3, 2), MM_DONE, 0));
    CHECK(is(mm_write(&heap, 3, 5, words, 0), MM_DONE, 0));
    CHECK(is(mm_load(&heap, leaf, 0), MM_DONE, 1) && is(mm_load(&heap, leaf, 1), MM_DONE, 4));
    CHECK(is(mm_load(&heap, leaf, 2), MM_DONE, 5) && is(mm_load(&heap, leaf, 3), MM_DONE, 4));
    CHECK(is(mm_read(&heap, 4, 0, out, 1), MM_NO_CELL, 0));
    CHECK(is(mm_read(&heap, 0, 0, out, 1), MM_NOTHING, 0));
    CHECK(is(mm_read(&heap, 1, 0, out, 1), MM_NO_SLOT, 0));
    CHECK(is(mm_read(&heap, 2, 0, out, 1), MM_SCANNED, 0));
    CHECK(is(mm_read(&heap, 3, 0, out, 6), MM_NO_SLOT, 0));
    CHECK(is(mm_read(&heap, 3, UINT32_MAX, out, 2), MM_NO_SLOT, 0));
    CHECK(out[0] == 90 && out[5] == 95);
    CHECK(is(mm_read(&heap, 3, 1, out + 1, 4), MM_DONE, 0));
    CHECK(out[0] == 90 && out[1] == 4 && out[2] == 5 && out[3] == 4 && out[4] == 5 && out[5] == 95);
    CHECK(is(mm_read(&heap, 3, 5, out, 0), MM_DONE, 0) && out[0] == 90);
    closes(&heap);
}

static void weak_references(void)
{
    mm_heap heap = MM_HEAP_INIT;
    uint32_t target, weak;
    opens(&heap, SETTINGS);
    target = mm_new_counted(&heap, false, 0, 1).word;
    weak = mm_weak(&heap, 0).word;
    CHECK(is(mm_weak(&heap, 1), MM_DONE, weak));
    CHECK(is(mm_weak(&heap, 0), MM_NO_WEAK, 0));
    CHECK(is(mm_weak(&heap, 3), MM_NO_CELL, 0));
    CHECK(is(mm_look(&heap, 2), MM_NO_WEAK, 0));
    CHECK(is(mm_look(&heap, 3), MM_NO_CELL, 0));
    CHECK(is(mm_look(&heap, 0), MM_DONE, target));
    CHECK(done(mm_push(&heap, 3)));
    CHECK(is(mm_look(&heap, 0), MM_NOTHING, 0));
    CHECK(is(mm_weak(&heap, 0), MM_NOTHING, 0));
    CHECK(done(mm_pop(&heap, 5)));
    CHECK(done(mm_push(&heap, weak)));
    CHECK(done(mm_reap(&heap)));
    CHECK(is(mm_look(&heap, 0), MM_DONE, 0));
    while (done(mm_push(&heap, 0)))
        continue;
    CHECK(is(mm_look(&heap, 7), MM_STACK_FULL, 0));
    closes(&heap);
}

static void areas(void)
{
    mm_heap heap = MM_HEAP_INIT;
    uint32_t kept, root;
    opens(&heap, SETTINGS);
    CHECK(is(mm_root(&heap, 2, 1), MM_SHAPE, 0));
    CHECK(is(mm_root(&heap, 0, 0), MM_SHAPE, 0));
    CHECK(is(mm_fixed(&heap, 0), MM_SHAPE, 0));
    CHECK(is(mm_fixed(&heap, 1048575), MM_FULL, 0));
    CHECK(is(mm_root(&heap, 0, 1048575), MM_FULL, 0));
    root = mm_root(&heap, 1, 2).word;
    CHECK(is(mm_fixed(&heap, 3), MM_DONE, root + 1));
    kept = mm_new_counted(&heap, true, 0, 1).word;
    CHECK(is(mm_aput(&heap, root, 0, 0), MM_DONE, 0));
    CHECK(is(mm_aput(&heap, root, 1, 0), MM_DONE, MM_LOOSE));
    CHECK(is(mm_aput(&heap, root, 2, 0), MM_NO_SLOT, 0));
    CHECK(is(mm_aput(&heap, 77, 0, 0), MM_NO_AREA, 0));
    CHECK(is(mm_aput(&heap, root, 0, 1), MM_NO_CELL, 0));
    CHECK(done(mm_push(&heap, 6)));
    CHECK(is(mm_aput(&heap, root, 0, 0), MM_NOT_COUNTED, 0));
    CHECK(is(mm_aput(&heap, root + 1, 2, 0), MM_DONE, 0));
    CHECK(done(mm_pop(&heap, 2)));
    CHECK(done(mm_collect(&heap)));
    CHECK(is(mm_aget(&heap, root, 0), MM_DONE, kept));
    CHECK(is(mm_aget(&heap, root + 1, 2), MM_DONE, 6));
    CHECK(is(mm_aget(&heap, root, 2), MM_NO_SLOT, 0));
    CHECK(is(mm_aget(&heap, 77, 0), MM_NO_AREA, 0));
    while (done(mm_push(&heap, 0)))
        continue;
    CHECK(is(mm_aget(&heap, root, 0), MM_STACK_FULL, 0));
    CHECK(is(mm_drop(&heap, root), MM_DONE, 0));
    CHECK(is(mm_drop(&heap, root), MM_NO_AREA, 0));
    closes(&heap);
}

static void too_many_areas(void)
{
    mm_heap heap = MM_HEAP_INIT;
    opens(&heap, (mm_settings){2, 64, 16, 64, 8});
    for (int i = 0; i < 1024; i++)
        CHECK(done(mm_root(&heap, 0, 1)));
    CHECK(is(mm_root(&heap, 0, 1), MM_AREAS_FULL, 0));
    CHECK(is(mm_fixed(&heap, 1), MM_AREAS_FULL, 0));
    closes(&heap);
}

/* Objects of 1,024 bytes, four to a page, fill the seven pages that there may be. */
static void full(void)
{
    mm_heap heap = MM_HEAP_INIT;
    uint32_t made = 0;
    opens(&heap, (mm_settings){2, 8, 16, 64, 64});
    while (done(mm_new_traced(&heap, false, 0, 250)))
        made++;
    CHECK(made == 28);
    CHECK(is(mm_new_traced(&heap, false, 0, 250), MM_FULL, 0));
    CHECK(is(mm_new_counted(&heap, false, 0, 250), MM_FULL, 0));
    CHECK(is(mm_weak(&heap, 0), MM_FULL, 0));
    CHECK(done(mm_pop(&heap, 1)));
    CHECK(done(mm_new_traced(&heap, false, 0, 250)));
    closes(&heap);
}

static void cycles(void)
{
    mm_heap heap = MM_HEAP_INIT;
    mm_stat_record stat;
    opens(&heap, SETTINGS);
    CHECK(is(mm_step(&heap, 1), MM_IDLE, 0));
    CHECK(is(mm_finish(&heap), MM_IDLE, 0));
    CHECK(done(mm_new_traced(&heap, false, 0, 4)));
    CHECK(done(mm_pop(&heap, 1)));
    CHECK(is(mm_begin(&heap), MM_DONE, 0));
    CHECK(is(mm_begin(&heap), MM_BUSY, 0));
    CHECK(is(mm_step(&heap, 100), MM_DONE, 0));
    CHECK(mm_stat(&heap, &stat) == MM_DONE && stat.running && stat.objects == 1);
    CHECK(is(mm_finish(&heap), MM_DONE, 0));
    CHECK(mm_stat(&heap, &stat) == MM_DONE && !stat.running && stat.objects == 0);
    CHECK(is(mm_begin(&heap), MM_DONE, 0));
    CHECK(is(mm_collect(&heap), MM_DONE, 0));
    CHECK(is(mm_finish(&heap), MM_IDLE, 0));
    closes(&heap);
}

static bool is_final(mm_heap *heap, uint32_t base, uint32_t slots, uint32_t first, uint32_t second)
{
    mm_final_record record;
    return mm_final(heap, &record) == MM_DONE && record.base == base && record.slots == slots
        && record.first == first && record.second == second;
}

/* An object of as many slots, whose slot k holds 10 * k + its number. */
static uint32_t numbered(mm_heap *heap, uint32_t slots, uint32_t number)
{
    uint32_t base = mm_new_counted(heap, true, 0, slots).word;
    for (uint32_t k = 0; k < slots; k++) {
        CHECK(done(mm_push(heap, 10 * k + number)));
        CHECK(done(mm_put(heap, 1, k, 0)));
        CHECK(done(mm_pop(heap, 1)));
    }
    return base;
}

static void tell(void *data, const mm_final_record *record)
{
    *(uint32_t *)data += record->slots;
}

static void finalizers(void)
{
    mm_heap heap = MM_HEAP_INIT;
    mm_final_record record = {1, 2, 3, 4};
    uint32_t none, one, three, slots = 0;
    opens(&heap, SETTINGS);
    none = numbered(&heap, 0, 0), one = numbered(&heap, 1, 7), three = numbered(&heap, 3, 8);
    CHECK(mm_final(&heap, &record) == MM_NO_FINAL && record.base == 1 && record.second == 4);
    CHECK(done(mm_pop(&heap, 3)) && done(mm_reap(&heap)));
    CHECK(is_final(&heap, none, 0, 0, 0));
    CHECK(is_final(&heap, one, 1, 7, 0));
    CHECK(is_final(&heap, three, 3, 8, 18));
    CHECK(mm_final(&heap, &record) == MM_NO_FINAL);
    numbered(&heap, 2, 1), numbered(&heap, 5, 2);
    CHECK(done(mm_pop(&heap, 1)) && done(mm_reap(&heap)));
    CHECK(done(mm_pop(&heap, 1)) && done(mm_collect(&heap)));
    CHECK(mm_finalize(&heap, tell, &slots) == MM_NO_FINAL && slots == 7);
    /* One lives when the heap is closed, and one waits to be told. */
    numbered(&heap, 1, 1), numbered(&heap, 1, 2);
    CHECK(done(mm_pop(&heap, 1)) && done(mm_reap(&heap)));
    closes(&heap);
    CHECK(mm_final(&heap, &record) == MM_CLOSED);
}

static void ticks(void)
{
    mm_heap heap = MM_HEAP_INIT;
    mm_stat_record stat;
    opens(&heap, (mm_settings){4, 8, 3, 64, 8});
    for (uint32_t made = 1; made <= 3; made++) {
        CHECK(mm_tick(&heap) == MM_DONE);
        CHECK(mm_stat(&heap, &stat) == MM_DONE && stat.objects == made - 1);
        CHECK(done(mm_new_counted(&heap, false, 0, 1)) && done(mm_pop(&heap, 1)));
    }
    CHECK(mm_tick(&heap) == MM_DONE);
    CHECK(mm_stat(&heap, &stat) == MM_DONE && stat.objects == 0 && stat.freed == 3);
    closes(&heap);
}

/* What is done to one of them is seen in no other. */
static void ten_heaps_at_once(void)
{
    mm_heap heaps[10];
    mm_stat_record stat;
    for (uint32_t i = 0; i < 10; i++) {
        heaps[i] = (mm_heap)MM_HEAP_INIT;
        opens(&heaps[i], SETTINGS);
        CHECK(done(mm_push(&heaps[i], i)));
        CHECK(is(mm_new_traced(&heaps[i], true, 0, i), MM_DONE, 4096));
    }
    for (uint32_t i = 0; i < 10; i += 3)
        CHECK(done(mm_pop(&heaps[i], 1)) && done(mm_collect(&heaps[i])));
    for (uint32_t i = 0; i < 10; i++) {
        bool is_freed = i % 3 == 0;
        CHECK(is(mm_cell(&heaps[i], is_freed ? 0 : 1), MM_DONE, i));
        CHECK(mm_stat(&heaps[i], &stat) == MM_DONE && stat.objects == !is_freed && stat.freed == is_freed);
        CHECK(is_freed ? is_final(&heaps[i], 4096, i, 0, 0) : is(mm_load(&heaps[i], 4096, i), MM_NO_SLOT, 0));
        closes(&heaps[i]);
    }
}

int main(void)
{
    CHECK(mm_abi() == MM_ABI);
    without_a_heap();
    opening();
    stack();
    sliding();
    births();
    slots();
    words_in_bulk();
    weak_references();
    areas();
    too_many_areas();
    full();
    cycles();
    finalizers();
    ticks();
    ten_heaps_at_once();
    printf("statuses: %u checks\n", checks);
    return 0;
}
