/* example.c: a list whose nodes live in the heap, and what is told once they are freed. */
#include "mmgc.h"
#include <stdio.h>
#include <stdlib.h>

static mm_heap heap = MM_HEAP_INIT;

static uint32_t done(mm_answer answer)
{
    if (answer.status == MM_DONE)
        return answer.word;
    fprintf(stderr, "status %u\n", answer.status);
    exit(1);
}

/* Cell 0 is the rest of a list. A node with a number takes its place: slot 0 is counted and holds the rest. */
static void prepend(uint32_t number)
{
    uint32_t node = done(mm_new_counted(&heap, true, 1, 2));
    done(mm_put(&heap, 0, 0, 1)); /* the rest goes into slot 0 of the node */
    done(mm_push(&heap, number));
    done(mm_put(&heap, 1, 1, 0)); /* the number into slot 1 */
    done(mm_pop(&heap, 3));
    done(mm_push(&heap, node)); /* nothing that may free comes between */
}

static uint32_t sum_of(uint32_t node)
{
    uint32_t sum = 0;
    for (; node != 0; node = done(mm_load(&heap, node, 0)))
        sum += done(mm_load(&heap, node, 1));
    return sum;
}

static void tell(void *count, const mm_final_record *record)
{
    printf("freed a node with %u\n", record->second);
    ++*(uint32_t *)count;
}

int main(void)
{
    const mm_settings settings = {16, 1024, 256, 4096, 1024};
    mm_stat_record stat;
    uint32_t freed = 0;
    if (mm_open(&heap, &settings) != MM_DONE)
        return 1;
    done(mm_push(&heap, 0)); /* the empty list */
    for (uint32_t number = 1; number <= 4; number++)
        prepend(number);
    printf("sum %u\n", sum_of(done(mm_cell(&heap, 0))));
    done(mm_get(&heap, 0, 0)); /* the list without its first node */
    done(mm_get(&heap, 0, 0)); /* and without the second */
    printf("sum %u\n", sum_of(done(mm_cell(&heap, 0))));
    done(mm_root(&heap, 1, 1)); /* area 0 has one counted cell, which keeps the shorter list */
    done(mm_aput(&heap, 0, 0, 0));
    done(mm_pop(&heap, 3));
    done(mm_reap(&heap)); /* counts alone show that the two first nodes are dead */
    mm_finalize(&heap, tell, &freed);
    if (mm_stat(&heap, &stat) != MM_DONE || freed != 2)
        return 1;
    printf("%u live, %u freed\n", stat.objects, freed);
    return mm_close(&heap) == MM_DONE ? 0 : 1;
}
