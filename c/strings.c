/* strings.c: strings COUNT makes strings of 40 bytes in leaves, keeps the last 100 of them in an area, and compares
 * that with malloc and free. */
#include "clock.h"
#include "mmgc.h"

enum { KEPT = 100, WORDS = 10 };

static mm_heap heap = MM_HEAP_INIT;

static uint32_t done(mm_answer answer)
{
    if (answer.status == MM_DONE)
        return answer.word;
    fprintf(stderr, "strings: status %u\n", answer.status);
    exit(1);
}

static void push_string(uint32_t number)
{
    done(mm_new_leaf(&heap, false, WORDS));
    for (uint32_t i = 0; i < WORDS; i++) {
        done(mm_push(&heap, number + i));
        done(mm_put(&heap, 1, i, 0));
        done(mm_pop(&heap, 1));
    }
}

static void in_the_heap(unsigned count)
{
    static const mm_settings settings = {64, 1024, 256, 4096, 256};
    double since = seconds();
    uint32_t area;
    if (mm_open(&heap, &settings) != MM_DONE)
        exit(1);
    area = done(mm_root(&heap, 0, KEPT));
    for (uint32_t i = 0; i < count; i++) {
        push_string(i);
        done(mm_aput(&heap, area, i % KEPT, 0));
        done(mm_pop(&heap, 1));
    }
    for (uint32_t i = count < KEPT ? 0 : count - KEPT; i < count; i++) {
        if (done(mm_load(&heap, done(mm_aget(&heap, area, i % KEPT)), WORDS - 1)) != i + WORDS - 1)
            exit(1);
        done(mm_pop(&heap, 1));
    }
    mm_close(&heap);
    tell("leaves", since, count);
}

static void outside(unsigned count)
{
    static uint32_t *kept[KEPT];
    double since = seconds();
    for (uint32_t i = 0; i < count; i++) {
        uint32_t *string = malloc(WORDS * sizeof *string);
        for (uint32_t k = 0; k < WORDS; k++)
            string[k] = i + k;
        free(kept[i % KEPT]);
        kept[i % KEPT] = string;
    }
    for (uint32_t i = 0; i < KEPT; i++)
        free(kept[i]);
    tell("malloc", since, count);
}

int main(int words, char **word)
{
    unsigned count = asked(words, word, 1, 20000);
    in_the_heap(count);
    outside(count);
    return 0;
}
