/* queens.c: queens SIZE counts the ways to put as many queens on a board so that none is in line with another. The
 * queens that stand already are a list, by counted pairs in the heap, and by malloc and free. */
#include "clock.h"
#include "mmgc.h"

static mm_heap heap = MM_HEAP_INIT;
static unsigned long made;

static uint32_t done(mm_answer answer)
{
    if (answer.status == MM_DONE)
        return answer.word;
    fprintf(stderr, "queens: status %u\n", answer.status);
    exit(1);
}

/* A pair has the column of a queen in slot 1, and in slot 0, which is counted, those that were put before. */
static bool is_safe(uint32_t column, uint32_t others)
{
    for (uint32_t rows = 1; others != 0; others = done(mm_load(&heap, others, 0)), rows++) {
        uint32_t other = done(mm_load(&heap, others, 1));
        if (other == column || other + rows == column || column + rows == other)
            return false;
    }
    return true;
}

static unsigned put_queens(uint32_t size, uint32_t left) /* cell 0 is the list of those that stand */
{
    uint32_t others = done(mm_cell(&heap, 0));
    unsigned ways = 0;
    if (left == 0)
        return 1;
    for (uint32_t column = 0; column < size; column++) {
        if (!is_safe(column, others))
            continue;
        done(mm_new_counted(&heap, false, 1, 2)), made++;
        done(mm_put(&heap, 0, 0, 1));
        done(mm_push(&heap, column));
        done(mm_put(&heap, 1, 1, 0));
        done(mm_pop(&heap, 1));
        ways += put_queens(size, left - 1);
        done(mm_pop(&heap, 1));
        mm_tick(&heap);
    }
    return ways;
}

static unsigned in_the_heap(uint32_t size)
{
    static const mm_settings settings = {16, 256, 256, 4096, 256};
    double since = seconds();
    unsigned ways;
    if (mm_open(&heap, &settings) != MM_DONE)
        exit(1);
    done(mm_push(&heap, 0));
    ways = put_queens(size, size);
    mm_close(&heap);
    tell("counted", since, made);
    return ways;
}

struct queen {
    const struct queen *others;
    uint32_t column;
};

static bool is_apart(uint32_t column, const struct queen *others)
{
    for (uint32_t rows = 1; others != NULL; others = others->others, rows++)
        if (others->column == column || others->column + rows == column || column + rows == others->column)
            return false;
    return true;
}

static unsigned put_outside(uint32_t size, uint32_t left, const struct queen *others)
{
    unsigned ways = 0;
    if (left == 0)
        return 1;
    for (uint32_t column = 0; column < size; column++) {
        struct queen *queen;
        if (!is_apart(column, others))
            continue;
        queen = malloc(sizeof *queen), made++;
        queen->others = others;
        queen->column = column;
        ways += put_outside(size, left - 1, queen);
        free(queen);
    }
    return ways;
}

int main(int words, char **word)
{
    uint32_t size = asked(words, word, 1, 6);
    unsigned ways = in_the_heap(size), others;
    double since = seconds();
    made = 0;
    others = put_outside(size, size, NULL);
    tell("malloc", since, made);
    printf("%u ways\n", ways);
    return ways == others ? 0 : 1;
}
