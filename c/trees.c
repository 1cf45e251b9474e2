/* trees.c: trees DEPTH makes binary trees and counts their nodes, with traced objects, with counted ones, by malloc and
 * free, and where it was built with HAS_GC by the collector of Boehm, Demers and Weiser. */
#include "clock.h"
#include "mmgc.h"
#ifdef HAS_GC
#include <gc.h>
#endif

static mm_heap heap = MM_HEAP_INIT;
static unsigned long made;

static uint32_t done(mm_answer answer)
{
    if (answer.status == MM_DONE)
        return answer.word;
    fprintf(stderr, "trees: status %u\n", answer.status);
    exit(1);
}

/* In the heap: pushes a tree. */
static uint32_t grow(bool counted, unsigned depth)
{
    uint32_t node;
    if (depth > 0) {
        grow(counted, depth - 1);
        grow(counted, depth - 1);
    }
    node = done(counted ? mm_new_counted(&heap, false, 2, 2) : mm_new_traced(&heap, false, 0, 2));
    made++;
    if (depth > 0) {
        done(mm_put(&heap, 0, 0, 2));
        done(mm_put(&heap, 0, 1, 1));
        done(mm_pop(&heap, 3));
        done(mm_push(&heap, node));
    }
    return node;
}

static unsigned count(uint32_t node)
{
    uint32_t left = done(mm_load(&heap, node, 0));
    return left == 0 ? 1 : 1 + count(left) + count(done(mm_load(&heap, node, 1)));
}

/* Outside. */
struct node {
    struct node *left, *right;
};

struct maker {
    void *(*make)(size_t);
    void (*give_back)(void *);
};

static struct node *plant(struct maker maker, unsigned depth)
{
    struct node *node = maker.make(sizeof *node);
    made++;
    node->left = depth > 0 ? plant(maker, depth - 1) : NULL;
    node->right = depth > 0 ? plant(maker, depth - 1) : NULL;
    return node;
}

static unsigned count_planted(const struct node *node)
{
    return node->left == NULL ? 1 : 1 + count_planted(node->left) + count_planted(node->right);
}

static void fell(struct maker maker, struct node *node)
{
    if (node->left != NULL) {
        fell(maker, node->left);
        fell(maker, node->right);
    }
    maker.give_back(node);
}

static void check(unsigned counted, unsigned depth)
{
    if (counted == (2u << depth) - 1)
        return;
    fputs("trees: nodes are missing\n", stderr);
    exit(1);
}

static void in_the_heap(const char *what, bool counted, unsigned depth)
{
    static const mm_settings settings = {4096, 4096, 1u << 16, 65536, 65536};
    double since = seconds();
    made = 0;
    if (mm_open(&heap, &settings) != MM_DONE)
        exit(1);
    for (unsigned d = 4; d <= depth; d += 4)
        for (unsigned i = 0; i < 1u << (depth - d); i++) {
            check(count(grow(counted, d)), d);
            done(mm_pop(&heap, 1));
            mm_tick(&heap);
        }
    mm_close(&heap);
    tell(what, since, made);
}

static void outside(const char *what, struct maker maker, unsigned depth)
{
    double since = seconds();
    made = 0;
    for (unsigned d = 4; d <= depth; d += 4)
        for (unsigned i = 0; i < 1u << (depth - d); i++) {
            struct node *tree = plant(maker, d);
            check(count_planted(tree), d);
            fell(maker, tree);
        }
    tell(what, since, made);
}

#ifdef HAS_GC
static void *collected(size_t size) { return GC_malloc(size); }
static void leave(void *node) { (void)node; }
#endif

int main(int words, char **word)
{
    unsigned depth = asked(words, word, 1, 12);
    in_the_heap("traced", false, depth);
    in_the_heap("counted", true, depth);
    outside("malloc", (struct maker){malloc, free}, depth);
#ifdef HAS_GC
    GC_init();
    outside("libgc", (struct maker){collected, leave}, depth);
#endif
    return 0;
}
