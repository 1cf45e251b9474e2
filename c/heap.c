/* heap.c: what libmm_c.a asks of its host, which is memory. A host may give its own: blocks of one allocator, aligned
 * to each power of two up to 16 that divides their size. */
#include <stdbool.h>
#include <stddef.h>
#include <stdlib.h>

struct tried {
    bool is_done;
    void *block;
};

static char none;

struct tried rattle_alloc(size_t size, size_t align)
{
    void *block = malloc(size ? size : align);
    struct tried tried = {block != NULL, block ? block : &none};
    return tried;
}

struct tried rattle_realloc(void *block, size_t kept, size_t size, size_t align)
{
    void *moved = realloc(block, size ? size : align);
    struct tried tried = {moved != NULL, moved ? moved : block};
    (void)kept;
    return tried;
}

void rattle_dealloc(void *block)
{
    free(block);
}
