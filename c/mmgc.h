/* mmgc.h: a garbage-collected heap with reference counts, marking in cycles, weak references and finalizers.
 *
 * A heap is one region of memory in which an address is an offset in bytes, a `uint32_t`. The words that it keeps have
 * 32 bits. Link with libmm_c.a and heap.c. All sizes are those of x86-64.
 *
 * WHO KEEPS WHAT. The heap keeps every object that its stack or a scanned area reaches, by slots of objects. Nothing
 * else keeps one: a word in a C variable, on the C stack or in a register is a number, which means nothing once the
 * object was freed, or means what was made in its place. So push what you still want, or put it into an area or into a
 * slot of what is kept, before the next call that may free. These calls may free: `mm_new_*`, `mm_weak`, `mm_root`,
 * `mm_fixed` (only where there is no room), `mm_reap`, `mm_collect`, `mm_finish` and `mm_tick`.
 *
 * STACK CELLS are named from the top: cell 0 is the top one, and a push moves each by one. A cell means the object in
 * which its word falls: its base, or any address inside it. A word that happens to look like an address inside an
 * object counts as one and may keep that object; a collection never moves anything, so that does no other harm. An
 * embedder that wants numbers never to be taken for objects keeps them out of the region, which ends at 4,096 * `max`,
 * as by a set top bit, or keeps them in leaves, which nothing scans.
 *
 * KINDS. A traced object isn't counted. A counted one is freed by a reap as soon as no stack cell and no counted slot
 * or cell holds it; a ring of counted ones is freed by a collection or a cycle. A leaf has slots that nothing scans.
 * The first `counted` slots of an object, and cells of an area, keep the counts of what they hold: they take 0 or the
 * base of a counted object, and nothing else. A counted object in any other slot is stored loose: `mm_put` and
 * `mm_aput` answer the word MM_LOOSE then, marking finds the object by that slot, but a reap doesn't see it.
 *
 * FINALIZERS. An object made with `finalize` is told of once it was freed. The heap never calls C: it keeps a record
 * of each, in the order in which they were freed, and `mm_final` hands them out. Call it, or `mm_finalize`, after each
 * call that may free. A record has the base, the number of slots and the words of the first two, as they were when the
 * object was freed: enough for a pointer of C. `mm_close` runs no finalizer.
 *
 * THREADS. One thread at a time uses a heap, and no call is made from a signal handler. Heaps share nothing: each
 * thread may have its own.
 *
 * POINTERS. Each pointer that is given to a call points to what its type says, or to as many of them as the count behind
 * it says; none is null, also where the count is 0, and two of one call point to different things. A handle begins as
 * MM_HEAP_INIT, is never copied while it is open, and its fields are never written. Nothing checks these.
 *
 * LIMITS. A region has at most 4,096 pages of 4,096 bytes, an object 1,048,575 slots, a heap 1,024 areas and 65,536
 * stack cells. A count is exact up to 254; at 255 an object stays until a collection or a cycle finds it unreached.
 * All memory is taken by `mm_open`, but for records of finalizers, 16 bytes each, whose room is used again once
 * `mm_final` has answered MM_NO_FINAL.
 */
#ifndef MMGC_H
#define MMGC_H

#include <stdbool.h>
#include <stddef.h>
#include <stdint.h>

#ifdef __cplusplus
extern "C" {
#endif

/* The version of this header. A library that goes with it answers the same to `mm_abi`. */
#define MM_ABI 1u

/* How a call went. A call that answers anything but MM_DONE leaves the heap as it is, but for MM_FULL: then a reap and
 * a collection ran. */
enum {
    MM_DONE = 0,
    MM_NO_CELL = 1,       /* no stack cell has the index; for mm_pop: the stack has fewer cells */
    MM_SHAPE = 2,         /* more counted slots than slots, too many slots, or an area without cells */
    MM_NO_AREA = 3,       /* no area has the number */
    MM_NOTHING = 4,       /* the cell or word means no object */
    MM_OUTSIDE = 5,       /* the sum doesn't fall in the object; no call of this header answers it */
    MM_NO_WEAK = 6,       /* a weak reference where none may be, or something else where one must be */
    MM_NO_SLOT = 7,       /* the object or area has no slot with the index */
    MM_NOT_COUNTED = 8,   /* a counted slot takes 0 or the base of a counted object alone */
    MM_STACK_FULL = 9,    /* the stack has as many cells as the settings allow */
    MM_AREAS_FULL = 10,   /* 1,024 areas live */
    MM_FULL = 11,         /* there is no room, also after a reap and a collection */
    MM_BUSY = 12,         /* a cycle runs already */
    MM_IDLE = 13,         /* no cycle runs */
    MM_SCANNED = 14,      /* a traced or counted object, whose slots go one by one, by mm_get and mm_put */
    MM_CLOSED = 100,      /* the handle has no heap */
    MM_OPEN = 101,        /* the handle has one already */
    MM_NO_MEMORY = 102,   /* the host gave no memory */
    MM_BAD_SETTINGS = 103,
    MM_WORN_OUT = 104,    /* 2^64 - 1 objects were made, and no more can be counted */
    MM_NO_FINAL = 105,    /* no finalizer waits */
    MM_FINALS_LOST = 106  /* there was no memory for finalizers that ran behind those that were handed out */
};

/* The word that mm_put and mm_aput answer where a counted object was stored in a slot that isn't counted. */
#define MM_LOOSE 1u

/* A handle. Its fields are the library's. */
typedef struct mm_heap {
    void *held;
    bool is_open;
} mm_heap;

#define MM_HEAP_INIT {0, false}

/* What a heap is made with. */
typedef struct mm_settings {
    uint32_t pages; /* pages at first, page 0 included, which holds nothing: 2 to 4,096 */
    uint32_t max;   /* pages at most: `pages` to 4,096; memory is taken for so many */
    uint32_t zct;   /* counted objects that no count holds, at which mm_tick reaps, at least: 1 to 1,048,575 */
    uint32_t queue; /* entries of the mark queue: 1 to 65,536; one that is too short costs time alone */
    uint32_t stack; /* cells of the stack: 1 to 65,536 */
} mm_settings;

/* A status, and a word, which is 0 where none is told of. */
typedef struct mm_answer {
    uint32_t status;
    uint32_t word;
} mm_answer;

/* A freed object whose finalizer ran. `first` and `second` are the words of its first two slots, 0 where it had fewer.
 * Its base may be that of another object by the time that it is read. */
typedef struct mm_final_record {
    uint32_t base;
    uint32_t slots;
    uint32_t first;
    uint32_t second;
} mm_final_record;

/* What there is. */
typedef struct mm_stat_record {
    uint64_t born;      /* objects that were ever made, weak references included */
    uint64_t freed;     /* objects that were freed */
    uint32_t objects;   /* objects that live */
    uint32_t zero;      /* counted objects that no counted slot or cell holds */
    uint32_t areas;     /* areas that live */
    uint32_t free;      /* free pages */
    uint32_t pages;     /* pages of the region */
    uint32_t cells;     /* cells on the stack */
    uint32_t threshold; /* mm_tick reaps at so many zero-count objects */
    bool running;       /* whether a cycle runs */
} mm_stat_record;

/* The version that the library was built for. */
uint32_t mm_abi(void);

/* Opens a heap: MM_DONE, MM_OPEN, MM_BAD_SETTINGS or MM_NO_MEMORY. It is empty, and asks for all its memory now. */
uint32_t mm_open(mm_heap *heap, const mm_settings *settings);

/* Gives all memory back: MM_DONE or MM_CLOSED. No finalizer runs, and records that wait are forgotten. */
uint32_t mm_close(mm_heap *heap);

/* All calls below answer MM_CLOSED where no heap is open, beside what is told of each.
 *
 * These make an object whose slots hold 0, push its base and answer it: MM_SHAPE, MM_STACK_FULL, MM_FULL,
 * MM_WORN_OUT. */
mm_answer mm_new_traced(mm_heap *heap, bool finalize, uint32_t counted, uint32_t slots);
mm_answer mm_new_counted(mm_heap *heap, bool finalize, uint32_t counted, uint32_t slots);
mm_answer mm_new_leaf(mm_heap *heap, bool finalize, uint32_t slots);

/* The stack. mm_push: MM_STACK_FULL. mm_dup pushes cell i again: MM_NO_CELL, MM_STACK_FULL. mm_pop removes the k
 * topmost: MM_NO_CELL. mm_slide removes the k below the top, which stays: MM_NO_CELL. mm_cell answers the word of cell
 * i: MM_NO_CELL. */
mm_answer mm_push(mm_heap *heap, uint32_t word);
mm_answer mm_dup(mm_heap *heap, uint32_t i);
mm_answer mm_pop(mm_heap *heap, uint32_t k);
mm_answer mm_slide(mm_heap *heap, uint32_t k);
mm_answer mm_cell(mm_heap *heap, uint32_t i);

/* mm_get pushes slot s of what cell i means, and answers it: MM_NO_CELL, MM_NOTHING, MM_NO_SLOT, MM_STACK_FULL.
 * mm_put writes the word of cell j there and answers 0 or MM_LOOSE: MM_NO_CELL, MM_NOTHING, MM_NO_SLOT,
 * MM_NOT_COUNTED. mm_load answers slot s of the object in which `word` falls, and pushes nothing: MM_NOTHING,
 * MM_NO_SLOT. */
mm_answer mm_get(mm_heap *heap, uint32_t i, uint32_t s);
mm_answer mm_put(mm_heap *heap, uint32_t i, uint32_t s, uint32_t j);
mm_answer mm_load(mm_heap *heap, uint32_t word, uint32_t s);

/* Words of leaves in bulk. mm_read writes those of the slots from s on of what cell i means to `out`, and mm_write
 * writes `words` into these slots, `count` of them: MM_NO_CELL, MM_NOTHING, MM_SCANNED, MM_NO_SLOT. Both answer the
 * word 0. Nothing is read or written in part: `out` stays but for MM_DONE. No word in a leaf keeps an object. */
mm_answer mm_read(mm_heap *heap, uint32_t i, uint32_t s, uint32_t *out, size_t count);
mm_answer mm_write(mm_heap *heap, uint32_t i, uint32_t s, const uint32_t *words, size_t count);

/* mm_weak pushes the weak reference to what cell i means, one for each object, and answers it: MM_NO_CELL, MM_NOTHING,
 * MM_NO_WEAK, MM_STACK_FULL, MM_FULL, MM_WORN_OUT. It is an object of its own and keeps its target not. mm_look pushes
 * the target's base, or 0 once that was freed, and answers it: MM_NO_CELL, MM_NOTHING, MM_NO_WEAK, MM_STACK_FULL. */
mm_answer mm_weak(mm_heap *heap, uint32_t i);
mm_answer mm_look(mm_heap *heap, uint32_t i);

/* Areas. mm_root makes one whose cells are roots, the first `counted` of them counted, and mm_fixed one that nothing
 * scans. Both answer its number, and no collection frees it: MM_SHAPE, MM_AREAS_FULL, MM_FULL. mm_drop gives it back:
 * MM_NO_AREA. mm_aget pushes cell s of it and answers that: MM_NO_AREA, MM_NO_SLOT, MM_STACK_FULL. mm_aput writes the
 * word of stack cell j there and answers 0 or MM_LOOSE: MM_NO_CELL, MM_NO_AREA, MM_NO_SLOT, MM_NOT_COUNTED. */
mm_answer mm_root(mm_heap *heap, uint32_t counted, uint32_t cells);
mm_answer mm_fixed(mm_heap *heap, uint32_t cells);
mm_answer mm_drop(mm_heap *heap, uint32_t area);
mm_answer mm_aget(mm_heap *heap, uint32_t area, uint32_t s);
mm_answer mm_aput(mm_heap *heap, uint32_t area, uint32_t s, uint32_t j);

/* mm_reap frees the counted objects that neither the stack nor a count holds. mm_collect frees all that isn't reached,
 * and ends a cycle without a result. mm_begin, mm_step and mm_finish do the same as a collection in parts, between
 * which other calls may come: mm_begin: MM_BUSY; mm_step scans until its cost is at least k: MM_IDLE; mm_finish frees:
 * MM_IDLE. mm_tick reaps where there are as many zero-count objects as the threshold says; call it now and then. */
mm_answer mm_reap(mm_heap *heap);
mm_answer mm_collect(mm_heap *heap);
mm_answer mm_begin(mm_heap *heap);
mm_answer mm_step(mm_heap *heap, uint32_t k);
mm_answer mm_finish(mm_heap *heap);
uint32_t mm_tick(mm_heap *heap);

/* Writes the next record to `out`: MM_DONE, or MM_NO_FINAL, or once MM_FINALS_LOST. `out` stays but for MM_DONE. */
uint32_t mm_final(mm_heap *heap, mm_final_record *out);

/* Writes what there is to `out`: MM_DONE. */
uint32_t mm_stat(mm_heap *heap, mm_stat_record *out);

/* Calls back for each record that waits, in their order, and answers MM_NO_FINAL where all were handed out, or
 * MM_FINALS_LOST or MM_CLOSED. The callback may use the heap. */
static inline uint32_t mm_finalize(mm_heap *heap, void (*tell)(void *, const mm_final_record *), void *data)
{
    mm_final_record record;
    uint32_t status;
    while ((status = mm_final(heap, &record)) == MM_DONE)
        tell(data, &record);
    return status;
}

#ifdef __cplusplus
}
#endif

#endif
