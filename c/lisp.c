/* lisp.c: a small Lisp whose objects live in the heap.
 *
 * lisp [--reap | --step] FILE evaluates each expression of a file and writes the value of each that isn't a definition.
 * With --reap every call of the heap is followed by a reap, and with --step by a part of a cycle: what is written must
 * be the same, since no object is held by a C variable alone across a call that may free.
 *
 * A value is a word. 0 is the empty list, which is also false. A number has its top bit set, so it never looks like an
 * address. A symbol and a builtin are words below 4,096, where no object lies. All else is the base of an object, whose
 * slot 1 tells its kind by a word below 4,096:
 *
 *     pair      [car, PAIR, cdr]
 *     closure   [frame, CLOSURE, names, body]   traced, and the frame in a counted slot
 *     string    [length, STRING, bytes ..]      a leaf
 *     port      [number, PORT]                  finalized
 *     table     [entries, TABLE]                entries are pairs of a key and a weak reference
 *
 * A frame of variables is no value: [outer frame, names, values ..], counted, so that a reap frees it as soon as a call
 * is over, unless a closure holds it. The values of symbols at top level are cells of an area, a root. */
#include "mmgc.h"
#include <ctype.h>
#include <stdarg.h>
#include <stdio.h>
#include <stdlib.h>
#include <string.h>

enum { PAIR = 1, CLOSURE, STRING, PORT, TABLE };
enum { QUOTE = 1, IF, LAMBDA, DEFINE, SET, BEGIN, TRUE };
enum { MOST_SYMBOLS = 1000, FIRST_BUILTIN = 3000, FIRST_OBJECT = 4096, MOST_PORTS = 100, MOST_BYTES = 4096 };

static mm_heap heap = MM_HEAP_INIT;
static uint32_t depth; /* how many cells are on the heap's stack */
static uint32_t globals; /* the area with the values of symbols */
static enum { PLAIN, REAPING, STEPPING } mode;
static char names[MOST_SYMBOLS][32] = {"quote", "if", "lambda", "define", "set!", "begin", "true"};
static uint32_t symbols = TRUE; /* they are numbered from 1 on */
static bool port_is_open[MOST_PORTS];
static uint32_t ports;

static void check(bool holds, const char *format, ...)
{
    va_list words;
    if (holds)
        return;
    va_start(words, format);
    vfprintf(stderr, format, words);
    va_end(words);
    fputc('\n', stderr);
    exit(1);
}

/* What a port stands for lives in C, and is given up when the heap tells that the port was freed. */
static void close_port(void *open, const mm_final_record *record) { ((bool *)open)[record->first] = false; }

/* What follows each call of the heap. */
static uint32_t done(mm_answer answer)
{
    static unsigned calls;
    check(answer.status == MM_DONE, "the heap answered status %u", answer.status);
    if (mode == REAPING)
        mm_reap(&heap);
    else if (mode == STEPPING && (mm_begin(&heap), mm_step(&heap, 8), ++calls % 500 == 0))
        mm_finish(&heap);
    else
        mm_tick(&heap);
    mm_finalize(&heap, close_port, port_is_open);
    return answer.word;
}

/* The stack. The cells below the top go in a slide, and `at` counts from the bottom. */
static void pushed(mm_answer answer) { depth++, done(answer); }
static void push(uint32_t w) { pushed(mm_push(&heap, w)); }
static void pop(uint32_t k) { depth -= k, done(mm_pop(&heap, k)); }
static void slide(uint32_t k) { depth -= k, done(mm_slide(&heap, k)); }
static uint32_t top(uint32_t i) { return done(mm_cell(&heap, i)); }
static uint32_t at(uint32_t place) { return top(depth - 1 - place); }

/* Words, and slots of objects. */
static uint32_t slot(uint32_t w, uint32_t s) { return done(mm_load(&heap, w, s)); }
static void put(uint32_t i, uint32_t s, uint32_t j) { done(mm_put(&heap, i, s, j)); }
static uint32_t number(int32_t n) { return 0x80000000u | (uint32_t)n; }
static int32_t int_of(uint32_t w) { return (int32_t)(w << 1) / 2; }
static bool is_number(uint32_t w) { return w >> 31; }
static bool is_object(uint32_t w) { return w >= FIRST_OBJECT && !is_number(w); }
static bool is_builtin(uint32_t w) { return w >= FIRST_BUILTIN && w < FIRST_OBJECT; }
static bool is_symbol(uint32_t w) { return w != 0 && w < FIRST_BUILTIN; }
static uint32_t kind(uint32_t w) { return is_object(w) ? slot(w, 1) : 0; }

/* A word goes into a slot of the top object. An object was made, and is of a kind. */
static void put_word(uint32_t s, uint32_t w) { push(w), put(1, s, 0), pop(1); }
static void make(mm_answer answer, uint32_t kind) { pushed(answer), put_word(1, kind); }

/* The two cells on top, cdr above car, become a pair. */
static void cons(void)
{
    make(mm_new_traced(&heap, false, 0, 3), PAIR);
    put(0, 2, 1);
    put(0, 0, 2);
    slide(2);
}

static uint32_t part(uint32_t w, uint32_t s)
{
    check(kind(w) == PAIR, "not a pair");
    return slot(w, s);
}

static uint32_t car(uint32_t w) { return part(w, 0); }
static uint32_t cdr(uint32_t w) { return part(w, 2); }

static void push_string(const char *bytes, uint32_t length)
{
    uint32_t words[2 + MOST_BYTES / 4] = {length, STRING}, count = 2 + (length + 3) / 4;
    check(length <= MOST_BYTES, "a string is too long");
    memcpy(words + 2, bytes, length);
    pushed(mm_new_leaf(&heap, false, count));
    done(mm_write(&heap, 0, 0, words, count));
}

static uint32_t length_of(uint32_t w)
{
    check(kind(w) == STRING, "not a string");
    return slot(w, 0);
}

static uint32_t bytes_of(uint32_t i, char *bytes) /* of a cell: answers how many, and ends them with a 0 */
{
    uint32_t words[MOST_BYTES / 4], length = length_of(top(i));
    done(mm_read(&heap, i, 2, words, (length + 3) / 4));
    memcpy(bytes, words, length);
    bytes[length] = 0;
    return length;
}

static uint32_t symbol(const char *name)
{
    for (uint32_t i = 0; i < symbols; i++)
        if (strcmp(names[i], name) == 0)
            return i + 1;
    check(symbols < MOST_SYMBOLS, "too many symbols");
    strcpy(names[symbols], name);
    return ++symbols;
}

/* Reading: pushes an expression. */
static const char *source;

static void skip(void) /* blanks and comments */
{
    while (isspace((unsigned char)*source) || *source == ';')
        source += *source == ';' ? strcspn(source, "\n") : 1;
}

static void read_one(void);

static void read_list(void)
{
    skip();
    check(*source != 0, "a list has no end");
    if (*source == ')')
        source++, push(0);
    else
        read_one(), read_list(), cons();
}

static void read_string(void)
{
    size_t length = strcspn(source, "\"");
    check(source[length] != 0 && length <= MOST_BYTES, "a string has no end");
    push_string(source, (uint32_t)length);
    source += length + 1;
}

static void read_atom(void)
{
    char name[sizeof names[0]], *end;
    size_t length = strcspn(source, " \t\n();\"");
    long n;
    check(0 < length && length < sizeof name, "not an atom: %.10s", source);
    memcpy(name, source, length);
    name[length] = 0;
    source += length;
    n = strtol(name, &end, 10);
    push(*end == 0 ? number((int32_t)n) : symbol(name));
}

static void read_one(void)
{
    skip();
    switch (*source) {
    case '(': source++, read_list(); break;
    case '"': source++, read_string(); break;
    case '\'': source++, push(QUOTE), read_one(), push(0), cons(), cons(); break;
    default: read_atom();
    }
}

/* Writing. */
static void write_value(uint32_t w);

static void write_list(uint32_t w)
{
    putchar('(');
    for (const char *between = ""; kind(w) == PAIR; w = cdr(w), between = " ") {
        fputs(between, stdout);
        write_value(car(w));
    }
    if (w != 0)
        fputs(" . ", stdout), write_value(w);
    putchar(')');
}

static void write_string(uint32_t w)
{
    char bytes[MOST_BYTES + 1];
    push(w);
    bytes_of(0, bytes);
    pop(1);
    fputs(bytes, stdout);
}

static void write_value(uint32_t w)
{
    if (is_number(w))
        printf("%d", int_of(w));
    else if (is_symbol(w))
        fputs(names[w - 1], stdout);
    else if (!is_object(w))
        fputs(w == 0 ? "()" : "#builtin", stdout);
    else switch (kind(w)) {
    case PAIR: write_list(w); break;
    case STRING: write_string(w); break;
    case PORT: printf("#port %u", slot(w, 0)); break;
    default: fputs(kind(w) == TABLE ? "#table" : "#closure", stdout);
    }
}

/* Variables. A frame's values stand from slot 2 on, in the order of its names. The frame that has one is answered, or 0
 * at top level, and its slot, or its cell of the area, is written to `s`. */
static uint32_t find(uint32_t name, uint32_t frame, uint32_t *s)
{
    for (; frame != 0; frame = slot(frame, 0)) {
        *s = 2;
        for (uint32_t rest = slot(frame, 1); rest != 0; rest = cdr(rest), ++*s)
            if (car(rest) == name)
                return frame;
    }
    *s = name;
    return 0;
}

static void push_value(uint32_t name, uint32_t frame)
{
    uint32_t s, of = find(name, frame, &s);
    if (of != 0)
        push(slot(of, s));
    else
        pushed(mm_aget(&heap, globals, s));
}

static void set_value(uint32_t name, uint32_t frame) /* to the top cell */
{
    uint32_t s, of = find(name, frame, &s);
    if (of != 0)
        push(of), put(0, s, 1), pop(1);
    else
        done(mm_aput(&heap, globals, s, 0));
}

/* Builtins take their arguments from the stack, the first one lowest, and push their value on top. */
static int32_t int_at(uint32_t i)
{
    uint32_t w = top(i);
    check(is_number(w), "not a number");
    return int_of(w);
}

static void push_int(int32_t n) { push(number(n)); }
static void push_bool(bool is) { push(is ? TRUE : 0); }
static void add(void) { push_int(int_at(1) + int_at(0)); }
static void subtract(void) { push_int(int_at(1) - int_at(0)); }
static void multiply(void) { push_int(int_at(1) * int_at(0)); }
static void divide(void) { check(int_at(0) != 0, "a division by 0"), push_int(int_at(1) / int_at(0)); }
static void less(void) { push_bool(int_at(1) < int_at(0)); }
static void equal(void) { push_bool(top(1) == top(0)); }
static void is_null(void) { push_bool(top(0) == 0); }
static void is_pair(void) { push_bool(kind(top(0)) == PAIR); }
static void first(void) { push(car(top(0))); }
static void rest(void) { push(cdr(top(0))); }
static void pair(void) { pushed(mm_dup(&heap, 1)), pushed(mm_dup(&heap, 1)), cons(); }
static void print(void) { write_value(top(0)), putchar('\n'), push(0); }
static void collect(void) { done(mm_collect(&heap)), push(0); }
static void cells(void) { push_int((int32_t)depth); }
static void string_length(void) { push_int((int32_t)length_of(top(0))); }
static void weak_table(void) { make(mm_new_traced(&heap, false, 0, 2), TABLE); }

static void string_append(void)
{
    char bytes[2 * MOST_BYTES + 1];
    uint32_t length = bytes_of(1, bytes);
    length += bytes_of(0, bytes + length);
    push_string(bytes, length);
}

static void string_equal(void)
{
    char one[MOST_BYTES + 1], other[MOST_BYTES + 1];
    bytes_of(1, one), bytes_of(0, other);
    push_bool(strcmp(one, other) == 0);
}

static void substring(void) /* of a string, from, to */
{
    char bytes[MOST_BYTES + 1];
    int32_t length = (int32_t)bytes_of(2, bytes), from = int_at(1), to = int_at(0);
    check(0 <= from && from <= to && to <= length, "not a part of the string");
    push_string(bytes + from, (uint32_t)(to - from));
}

static void number_string(void)
{
    char bytes[16];
    push_string(bytes, (uint32_t)sprintf(bytes, "%d", int_at(0)));
}

static void weak_put(void) /* table, key, value: the entry goes before the others */
{
    check(kind(top(2)) == TABLE && is_object(top(0)), "not a table, or not an object");
    push(top(1));
    pushed(mm_weak(&heap, 1));
    cons();
    push(slot(top(3), 0));
    cons();
    put(3, 0, 0);
    push(0);
}

static void weak_get(void) /* table, key: the value, or () where it was freed or never put */
{
    uint32_t entries;
    check(kind(top(1)) == TABLE, "not a table");
    for (entries = slot(top(1), 0); entries != 0 && car(car(entries)) != top(0); entries = cdr(entries))
        continue;
    push(entries);
    if (entries == 0)
        return;
    push(cdr(car(entries)));
    pushed(mm_look(&heap, 0));
}

static void open_port(void)
{
    check(ports < MOST_PORTS, "too many ports");
    make(mm_new_traced(&heap, true, 0, 2), PORT);
    put_word(0, ports);
    port_is_open[ports++] = true;
}

static void open_ports(void)
{
    int32_t count = 0;
    for (uint32_t i = 0; i < ports; i++)
        count += port_is_open[i];
    push_int(count);
}

static const struct builtin {
    const char *name;
    uint32_t count;
    void (*call)(void);
} builtins[] = {
    {"+", 2, add}, {"-", 2, subtract}, {"*", 2, multiply}, {"/", 2, divide}, {"<", 2, less}, {"=", 2, equal},
    {"null?", 1, is_null}, {"pair?", 1, is_pair}, {"car", 1, first}, {"cdr", 1, rest}, {"cons", 2, pair},
    {"print", 1, print}, {"string-append", 2, string_append}, {"string-length", 1, string_length},
    {"string=?", 2, string_equal}, {"substring", 3, substring}, {"number->string", 1, number_string},
    {"weak-table", 0, weak_table}, {"weak-put!", 3, weak_put}, {"weak-get", 2, weak_get},
    {"open-port", 0, open_port}, {"open-ports", 0, open_ports}, {"collect", 0, collect}, {"cells", 0, cells},
};

/* Evaluation. Its caller pushes an expression and a frame, and finds the value in place of both. */
static void eval(void);

static void eval_part(uint32_t x, uint32_t frame) { push(x), push(frame), eval(); } /* pushes the value */

/* All cells from `base` on make room for the value that is on top. */
static void answer(uint32_t base) { slide(depth - 1 - base); }

/* A tail call: another expression and frame stand at `base`, and nothing above them. Nothing is freed between. */
static void go_on(uint32_t base, uint32_t x, uint32_t frame)
{
    mm_pop(&heap, depth - base);
    mm_push(&heap, x);
    mm_push(&heap, frame);
    depth = base + 2;
}

static void close_over(uint32_t parameters, uint32_t body, uint32_t frame)
{
    make(mm_new_traced(&heap, false, 1, 4), CLOSURE);
    put_word(0, frame);
    put_word(2, parameters);
    put_word(3, body);
}

static void call_closure(uint32_t base, uint32_t f, uint32_t count)
{
    uint32_t expected = 0;
    for (uint32_t rest = slot(f, 2); rest != 0; rest = cdr(rest))
        expected++;
    check(count == expected, "a closure: wrong number of arguments");
    pushed(mm_new_counted(&heap, false, 1, 2 + count));
    put_word(0, slot(f, 0));
    put_word(1, slot(f, 2));
    for (uint32_t i = 0; i < count; i++)
        put(0, 2 + i, count - i);
    go_on(base, slot(f, 3), top(0));
}

/* The cells above `base + 1` are a function and its arguments. Answers whether there is more to evaluate. */
static bool apply(uint32_t base)
{
    uint32_t f = at(base + 2), count = depth - base - 3;
    if (is_builtin(f)) {
        const struct builtin *builtin = &builtins[f - FIRST_BUILTIN];
        check(count == builtin->count, "%s: wrong number of arguments", builtin->name);
        builtin->call();
        answer(base);
        return false;
    }
    check(kind(f) == CLOSURE, "not a function");
    call_closure(base, f, count);
    return true;
}

static bool eval_pair(uint32_t base, uint32_t x, uint32_t frame)
{
    uint32_t head = car(x), rest = cdr(x);
    switch (head) {
    case IF:
        eval_part(car(rest), frame);
        rest = cdr(rest);
        go_on(base, car(top(0) != 0 ? rest : cdr(rest)), frame);
        return true;
    case BEGIN:
        for (; cdr(rest) != 0; rest = cdr(rest))
            eval_part(car(rest), frame), pop(1);
        go_on(base, car(rest), frame);
        return true;
    case QUOTE: push(car(rest)); break;
    case LAMBDA: close_over(car(rest), car(cdr(rest)), frame); break;
    case DEFINE:
    case SET:
        eval_part(car(cdr(rest)), frame);
        set_value(car(rest), head == DEFINE ? 0 : frame);
        break;
    default:
        for (rest = x; rest != 0; rest = cdr(rest))
            eval_part(car(rest), frame);
        return apply(base);
    }
    answer(base);
    return false;
}

static void eval(void)
{
    uint32_t base = depth - 2, x;
    while (kind(at(base)) == PAIR)
        if (!eval_pair(base, at(base), at(base + 1)))
            return;
    x = at(base);
    if (is_symbol(x))
        push_value(x, at(base + 1));
    else
        push(x);
    answer(base);
}

static void define(uint32_t name, uint32_t w) { push(w), set_value(name, 0), pop(1); }

static void run(void)
{
    for (skip(); *source != 0; skip()) {
        bool is_definition;
        read_one();
        is_definition = kind(top(0)) == PAIR && car(top(0)) == DEFINE;
        push(0);
        eval();
        if (!is_definition)
            write_value(top(0)), putchar('\n');
        pop(1);
    }
}

static const char *text_of(const char *path)
{
    static char text[1 << 16];
    FILE *file = fopen(path, "rb");
    check(file != NULL, "no file %s", path);
    text[fread(text, 1, sizeof text - 1, file)] = 0;
    fclose(file);
    return text;
}

int main(int count, char **words)
{
    static const mm_settings settings = {16, 32, 64, 4096, 16384};
    if (count == 3)
        mode = strcmp(words[1], "--reap") == 0 ? REAPING : strcmp(words[1], "--step") == 0 ? STEPPING : PLAIN;
    check(count == 2 || (count == 3 && mode != PLAIN), "lisp [--reap | --step] FILE");
    check(mm_open(&heap, &settings) == MM_DONE, "no heap");
    globals = done(mm_root(&heap, 0, MOST_SYMBOLS + 1));
    for (uint32_t i = 0; i < sizeof builtins / sizeof *builtins; i++)
        define(symbol(builtins[i].name), FIRST_BUILTIN + i);
    define(TRUE, TRUE);
    source = text_of(words[count - 1]);
    run();
    check(depth == 0, "%u cells are left", depth);
    mm_close(&heap);
    return 0;
}
