/* clock.h: how long the benchmarks take. */
#ifndef CLOCK_H
#define CLOCK_H

#include <stdio.h>
#include <stdlib.h>
#include <time.h>

static inline double seconds(void)
{
    return (double)clock() / CLOCKS_PER_SEC;
}

/* What a benchmark was asked for: the word at a place, or a number that is taken without it. */
static inline unsigned asked(int count, char **words, int i, unsigned otherwise)
{
    return i < count ? (unsigned)strtoul(words[i], NULL, 10) : otherwise;
}

static inline void tell(const char *what, double since, unsigned long objects)
{
    double taken = seconds() - since;
    printf("%-8s %.3f s, %.0f ns an object\n", what, taken, taken * 1e9 / (double)objects);
}

#endif
