/* What the drivers share: the parts of the inputs that inputs.py writes, and the clock.

   The inputs: for each a letter (L lowering by the first call, G by the second, P and Q their previews, in small letters the controller's, T reducing, R
   reading), a byte (1: also the other sides), a count of cases in four bytes; for each case four byte strings after their lengths in four bytes: settings,
   tree, -, - or text, row, the SQL that makes the table, the query. */
#define _GNU_SOURCE
#include <stdint.h>
#include <stdio.h>
#include <stdlib.h>
#include <time.h>

struct bytes { uint8_t *at; size_t n; };

/* The time of this thread alone: another program on the same core does not count. */
uint64_t clock_ns(void)
{
    struct timespec t;
    clock_gettime(CLOCK_THREAD_CPUTIME_ID, &t);
    return (uint64_t)t.tv_sec * 1000000000u + (uint64_t)t.tv_nsec;
}

static void fail(const char *what)
{
    fprintf(stderr, "bench: %s\n", what);
    exit(2);
}

static uint32_t number(FILE *f)
{
    uint32_t n;
    if (fread(&n, 4, 1, f) != 1)
        fail("the inputs end early");
    return n;
}

static struct bytes part(FILE *f)
{
    struct bytes b = {NULL, number(f)};
    b.at = malloc(b.n + 1);
    if (fread(b.at, 1, b.n, f) != b.n)
        fail("the inputs end early");
    b.at[b.n] = 0;
    return b;
}
