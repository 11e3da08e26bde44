/* Runs the same inputs with several builds of the library, one round of each after the other in one process.

   builds time INPUTS ROUNDS LIBRARY..      a line for each input: 1 if all answer alike, else 0; then for each library the lower quartile of its
                                            rounds, nanoseconds a pass
   builds count INPUTS INPUT TIMES LIBRARY  only makes the calls, for callgrind to count

   inputs.h says what INPUTS has; each library is a shared object. */
#include "inputs.h"
#include <alloca.h>
#include <dlfcn.h>
#include <string.h>

enum { MOST = 128 };
struct input { char kind; size_t count; struct bytes (*ones)[4]; };
typedef int64_t writer(const uint8_t *, size_t, const uint8_t *, size_t, uint8_t *, size_t);
typedef int64_t previewer(const uint8_t *, size_t, const uint8_t *, size_t, size_t);
typedef int64_t reducer(const uint8_t *, size_t, uint8_t *, size_t);
typedef int32_t reader(const uint8_t *, size_t, const uint8_t *, size_t);
enum { FUNCTIONS = 10 };
static const struct { char kind; const char *name; } functions[FUNCTIONS] = {
    {'L', "wenduulig_to_sql"}, {'G', "wenduulig_to_geopackage_sql"}, {'P', "wenduulig_preview_sql"}, {'Q', "wenduulig_preview_geopackage_sql"},
    {'l', "wenduulig_controller_to_sql"}, {'g', "wenduulig_controller_to_geopackage_sql"}, {'p', "wenduulig_controller_preview_sql"},
    {'q', "wenduulig_controller_preview_geopackage_sql"}, {'T', "wenduulig_reduce"}, {'R', "wenduulig_read"}};
/* An earlier build may lack a function: it is NULL. */
struct build {
    union { void *at; writer *write; previewer *preview; reducer *reduce; reader *read; } calls[FUNCTIONS];
};

static struct input inputs[MOST];
static struct build builds[MOST];
static size_t input_count, build_count;
static uint8_t out[65536];

static void load_inputs(const char *path)
{
    FILE *f = fopen(path, "rb");
    int c;
    if (!f)
        fail("no inputs");
    while ((c = fgetc(f)) != EOF) {
        if (input_count == MOST)
            fail("too many inputs");
        struct input *i = &inputs[input_count++];
        i->kind = (char)c;
        fgetc(f);
        i->count = number(f);
        i->ones = calloc(i->count, sizeof *i->ones);
        for (size_t k = 0; k < 4 * i->count; k++)
            i->ones[k / 4][k % 4] = part(f);
    }
    fclose(f);
}

static size_t place_of(char kind)
{
    for (size_t k = 0; k < FUNCTIONS; k++)
        if (functions[k].kind == kind)
            return k;
    fail("an input of no function");
    return 0;
}

static void load_build(const char *path)
{
    void *so = dlopen(path, RTLD_NOW | RTLD_LOCAL);
    if (!so || build_count == MOST)
        fail(so ? "too many libraries" : dlerror());
    struct build *b = &builds[build_count++];
    for (size_t k = 0; k < FUNCTIONS; k++)
        b->calls[k].at = dlsym(so, functions[k].name);
    for (size_t k = 0; k < input_count; k++)
        if (!b->calls[place_of(inputs[k].kind)].at)
            fail("a library lacks a function that an input is for");
}

static int64_t pass(const struct input *i, const struct build *b)
{
    const size_t place = place_of(i->kind);
    int64_t sum = 0;
    for (size_t k = 0; k < i->count; k++) {
        const struct bytes *p = i->ones[k];
        if (strchr("LGlg", i->kind))
            sum += b->calls[place].write(p[0].at, p[0].n, p[1].at, p[1].n, out, sizeof out);
        else if (i->kind == 'T')
            sum += b->calls[place].reduce(p[1].at, p[1].n, out, sizeof out);
        else if (i->kind != 'R')
            sum += b->calls[place].preview(p[0].at, p[0].n, p[1].at, p[1].n, sizeof out);
        else
            sum += b->calls[place].read(p[0].at, p[0].n, p[1].at, p[1].n);
    }
    return sum;
}

static double round_of(const struct input *i, const struct build *b, size_t times)
{
    /* Where the stack lies in a cache line changes the time too: at another place for each layout, the same for both of its libraries. */
    volatile char *gap = alloca(16 + 16 * ((size_t)(b - builds) / 2 * 7 % 64));
    gap[0] = 0;
    uint64_t start = clock_ns();
    for (size_t t = 0; t < times; t++)
        pass(i, b);
    return (double)(clock_ns() - start) / (double)times;
}

static int smaller(const void *a, const void *b)
{
    double x = *(const double *)a, y = *(const double *)b;
    return x < y ? -1 : x > y;
}

static int alike(const struct input *i)
{
    for (size_t b = 1; b < build_count; b++)
        if (pass(i, &builds[b]) != pass(i, &builds[0]))
            return 0;
    return 1;
}

static void measure(const struct input *i, size_t rounds)
{
    static double got[MOST][256];
    size_t times = 1 + (size_t)(1e6 / (round_of(i, &builds[0], 1) + 1));
    for (size_t r = 0; r < rounds; r++)
        for (size_t b = 0; b < build_count; b++)
            got[b][r] = round_of(i, &builds[b], times);
    printf("%d", alike(i));
    for (size_t b = 0; b < build_count; b++) {
        qsort(got[b], rounds, sizeof(double), smaller);
        printf(" %.1f", got[b][rounds / 4]);
    }
    printf("\n");
}

int main(int argc, char **argv)
{
    int timed = argc > 4 && !strcmp(argv[1], "time");
    if (!timed && (argc != 6 || strcmp(argv[1], "count")))
        fail("usage: builds time INPUTS ROUNDS LIBRARY.. | builds count INPUTS INPUT TIMES LIBRARY");
    load_inputs(argv[2]);
    for (int k = timed ? 4 : 5; k < argc; k++)
        load_build(argv[k]);
    size_t number = (size_t)atol(argv[3]);
    if (timed ? number < 1 || number > 256 : number >= input_count)
        fail("no such round or input");
    for (size_t k = 0; timed && k < input_count; k++)
        measure(&inputs[k], number);
    for (long t = timed ? 0 : atol(argv[4]); t > 0; t--)
        pass(&inputs[number], &builds[0]);
    return 0;
}
