/* Runs the library's calls, the Rust's lowering and reducing and SQLite on the inputs that bench/run wrote: one process, one round of each after the other.

   driver time INPUTS ROUNDS             a line for each input and side: input, side, answer, then nanoseconds a call, round by round
   driver count INPUTS INPUT SIDE TIMES  only makes the calls, for callgrind to count

   inputs.h says what INPUTS has. */
#include "inputs.h"
#include <sqlite3.h>
#include <string.h>
#include <wenduulig.h>

void *rust_tree(const uint8_t *, size_t, const uint8_t *, size_t);
uint64_t rust_lower(const void *, size_t);
void rust_copy(const void *, size_t);
uint64_t rust_decode_lower(const uint8_t *, size_t, const uint8_t *, size_t, size_t);
size_t rust_text(const void *, uint8_t *, size_t);
uint64_t rust_reduce(const void *, size_t);
size_t rust_reduced_text(const void *, uint8_t *, size_t);

enum { MOST = 128 };
enum { OURS, RUST, RUST_DECODE, RUST_COPY, PREPARE_STEP, STEP };
static const char *side_names[] = {"ours", "rust", "rust_decode", "rust_copy", "prepare_step", "step"};
struct one { struct bytes part[4]; void *tree; sqlite3 *base; sqlite3_stmt *ready; };
struct input { char kind; int versus; size_t count, copies; struct one *ones; };

static struct input *inputs;
static size_t input_count;
static uint8_t out[65536], other[65536];

static void prepare(struct one *o)
{
    if (sqlite3_open(":memory:", &o->base) || sqlite3_exec(o->base, (char *)o->part[2].at, NULL, NULL, NULL))
        fail("SQLite takes no such table");
    if (sqlite3_prepare_v2(o->base, (char *)o->part[3].at, (int)o->part[3].n, &o->ready, NULL))
        fail(sqlite3_errmsg(o->base));
}

static void load(const char *path)
{
    FILE *f = fopen(path, "rb");
    int c;
    if (!f)
        fail("no inputs");
    while ((c = fgetc(f)) != EOF) {
        inputs = realloc(inputs, (input_count + 1) * sizeof *inputs);
        struct input *i = &inputs[input_count++];
        i->kind = (char)c;
        i->versus = fgetc(f);
        i->count = number(f);
        i->ones = calloc(i->count, sizeof *i->ones);
        for (struct one *o = i->ones; o < i->ones + i->count; o++) {
            for (int k = 0; k < 4; k++)
                o->part[k] = part(f);
            /* Copies of a small tree stay in the cache; of a large one only one is made at a time. */
            i->copies = o->part[0].n + o->part[1].n < 2000 ? 32 : 1;
#ifdef RUST_SIDE
            if (i->versus && (c == 'L' || c == 'T'))
                o->tree = rust_tree(o->part[0].at, o->part[0].n, o->part[1].at, o->part[1].n);
#endif
            if (i->versus && c == 'R')
                prepare(o);
        }
    }
    fclose(f);
}

static int64_t ours(char kind, const struct one *o)
{
    const struct bytes *s = &o->part[0], *t = &o->part[1];
    switch (kind) {
    case 'L': return wenduulig_to_sql(s->at, s->n, t->at, t->n, out, sizeof out);
    case 'G': return wenduulig_to_geopackage_sql(s->at, s->n, t->at, t->n, out, sizeof out);
    case 'P': return wenduulig_preview_sql(s->at, s->n, t->at, t->n, sizeof out);
    case 'Q': return wenduulig_preview_geopackage_sql(s->at, s->n, t->at, t->n, sizeof out);
    case 'l': return wenduulig_controller_to_sql(s->at, s->n, t->at, t->n, out, sizeof out);
    case 'g': return wenduulig_controller_to_geopackage_sql(s->at, s->n, t->at, t->n, out, sizeof out);
    case 'p': return wenduulig_controller_preview_sql(s->at, s->n, t->at, t->n, sizeof out);
    case 'q': return wenduulig_controller_preview_geopackage_sql(s->at, s->n, t->at, t->n, sizeof out);
    case 'T': return wenduulig_reduce(t->at, t->n, out, sizeof out);
    default: return wenduulig_read(s->at, s->n, t->at, t->n);
    }
}

static void step(sqlite3_stmt *s)
{
    int r = sqlite3_step(s);
    if (r != SQLITE_ROW && r != SQLITE_DONE)
        fail("SQLite does not run the query");
}

static void prepare_step(const struct one *o)
{
    sqlite3_stmt *s;
    if (sqlite3_prepare_v2(o->base, (char *)o->part[3].at, (int)o->part[3].n, &s, NULL))
        fail("SQLite does not prepare the query");
    step(s);
    sqlite3_finalize(s);
}

/* Nanoseconds of i->copies calls on one case. */
static uint64_t once(const struct input *i, const struct one *o, int side)
{
#ifdef RUST_SIDE
    if (side == RUST)
        return (i->kind == 'T' ? rust_reduce : rust_lower)(o->tree, i->copies);
    if (side == RUST_DECODE)
        return rust_decode_lower(o->part[0].at, o->part[0].n, o->part[1].at, o->part[1].n, i->copies);
    if (side == RUST_COPY)
        return rust_copy(o->tree, i->copies), 0;
#endif
    uint64_t start = clock_ns();
    for (size_t k = 0; k < i->copies; k++) {
        if (side == OURS)
            ours(i->kind, o);
        else if (side == PREPARE_STEP)
            prepare_step(o);
        else
            step(o->ready), sqlite3_reset(o->ready);
    }
    return clock_ns() - start;
}

/* Nanoseconds a call, over so many passes over the input's cases. */
static double passes(const struct input *i, int side, size_t times)
{
    uint64_t sum = 0;
    for (size_t t = 0; t < times; t++)
        for (size_t k = 0; k < i->count; k++)
            sum += once(i, &i->ones[k], side);
    return (double)sum / (double)(times * i->count * i->copies);
}

static int takes_part(const struct input *i, int side)
{
#ifdef RUST_SIDE
    if (side == RUST || side == RUST_DECODE)
        return i->versus && (i->kind == 'L' || (side == RUST && i->kind == 'T'));
#endif
    if (side == PREPARE_STEP || side == STEP)
        return i->versus && i->kind == 'R';
    return side == OURS;
}

/* What SQLite makes of the text on the row: 1, 0, or 2 for NULL. */
static int truth(const struct one *o)
{
    sqlite3_stmt *s;
    char *sql = sqlite3_mprintf("SELECT (%s) FROM t", (char *)o->part[0].at);
    if (sqlite3_prepare_v2(o->base, sql, -1, &s, NULL) || sqlite3_step(s) != SQLITE_ROW)
        fail("SQLite does not run the text");
    int said = sqlite3_column_type(s, 0) == SQLITE_NULL ? 2 : sqlite3_column_int(s, 0);
    sqlite3_finalize(s);
    sqlite3_free(sql);
    return said;
}

#ifdef RUST_SIDE
/* Whether the Rust has the text that is ours, where our call answered n; of a reduced tree, once it is lowered. */
static int rust_agrees(char kind, const struct one *o, int64_t n)
{
    static uint8_t text[65536];
    const uint8_t *said = out;
    if (kind == 'T' && n > 0) {
        n = wenduulig_to_sql(o->part[0].at, o->part[0].n, out, (size_t)n, text, sizeof text);
        said = text;
    }
    return n >= 0 && (kind == 'T' ? rust_reduced_text : rust_text)(o->tree, other, sizeof other) == (size_t)n && !memcmp(said, other, (size_t)n);
}
#endif

/* Both sides must give the same answer, or a ratio of their times says nothing. Returns the bytes of text, or the one answer of a reading. */
static long long same(const struct input *i)
{
    long long total = 0;
    for (struct one *o = i->ones; o < i->ones + i->count; o++) {
        int64_t n = ours(i->kind, o);
        total += n;
#ifdef RUST_SIDE
        if (o->tree && !rust_agrees(i->kind, o, n))
            fail("the Rust gives another text");
#endif
        if (o->ready && n != truth(o))
            fail("SQLite gives another answer");
    }
    return total;
}

static void measure(size_t rounds)
{
    static double got[MOST][6][256];
    static size_t times[MOST][6];
    if (input_count > MOST || rounds > 256)
        fail("too many inputs or rounds");
    for (size_t r = 0; r <= rounds; r++)    /* the round 0 only finds how many passes take two milliseconds */
        for (size_t k = 0; k < input_count; k++)
            for (int side = 0; side < 6; side++) {
                struct input *i = &inputs[k];
                if (!takes_part(i, side))
                    continue;
                if (r > 0) {
                    got[k][side][r - 1] = passes(i, side, times[k][side]);
                    continue;
                }
                double one = passes(i, side, 1) * (double)(i->count * i->copies);
                times[k][side] = 1 + (size_t)(2e6 / (one + 1));
            }
    for (size_t k = 0; k < input_count; k++)
        for (int side = 0; side < 6; side++) {
            if (!takes_part(&inputs[k], side))
                continue;
            printf("%zu %s %lld", k, side_names[side], same(&inputs[k]));
            for (size_t r = 0; r < rounds; r++)
                printf(" %.2f", got[k][side][r]);
            printf("\n");
        }
}

int main(int argc, char **argv)
{
    if (argc == 4 && !strcmp(argv[1], "time")) {
        load(argv[2]);
        for (size_t k = 0; k < input_count; k++)
            same(&inputs[k]);
        measure((size_t)atol(argv[3]));
        return 0;
    }
    if (argc != 6 || strcmp(argv[1], "count"))
        fail("usage: driver time INPUTS ROUNDS | driver count INPUTS INPUT SIDE TIMES");
    load(argv[2]);
    struct input *i = &inputs[atol(argv[3])];
    i->copies = 1;
    for (int side = 0; side < 6; side++)
        if (!strcmp(argv[4], side_names[side]) && atol(argv[5]) > 0)
            passes(i, side, (size_t)atol(argv[5]));
    return 0;
}
