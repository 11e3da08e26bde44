/* Tests of include/wenduulig.h: texts, reduced trees, truths, every refusal, and that lent bytes stay as they were; all of lowering
 * by both calls that write, and by their previews; by the controller's functions what both callers answer alike, and its own limits.
 * Each part is handed over in memory of exactly its size, so that valgrind sees any access past its end. */
#include <pthread.h>
#include <stdio.h>
#include <stdlib.h>
#include <string.h>

#include "damaged.h"
#include "wenduulig.h"

enum { SCRATCH = 70000, FILL = 0xA5, STACK = 128 * 1024 };

/* Bytes under construction. */
struct bytes {
    uint8_t at[SCRATCH];
    size_t n;
};

/* The calls that write, with their previews, what stands after a timestamp's seconds, and an Interval's open end. */
static const struct writing {
    int64_t (*to_sql)(const uint8_t *, size_t, const uint8_t *, size_t, uint8_t *, size_t);
    int64_t (*preview)(const uint8_t *, size_t, const uint8_t *, size_t, size_t);
    const char *name, *after, *end;
} first_call = {wenduulig_to_sql, wenduulig_preview_sql, "to_sql", "", "'-2021-01-01'"},
  second_call = {wenduulig_to_geopackage_sql, wenduulig_preview_geopackage_sql, "to_geopackage_sql", ".000Z", "'A'"},
  controller_first = {wenduulig_controller_to_sql, wenduulig_controller_preview_sql, "controller_to_sql", "", "'-2021-01-01'"},
  controller_second = {wenduulig_controller_to_geopackage_sql, wenduulig_controller_preview_geopackage_sql,
                       "controller_to_geopackage_sql", ".000Z", "'A'"},
  /* what is tested is reading, on texts of the first */
  before_reading = {wenduulig_to_sql, wenduulig_preview_sql, "read", "", "'-2021-01-01'"},
  /* and here reducing */
  after_reducing = {wenduulig_to_sql, wenduulig_preview_sql, "reduce", "", "'-2021-01-01'"};

static const struct writing *writing = &first_call;
static int passed, failed;

static void check(int ok, const char *what)
{
    if (ok) {
        passed++;
        return;
    }
    failed++;
    printf("FAILED (%s): %s\n", writing->name, what);
}

/* ---- making records ---- */

static void put(struct bytes *b, const void *from, size_t n)
{
    if (n > SCRATCH - b->n) {
        fprintf(stderr, "the test's own buffer is too small\n");
        exit(2);
    }
    if (n > 0)
        memcpy(b->at + b->n, from, n);
    b->n += n;
}

static void put_byte(struct bytes *b, unsigned x)
{
    uint8_t one = (uint8_t)x;
    put(b, &one, 1);
}

static void put_text(struct bytes *b, const char *s)
{
    put(b, s, strlen(s));
}

static void put_named(struct bytes *b, const char *name)
{
    put_byte(b, (unsigned)strlen(name));
    put_text(b, name);
}

/* A record's head; its length is set by `end`. Answers where the record begins. */
static size_t begin(struct bytes *b, unsigned kind)
{
    size_t start = b->n;
    const uint8_t head[6] = {0, 0, 0, 0, (uint8_t)kind, (uint8_t)(kind >> 8)};
    put(b, head, sizeof head);
    return start;
}

static void end(struct bytes *b, size_t start)
{
    size_t n = b->n - start - 4;
    for (int i = 0; i < 4; i++)
        b->at[start + (size_t)i] = (uint8_t)(n >> (8 * i));
}

static size_t begin_op(struct bytes *b, unsigned kind, unsigned op)
{
    size_t start = begin(b, kind);
    put_byte(b, op);
    put_byte(b, 0);
    return start;
}

static void put_leaf(struct bytes *b, unsigned kind)
{
    end(b, begin(b, kind));
}

static void put_id(struct bytes *b, const char *name)
{
    size_t start = begin(b, WENDUULIG_ID);
    put_text(b, name);
    end(b, start);
}

static void put_date(struct bytes *b, unsigned year, unsigned month, unsigned day)
{
    size_t start = begin(b, WENDUULIG_DATE);
    put_byte(b, year & 255);
    put_byte(b, year >> 8);
    put_byte(b, month);
    put_byte(b, day);
    end(b, start);
}

static void make_settings(struct bytes *b)
{
    b->n = 0;
    size_t start = begin(b, WENDUULIG_SETTINGS);
    put_byte(b, 7);
    put_named(b, "NC");
    put_named(b, "NA");
    put_named(b, "NCA");
    end(b, start);
}

/* TDisjoint(a, [b, c]): sheet J of document 01. */
static void make_sheet_j(struct bytes *b)
{
    b->n = 0;
    size_t start = begin_op(b, WENDUULIG_DYADIC, WENDUULIG_T_DISJOINT);
    put_id(b, "a");
    size_t interval = begin(b, WENDUULIG_INTERVAL);
    put_id(b, "b");
    put_id(b, "c");
    end(b, interval);
    end(b, start);
}

static const char sheet_j[] = "(\"c\" IS NOT NULL AND (a < b)) OR (\"b\" IS NOT NULL AND (a > c))";

/* `levels` records, one inside another: Neg of Neg of .. Null. */
static void make_deep(struct bytes *b, int levels)
{
    size_t starts[64];
    b->n = 0;
    for (int i = 1; i < levels; i++)
        starts[i] = begin_op(b, WENDUULIG_MONADIC, WENDUULIG_NEG);
    put_leaf(b, WENDUULIG_NULL);
    for (int i = 1; i < levels; i++)
        end(b, starts[i]);
}

/* An Array of n open ends and, if it has a letter, one name: a text of 15 n bytes, and the name's length and 2 more. */
static void make_long(struct bytes *b, int n, const char *name)
{
    b->n = 0;
    size_t start = begin(b, WENDUULIG_ARRAY);
    for (int i = 0; i < n; i++)
        put_leaf(b, WENDUULIG_UNBOUNDED);
    if (*name)
        put_id(b, name);
    end(b, start);
}

/* A column of a row; NULL where there is no value. */
static void put_column(struct bytes *b, const char *name, const char *value)
{
    size_t start = begin(b, WENDUULIG_COLUMN);
    put_named(b, name);
    put_byte(b, value ? 1 : 0);
    if (value)
        put_text(b, value);
    end(b, start);
}

/* ---- calls on memory of exact size ---- */

static uint8_t *filled(size_t n)
{
    uint8_t *p = malloc(n);
    if (!p) {
        fprintf(stderr, "no memory\n");
        exit(2);
    }
    memset(p, FILL, n);
    return p;
}

static uint8_t *exact_copy(const void *from, size_t n)
{
    uint8_t *p = filled(n);
    if (n > 0)
        memcpy(p, from, n);
    return p;
}

static int all_filled(const uint8_t *p, size_t n)
{
    for (size_t i = 0; i < n; i++)
        if (p[i] != FILL)
            return 0;
    return 1;
}

/* Lowers into a filled buffer of out_len bytes; the text goes to `text`. `clean` is 0 where the answer is out of range or
 * a lent byte changed that must not. */
static int64_t lower(const struct bytes *settings, const struct bytes *tree, size_t out_len, struct bytes *text, int *clean)
{
    uint8_t *s = exact_copy(settings->at, settings->n);
    uint8_t *t = exact_copy(tree->at, tree->n);
    uint8_t *out = filled(out_len);
    int64_t n = writing->to_sql(s, settings->n, t, tree->n, out, out_len);
    size_t used = n > 0 ? (size_t)n : 0;
    *clean = n >= -9 && used <= out_len && all_filled(out + used, out_len - used);
    *clean = *clean && memcmp(s, settings->at, settings->n) == 0 && memcmp(t, tree->at, tree->n) == 0;
    text->n = 0;
    if (*clean)
        put(text, out, used);
    free(s);
    free(t);
    free(out);
    return n;
}

static int32_t read_row(const void *text, size_t text_len, const struct bytes *row)
{
    uint8_t *s = exact_copy(text, text_len);
    uint8_t *r = exact_copy(row->at, row->n);
    int32_t answer = wenduulig_read(s, text_len, r, row->n);
    check(memcmp(s, text, text_len) == 0 && memcmp(r, row->at, row->n) == 0, "reading changes neither text nor row");
    free(s);
    free(r);
    return answer;
}

/* ---- the tests ---- */

static struct bytes settings, tree, text, row;

/* What the preview answers of a buffer of this size; INT64_MIN, which is no answer, if a byte of its inputs changed. */
static int64_t preview(size_t size)
{
    uint8_t *s = exact_copy(settings.at, settings.n);
    uint8_t *t = exact_copy(tree.at, tree.n);
    int64_t n = writing->preview(s, settings.n, t, tree.n, size);
    int kept = memcmp(s, settings.at, settings.n) == 0 && memcmp(t, tree.at, tree.n) == 0;
    free(s);
    free(t);
    return kept ? n : INT64_MIN;
}

/* The text's length from that size on, 9 below it. */
static void expect_previews(size_t n, const char *what)
{
    check(preview(0) == -WENDUULIG_BUFFER_TOO_SHORT, what);
    check(preview(n - 1) == -WENDUULIG_BUFFER_TOO_SHORT, what);
    check(preview(n) == (int64_t)n, what);
    check(preview(n + 1) == (int64_t)n, what);
    check(preview(SIZE_MAX) == (int64_t)n, what);
}

static void expect_length(size_t out_len, size_t want, const char *what)
{
    int clean;
    check(lower(&settings, &tree, out_len, &text, &clean) == (int64_t)want, what);
    check(clean, "bytes past the text and the inputs are as lent");
    expect_previews(want, what);
}

static void expect_text(size_t out_len, const char *want, const char *what)
{
    expect_length(out_len, strlen(want), what);
    check(text.n == strlen(want) && memcmp(text.at, want, text.n) == 0, what);
}

static void expect_refusal(size_t out_len, int number, const char *what)
{
    int clean;
    int64_t n = lower(&settings, &tree, out_len, &text, &clean);
    check(n == -number, what);
    check(clean && text.n == 0, "after a refusal every lent byte is as it was");
    check(preview(out_len) == -number, what);
    if (number == WENDUULIG_BUFFER_TOO_SHORT)
        return;
    check(preview(0) == -number, what);
    check(preview(SIZE_MAX) == -number, what);
}

static void expect_read(const char *sql, int32_t want, const char *what)
{
    check(read_row(sql, strlen(sql), &row) == want, what);
}

static void test_texts(void)
{
    make_settings(&settings);
    make_sheet_j(&tree);
    expect_text(strlen(sheet_j), sheet_j, "sheet J into a buffer of exactly its length");
    expect_text(WENDUULIG_TEXT_MAX, sheet_j, "sheet J into the largest buffer");
    tree.n = 0;
    put_leaf(&tree, WENDUULIG_NULL);
    expect_text(4, "NULL", "sheet A");
    tree.n = 0;
    size_t start = begin_op(&tree, WENDUULIG_DYADIC, WENDUULIG_T_INTERSECTS);
    put_date(&tree, 2024, 2, 29);
    size_t interval = begin(&tree, WENDUULIG_INTERVAL);
    put_leaf(&tree, WENDUULIG_UNBOUNDED);
    put_id(&tree, "c");
    end(&tree, interval);
    end(&tree, start);
    expect_text(200, "NOT(('2024-02-29' < '-2021-01-01') OR ('2024-02-29' > c))", "sheet K");
}

static char expected[400];

/* A record of a kind that has a fixed body before an optional text. */
static void put_fields(struct bytes *b, unsigned kind, const uint8_t *fields, size_t n, const char *rest)
{
    size_t start = begin(b, kind);
    put(b, fields, n);
    put_text(b, rest);
    end(b, start);
}

static void put_str(struct bytes *b, unsigned flags, const char *s)
{
    const uint8_t one = (uint8_t)flags;
    put_fields(b, WENDUULIG_STR, &one, 1, s);
}

/* The kinds that the sheets above leave out, by the header's layout. */
static void test_kinds(void)
{
    const uint8_t yes[] = {1}, half[] = {0xFB, 255, 255, 255, 255, 255, 255, 255, 1}, icase[] = {1};
    const uint8_t second[] = {0xE8, 7, 1, 2, 3, 4, 5}, wgs84[] = {0xE6, 0x10, 0, 0};
    make_settings(&settings);
    tree.n = 0;
    size_t start = begin(&tree, WENDUULIG_FUNCTION);
    put_named(&tree, "f");
    put_fields(&tree, WENDUULIG_BOOL, yes, sizeof yes, "");
    put_fields(&tree, WENDUULIG_NUM, half, sizeof half, "");
    put_fields(&tree, WENDUULIG_STR, icase, sizeof icase, "x y");
    put_fields(&tree, WENDUULIG_TIMESTAMP, second, sizeof second, "");
    put_fields(&tree, WENDUULIG_SPATIAL, wgs84, sizeof wgs84, "POINT (1 2)");
    size_t monadic = begin_op(&tree, WENDUULIG_MONADIC, WENDUULIG_IS_NOT_NULL);
    put_id(&tree, "a");
    end(&tree, monadic);
    end(&tree, start);
    snprintf(expected, sizeof expected,
             "f(TRUE, -0.5, 'x y' COLLATE NC, '2024-01-02T03:04:05%s', ST_GeomFromText('POINT (1 2)', 4326), a IS NOT NULL)",
             writing->after);
    expect_text(200, expected, "a Bool, a Num, a Str, a Timestamp, a Spatial and a Monadic in a Function");
}

static void put_stamp(struct bytes *b)
{
    const uint8_t fields[] = {0xE8, 7, 2, 29, 12, 0, 0};
    put_fields(b, WENDUULIG_TIMESTAMP, fields, sizeof fields, "");
}

/* TEquals([a, 2024-02-29T12:00:00], [.., the same]) in an Array with it, a Date, and a Str that looks like it. */
static void make_stamps(struct bytes *b)
{
    b->n = 0;
    size_t list = begin(b, WENDUULIG_ARRAY), equals = begin_op(b, WENDUULIG_DYADIC, WENDUULIG_T_EQUALS);
    for (unsigned side = 0; side < 2; side++) {
        size_t interval = begin(b, WENDUULIG_INTERVAL);
        if (side == 0)
            put_id(b, "a");
        else
            put_leaf(b, WENDUULIG_UNBOUNDED);
        put_stamp(b);
        end(b, interval);
    }
    end(b, equals);
    put_stamp(b);
    put_date(b, 2024, 2, 29);
    put_str(b, 0, "2024-02-29T12:00:00");
    put_str(b, 0, "2024-02-29T12:00:00.000Z");
    end(b, list);
}

/* Only timestamps are written otherwise here, in every place, and the room is that of the longer text. */
static void test_timestamps(void)
{
    make_settings(&settings);
    make_stamps(&tree);
    snprintf(expected, sizeof expected,
             "((a = '-2021-01-01') AND ('2024-02-29T12:00:00%s' = '2024-02-29T12:00:00%s'), '2024-02-29T12:00:00%s', '2024-02-29', "
             "'2024-02-29T12:00:00', '2024-02-29T12:00:00.000Z')",
             writing->after, writing->after, writing->after);
    expect_text(strlen(expected), expected, "timestamps in an Interval and in an Array, into a buffer of exactly the length");
    expect_text(300, expected, "the same into a longer one");
    expect_refusal(strlen(expected) - 1, WENDUULIG_BUFFER_TOO_SHORT, "9: a buffer one byte short of it");
    tree.n = 0;
    put_stamp(&tree);
    if (*writing->after)
        expect_refusal(21, WENDUULIG_BUFFER_TOO_SHORT, "9: a buffer of the first call's length");
}

/* An Array of n timestamps and a name: 23 bytes each, 28 by the second call, the name's length and 2 more. */
static void make_many_stamps(struct bytes *b, int n, const char *name)
{
    b->n = 0;
    size_t start = begin(b, WENDUULIG_ARRAY);
    for (int i = 0; i < n; i++)
        put_stamp(b);
    put_id(b, name);
    end(b, start);
}

/* 8 and 9 count the text that the call writes. */
static void test_timestamp_limits(void)
{
    int second = *writing->after != 0;
    make_settings(&settings);
    make_many_stamps(&tree, 2340, "thirteen_long");
    size_t whole = second ? 65535 : 53835;
    expect_length(65535, whole, "2,340 timestamps, 65,535 bytes by the second call");
    expect_refusal(whole - 1, WENDUULIG_BUFFER_TOO_SHORT, "9: a buffer one byte short of it");
    make_many_stamps(&tree, 2340, "fourteen_bytes");
    if (second)
        expect_refusal(65535, WENDUULIG_TEXT_TOO_LONG, "8: a byte more, which the first call takes");
    else
        expect_length(65535, 53836, "a byte more, which the second call refuses with 8");
}

/* What each call's text says of an instant as a GeoPackage stores it, and without .000Z. */
static void test_timestamp_truths(void)
{
    int32_t second = *writing->after != 0;
    int clean;
    make_settings(&settings);
    tree.n = 0;
    size_t start = begin_op(&tree, WENDUULIG_DYADIC, WENDUULIG_T_AFTER);
    put_id(&tree, "a");
    put_stamp(&tree);
    end(&tree, start);
    const char *const values[] = {"2024-02-29T11:59:59.999Z", "2024-02-29T12:00:00.000Z", "2024-02-29T12:00:00.001Z",
                                  "2024-02-29T12:00:00"};
    const int32_t truths[] = {0, !second, 1, 0};
    for (size_t i = 0; i < sizeof values / sizeof *values; i++) {
        lower(&settings, &tree, 100, &text, &clean);
        row.n = 0;
        put_column(&row, "a", values[i]);
        check(read_row(text.at, text.n, &row) == truths[i], values[i]);
    }
}

static void put_interval(struct bytes *b, const char *first, const char *second)
{
    size_t interval = begin(b, WENDUULIG_INTERVAL);
    for (int side = 0; side < 2; side++) {
        const char *name = side ? second : first;
        if (*name)
            put_id(b, name);
        else
            put_leaf(b, WENDUULIG_UNBOUNDED);
    }
    end(b, interval);
}

/* The operator of two intervals; a name is a column's, none stands for an open start or end. */
static void make_spans(struct bytes *b, unsigned op, const char *const names[4])
{
    b->n = 0;
    size_t start = begin_op(b, WENDUULIG_DYADIC, op);
    put_interval(b, names[0], names[1]);
    put_interval(b, names[2], names[3]);
    end(b, start);
}

/* Ends and starts; in the texts each ^ is an open end, each _ an open start. */
static const struct spans {
    unsigned op;
    const char *names[4], *form;
} spans[] = {
    {WENDUULIG_T_AFTER, {"a", "", "b", ""}, "\"b\" IS NOT NULL AND (a > ^)"},
    {WENDUULIG_T_BEFORE, {"a", "", "b", "c"}, "\"a\" IS NOT NULL AND \"c\" NOT NULL AND (^ < b)"},
    {WENDUULIG_T_INTERSECTS, {"", "", "", ""}, "NOT((^ < _) OR (_ > ^))"},
    {WENDUULIG_T_DISJOINT, {"a", "", "", "b"}, "(\"a\" IS NOT NULL AND \"b\" NOT NULL AND (^ < _)) OR (a > b)"},
    {WENDUULIG_T_EQUALS, {"a", "", "b", ""}, "(a = b) AND (^ = ^)"},
    {WENDUULIG_T_DURING, {"", "a", "b", ""}, "(_ > b) AND (a < ^)"},
    {WENDUULIG_T_CONTAINS, {"a", "", "b", "c"}, "(a < b) AND (^ > c)"},
    {WENDUULIG_T_OVERLAPPED_BY, {"a", "", "b", "c"}, "(a > b) AND (a < c) AND (^ > c)"},
    {WENDUULIG_T_MEETS, {"a", "", "", "b"}, "\"a\" IS NOT NULL AND \"b\" NOT NULL AND (^ = _)"},
    {WENDUULIG_T_MET_BY, {"", "a", "b", ""}, "\"a\" IS NOT NULL AND \"b\" NOT NULL AND (_ = ^)"}};

/* The form with this call's open end for each ^, and an open start for each _. */
static const char *with_ends(const char *form)
{
    size_t n = 0;
    for (; *form; form++) {
        const char one[] = {*form, 0}, *part = *form == '^' ? writing->end : *form == '_' ? "'-2021-01-01'" : one;
        n += (size_t)snprintf(expected + n, sizeof expected - n, "%s", part);
    }
    return expected;
}

/* An open end is this call's own, an open start the same in both, and the room is that of the call's text. */
static void test_open_ends(void)
{
    make_settings(&settings);
    for (size_t i = 0; i < sizeof spans / sizeof *spans; i++) {
        const char *want = with_ends(spans[i].form);
        make_spans(&tree, spans[i].op, spans[i].names);
        expect_text(strlen(want), want, spans[i].form);
        expect_text(300, want, spans[i].form);
        expect_refusal(strlen(want) - 1, WENDUULIG_BUFFER_TOO_SHORT, "9: a buffer one byte short of it");
    }
}

/* An Unbounded that is no end of an Interval: alone, as an operand beside one, in a list and as an argument inside an end. */
static void test_lone_unbounded(void)
{
    make_settings(&settings);
    tree.n = 0;
    put_leaf(&tree, WENDUULIG_UNBOUNDED);
    expect_text(100, "'-2021-01-01'", "a lone Unbounded");
    tree.n = 0;
    size_t start = begin_op(&tree, WENDUULIG_DYADIC, WENDUULIG_T_EQUALS);
    put_leaf(&tree, WENDUULIG_UNBOUNDED);
    put_interval(&tree, "", "");
    end(&tree, start);
    expect_text(100, with_ends("(_ = _) AND (_ = ^)"), "an Unbounded beside an Interval of two");
    tree.n = 0;
    start = begin_op(&tree, WENDUULIG_DYADIC, WENDUULIG_T_AFTER);
    put_id(&tree, "a");
    size_t interval = begin(&tree, WENDUULIG_INTERVAL), list, call;
    put_id(&tree, "b");
    list = begin(&tree, WENDUULIG_ARRAY);
    put_leaf(&tree, WENDUULIG_UNBOUNDED);
    call = begin(&tree, WENDUULIG_FUNCTION);
    put_named(&tree, "f");
    put_leaf(&tree, WENDUULIG_UNBOUNDED);
    end(&tree, call);
    end(&tree, list);
    end(&tree, interval);
    end(&tree, start);
    expect_text(100, with_ends("\"b\" IS NOT NULL AND (a > (_, f(_)))"), "Unbounded in a list and a call inside an end");
}

/* 8 counts this call's text: TEquals(a, [.., ..]) eleven times over beside a Str, 65,535 bytes by the second call, 86,005 by
 * the first. */
static void test_open_end_limits(void)
{
    static const char filler[] = "yyyyyyyyyyyyyyyyyyyyyy";
    size_t starts[11];
    make_settings(&settings);
    for (size_t more = 0; more < 2; more++) {
        tree.n = 0;
        size_t both = begin_op(&tree, WENDUULIG_DYADIC, WENDUULIG_AND);
        for (int i = 0; i < 11; i++)
            starts[i] = begin_op(&tree, WENDUULIG_DYADIC, WENDUULIG_T_EQUALS);
        put_id(&tree, "a");
        for (int i = 10; i >= 0; i--) {
            put_interval(&tree, "", "");
            end(&tree, starts[i]);
        }
        put_str(&tree, 0, filler + 1 - more);
        end(&tree, both);
        if (*writing->after && !more)
            expect_length(65535, 65535, "65,535 bytes, an 8 by the first call");
        else
            expect_refusal(65535, WENDUULIG_TEXT_TOO_LONG, "8: open ends written twice at each level");
    }
}

/* What each call's text says of a stay that has not ended, [a, ..], against a later instant. */
static void test_open_end_truths(void)
{
    static const struct {
        unsigned op;
        const char *names[4];
        int32_t first, second;
    } cases[] = {{WENDUULIG_T_INTERSECTS, {"a", "", "b", "b"}, 0, 1}, {WENDUULIG_T_BEFORE, {"a", "", "b", "b"}, 1, 0},
                 {WENDUULIG_T_DISJOINT, {"b", "b", "a", ""}, 1, 0},   {WENDUULIG_T_CONTAINS, {"a", "", "b", "b"}, 0, 1},
                 {WENDUULIG_T_AFTER, {"b", "b", "a", ""}, 1, 0},      {WENDUULIG_T_EQUALS, {"a", "", "a", ""}, 1, 1},
                 {WENDUULIG_T_MEETS, {"a", "", "", "b"}, 1, 0},       {WENDUULIG_T_FINISHES, {"b", "", "a", ""}, 1, 1}};
    int clean;
    make_settings(&settings);
    row.n = 0;
    put_column(&row, "a", "2024-02-29T12:00:00.000Z");
    put_column(&row, "b", "9999-12-31T23:59:59.999Z");
    for (size_t i = 0; i < sizeof cases / sizeof *cases; i++) {
        make_spans(&tree, cases[i].op, cases[i].names);
        lower(&settings, &tree, 200, &text, &clean);
        int32_t want = *writing->after ? cases[i].second : cases[i].first;
        check(read_row(text.at, text.n, &row) == want, "a stay that has not ended");
    }
}

/* 1 to 3, by what stands in document 01's list. */
static void test_outer_refusals(void)
{
    make_settings(&settings);
    make_sheet_j(&tree);
    settings.at[6] = 16;
    expect_refusal(100, WENDUULIG_BAD_SETTINGS, "1: a precision of 16");
    settings.n = 0;
    expect_refusal(100, WENDUULIG_BAD_SETTINGS, "1: no settings");
    tree.n = WENDUULIG_TREE_MAX + 1;
    expect_refusal(100, WENDUULIG_BAD_SETTINGS, "1 comes before 2");
    make_settings(&settings);
    expect_refusal(100, WENDUULIG_TREE_TOO_LONG, "2: a tree of 32,769 bytes");
    tree.n = 0;
    expect_refusal(100, WENDUULIG_BAD_FRAME, "3: the empty tree, sheet P");
    make_sheet_j(&tree);
    put_byte(&tree, 0);
    expect_refusal(100, WENDUULIG_BAD_FRAME, "3: a byte too many");
}

/* 4 to 7. */
static void test_inner_refusals(void)
{
    make_settings(&settings);
    make_deep(&tree, 33);
    expect_refusal(100, WENDUULIG_TOO_DEEP, "4: 33 levels");
    tree.n = 0;
    put_leaf(&tree, WENDUULIG_INTERVAL + 1);
    expect_refusal(100, WENDUULIG_BAD_KIND_OR_OPERATOR, "5: kind 14");
    make_deep(&tree, 2);
    tree.at[6] = WENDUULIG_EQ;
    expect_refusal(100, WENDUULIG_BAD_KIND_OR_OPERATOR, "5: monadic Eq");
    tree.n = 0;
    put_date(&tree, 1900, 2, 29);
    expect_refusal(100, WENDUULIG_BAD_FIELD, "6: 1900-02-29");
    tree.n = 0;
    put_id(&tree, "and");
    expect_refusal(100, WENDUULIG_BAD_FIELD, "6: a reserved word as a name");
    tree.n = 0;
    put_id(&tree, "Order");
    expect_refusal(100, WENDUULIG_BAD_FIELD, "6: a keyword of SQLite as a name");
    tree.n = 0;
    size_t interval = begin(&tree, WENDUULIG_INTERVAL);
    put_leaf(&tree, WENDUULIG_UNBOUNDED);
    put_leaf(&tree, WENDUULIG_NULL);
    end(&tree, interval);
    expect_refusal(100, WENDUULIG_BAD_OPERAND, "7: an Interval as root, sheet O");
}

/* 8 and 9, at their limits. */
static void test_length_refusals(void)
{
    make_settings(&settings);
    make_long(&tree, 4368, "thirteen_long");
    expect_length(65535, 65535, "a text of 65,535 bytes");
    expect_refusal(65534, WENDUULIG_BUFFER_TOO_SHORT, "9: a buffer one byte short of it");
    make_long(&tree, 4368, "fourteen_bytes");
    expect_refusal(65600, WENDUULIG_TEXT_TOO_LONG, "8: a text of 65,536 bytes, though the buffer is larger");
    expect_refusal(0, WENDUULIG_TEXT_TOO_LONG, "8 comes before 9");
    make_sheet_j(&tree);
    expect_refusal(strlen(sheet_j) - 1, WENDUULIG_BUFFER_TOO_SHORT, "9: a buffer one byte short of sheet J");
    expect_refusal(0, WENDUULIG_BUFFER_TOO_SHORT, "9: an empty buffer");
}

/* Every size around the two calls' lengths, 21 and 26 bytes, and sizes that 32 or 63 bits do not hold. */
static void test_preview_sizes(void)
{
    const size_t n = *writing->after ? 26 : 21;
    const size_t large[] = {65534, 65535, 65536, UINT32_MAX, (size_t)UINT32_MAX + 1, (size_t)UINT32_MAX + 21, SIZE_MAX / 2,
                            SIZE_MAX / 2 + 1, SIZE_MAX - 1, SIZE_MAX};
    make_settings(&settings);
    tree.n = 0;
    put_stamp(&tree);
    for (size_t size = 0; size <= 30; size++)
        check(preview(size) == (size < n ? -WENDUULIG_BUFFER_TOO_SHORT : (int64_t)n), "each size up to 30");
    for (size_t i = 0; i < sizeof large / sizeof *large; i++)
        check(preview(large[i]) == (int64_t)n, "a size that no buffer needs");
}

/* The longest text at each size about the limit; of a text that is too long 8, whatever the size. */
static void test_preview_limits(void)
{
    make_settings(&settings);
    make_long(&tree, 4368, "thirteen_long");
    for (size_t size = 65530; size < 65540; size++)
        check(preview(size) == (size < 65535 ? -WENDUULIG_BUFFER_TOO_SHORT : 65535), "a text of 65,535 bytes");
    make_long(&tree, 4368, "fourteen_bytes");
    for (size_t size = 65530; size < 65540; size++)
        check(preview(size) == -WENDUULIG_TEXT_TOO_LONG, "a text of 65,536 bytes");
    check(preview((size_t)UINT32_MAX + 1) == -WENDUULIG_TEXT_TOO_LONG, "a text of 65,536 bytes");
}

/* And of a text that is too long and an Interval out of place: 7 comes before 8. */
static void test_preview_order(void)
{
    static struct bytes longer;
    make_settings(&settings);
    make_long(&longer, 4368, "fourteen_bytes");
    tree.n = 0;
    size_t both = begin_op(&tree, WENDUULIG_DYADIC, WENDUULIG_AND);
    put(&tree, longer.at, longer.n);
    put_interval(&tree, "a", "b");
    end(&tree, both);
    expect_refusal(100, WENDUULIG_BAD_OPERAND, "7 comes before 8 and 9");
    tree.at[tree.n - 1] = '-';
    expect_refusal(100, WENDUULIG_BAD_FIELD, "6 comes before 7, 8 and 9");
    tree.n--;
    expect_refusal(100, WENDUULIG_BAD_FRAME, "3 comes before 7, 8 and 9");
    settings.at[6] = 16;
    expect_refusal(100, WENDUULIG_BAD_SETTINGS, "1 comes before 3");
}

/* The header's second example: a buffer of just the bytes that the preview names. */
static void test_reserving(void)
{
    make_settings(&settings);
    make_stamps(&tree);
    int64_t n = preview(SIZE_MAX);
    int clean;
    check(n > 0 && lower(&settings, &tree, (size_t)n, &text, &clean) == n && clean, "a buffer as the preview has it");
    check(preview((size_t)n) == n, "the same preview after writing");
}

static void test_truths(void)
{
    row.n = 0;
    put_column(&row, "a", "2024-01-02");
    put_column(&row, "b", NULL);
    put_column(&row, "c", "2024-01-01");
    expect_read(sheet_j, WENDUULIG_UNKNOWN, "sheet N: unknown");
    expect_read("c < a", WENDUULIG_TRUE, "c < a");
    expect_read("a < c", WENDUULIG_FALSE, "a < c");
    expect_read("b IS NULL AND NOT (a = c)", WENDUULIG_TRUE, "b IS NULL AND NOT (a = c)");
    row.n = 0;
    expect_read("TRUE", WENDUULIG_TRUE, "TRUE on the empty row");
    put_column(&row, "a", "2024-01-02");
    put_column(&row, "b", "2024-01-03");
    put_column(&row, "c", "2024-01-04");
    expect_read(sheet_j, WENDUULIG_TRUE, "sheet J's text: a before the interval");
    row.n = 0;
    put_column(&row, "a", "2024-01-03");
    put_column(&row, "b", "2024-01-03");
    put_column(&row, "c", "2024-01-04");
    expect_read(sheet_j, WENDUULIG_FALSE, "sheet J's text: a at the interval's start");
}

/* n opening brackets, TRUE, and as many closing ones. */
static void make_brackets(struct bytes *b, int n)
{
    b->n = 0;
    for (int i = 0; i < n; i++)
        put_byte(b, '(');
    put_text(b, "TRUE");
    for (int i = 0; i < n; i++)
        put_byte(b, ')');
}

static void test_reading_refusals(void)
{
    row.n = 0;
    put_column(&row, "a", "x");
    memset(text.at, ' ', SCRATCH);
    memcpy(text.at, "TRUE", 4);
    check(read_row(text.at, 65535, &row) == WENDUULIG_TRUE, "a text of 65,535 bytes");
    check(read_row(text.at, 65536, &row) == -WENDUULIG_INPUT_TOO_LONG, "10: a text of 65,536 bytes");
    row.n = WENDUULIG_ROW_MAX + 1;
    expect_read("?", -WENDUULIG_INPUT_TOO_LONG, "10: a row of 32,769 bytes, before 11 and 12");
    row.n = 0;
    put_column(&row, "a", "x");
    put_column(&row, "A", "x");
    expect_read("?", -WENDUULIG_BAD_ROW, "11: a and A, before 12");
    row.n = 0;
    put_column(&row, "a", "a\tb");
    expect_read("TRUE", -WENDUULIG_BAD_ROW, "11: a control byte in a value");
    row.n = 0;
    put_column(&row, "group", "x");
    expect_read("TRUE", -WENDUULIG_BAD_ROW, "11: a keyword of SQLite as a column's name");
    row.n = 0;
    put_column(&row, "a", "x");
    expect_read("\"order\" IS NULL", -WENDUULIG_BAD_TEXT, "12: a keyword of SQLite in double quotes");
    expect_read("z = ", -WENDUULIG_BAD_TEXT, "12: no second atom, before 13");
    make_brackets(&text, 64);
    check(read_row(text.at, text.n, &row) == WENDUULIG_TRUE, "64 brackets");
    make_brackets(&text, 65);
    check(read_row(text.at, text.n, &row) == -WENDUULIG_BAD_TEXT, "12: 65 brackets");
    expect_read("a = 'x' OR \"z\" IS NULL", -WENDUULIG_MISSING_COLUMN, "13: z is no column");
    expect_read("", -WENDUULIG_BAD_TEXT, "12: the empty text");
}

/* A text as a Str, as a value and in quotes: each with its SQL text. */
static const char *const labels[][2] = {
    {"O'Ring 5 mm", "'O''Ring 5 mm'"}, {"Fl\xc3\xbcgel", "'Fl\xc3\xbcgel'"}, {"", "''"}, {"'", "''''"}, {"''", "''''''"},
    {"a''b'", "'a''''b'''"}, {"\xc2\x80", "'\xc2\x80'"}, {"\xed\x9f\xbf\xee\x80\x80", "'\xed\x9f\xbf\xee\x80\x80'"},
    {"\xf0\x90\x80\x80'\xf4\x8f\xbf\xbf", "'\xf0\x90\x80\x80''\xf4\x8f\xbf\xbf'"}};

/* No text: a lone continuation, overlong forms, surrogates, above U+10FFFF, bytes of no sequence, cut short, control bytes. */
static const char *const ill_formed[] = {
    "\x80", "a\xbf", "\xc3\xa9\xa9", "\xc0\xa7", "\xc1\xbf", "\xe0\x80\xa7", "\xe0\x9f\xbf", "\xf0\x80\x80\xa7", "\xf0\x8f\xbf\xbf",
    "\xed\xa0\x80", "\xed\xbf\xbf", "\xf4\x90\x80\x80", "\xf5\x80\x80\x80", "\xfe", "\xff", "\xc3", "\xc3'", "\xe2\x82", "\xe2\x82x",
    "\xf0\x9f\x94", "\xf0\x9f\x94'", "\xf0", "\x01", "x\x1f", "\t", "\x7f"};

/* The text between apostrophes, each of its own doubled, and what follows. */
static void make_comparison(struct bytes *b, const char *s, const char *after)
{
    b->n = 0;
    put_byte(b, '\'');
    for (; *s; s++) {
        put_byte(b, (uint8_t)*s);
        if (*s == '\'')
            put_byte(b, '\'');
    }
    put_byte(b, '\'');
    put_text(b, after);
}

static void test_strings(void)
{
    make_settings(&settings);
    for (size_t i = 0; i < sizeof labels / sizeof *labels; i++) {
        tree.n = row.n = 0;
        put_str(&tree, 0, labels[i][0]);
        expect_text(strlen(labels[i][1]), labels[i][1], labels[i][1]);
        expect_refusal(strlen(labels[i][1]) - 1, WENDUULIG_BUFFER_TOO_SHORT, "9: the length counts apostrophes doubled");
        put_column(&row, "a", labels[i][0]);
        make_comparison(&text, labels[i][0], " = a");
        check(read_row(text.at, text.n, &row) == WENDUULIG_TRUE, labels[i][1]);
    }
    for (size_t i = 0; i < sizeof ill_formed / sizeof *ill_formed; i++) {
        tree.n = row.n = 0;
        put_str(&tree, 0, ill_formed[i]);
        expect_refusal(100, WENDUULIG_BAD_FIELD, "6: a Str that is no text");
        put_column(&row, "a", ill_formed[i]);
        expect_read("TRUE", -WENDUULIG_BAD_ROW, "11: a value that is no text");
        row.n = 0;
        make_comparison(&text, ill_formed[i], " = NULL");
        check(read_row(text.at, text.n, &row) == -WENDUULIG_BAD_TEXT, "12: a quoted text that is none");
    }
    tree.n = 0;
    put_str(&tree, 3, "it's");
    expect_text(20, "'it''s' COLLATE NCA", "a Str with an apostrophe and flags");
}

/* Where a quoted text ends, and that values compare undoubled. */
static void test_quotes(void)
{
    row.n = 0;
    put_column(&row, "a", "a'b");
    expect_read("a = 'a''b'", WENDUULIG_TRUE, "a doubled apostrophe is one");
    expect_read("a = 'a''''b'", WENDUULIG_FALSE, "four are two");
    expect_read("a < 'a(' AND a > 'a&'", WENDUULIG_TRUE, "the order of an apostrophe's byte");
    expect_read("a > 'a''' AND a < 'a''c'", WENDUULIG_TRUE, "a prefix that ends at a doubled apostrophe");
    expect_read("'' < '''' AND '''' < ''''''", WENDUULIG_TRUE, "nothing, one, two apostrophes");
    expect_read("''=''AND''=''", WENDUULIG_TRUE, "empty texts side by side");
    expect_read("'z' < '\xc3\xa9' AND '\xef\xbf\xbf' < '\xf0\x90\x80\x80'", WENDUULIG_TRUE, "the order of bytes");
    expect_read("a = 'a' 'b'", -WENDUULIG_BAD_TEXT, "12: two texts");
    expect_read("a = 'a'b'", -WENDUULIG_BAD_TEXT, "12: an apostrophe too many");
    expect_read("a = 'a''", -WENDUULIG_BAD_TEXT, "12: a text that ends in a doubled apostrophe is not closed");
    expect_read("a = '''", -WENDUULIG_BAD_TEXT, "12: three apostrophes");
    expect_read("\xc3\xa9 = a", -WENDUULIG_BAD_TEXT, "12: a letter beyond ASCII outside quotes");
}

/* `n` times a byte, as a Str. */
static void make_run(struct bytes *b, unsigned byte, size_t n)
{
    b->n = 0;
    size_t start = begin(b, WENDUULIG_STR);
    put_byte(b, 0);
    for (size_t i = 0; i < n; i++)
        put_byte(b, byte);
    end(b, start);
}

/* The limits of a Str and of a value count the record's bytes, the length of the text those that are written. */
static void test_string_limits(void)
{
    char value[70];
    make_settings(&settings);
    make_run(&tree, '\'', 4096);
    expect_length(8194, 8194, "4,096 apostrophes in 8,194 bytes");
    expect_refusal(8193, WENDUULIG_BUFFER_TOO_SHORT, "9: 4,096 apostrophes in 8,193 bytes");
    make_run(&tree, '\'', 4097);
    expect_refusal(9000, WENDUULIG_BAD_FIELD, "6: 4,097 apostrophes");
    memset(value, '\'', sizeof value);
    value[64] = 0;
    row.n = 0;
    put_column(&row, "a", value);
    expect_read("a > ''''", WENDUULIG_TRUE, "a value of 64 apostrophes");
    value[64] = '\'';
    value[65] = 0;
    row.n = 0;
    put_column(&row, "a", value);
    expect_read("TRUE", -WENDUULIG_BAD_ROW, "11: a value of 65 apostrophes");
    text.n = 0;
    put_text(&text, "NULL = ");
    for (int i = 0; i < 65528; i++)
        put_byte(&text, '\'');
    row.n = 0;
    check(read_row(text.at, text.n, &row) == WENDUULIG_UNKNOWN, "a quoted text of 32,763 apostrophes");
    check(read_row(text.at, text.n - 1, &row) == -WENDUULIG_BAD_TEXT, "12: the same, unclosed");
}

/* Each prefix of sheet J's tree, each byte of it changed to each other: an answer in range, and lent bytes as they were. */
static void test_damage(void)
{
    int clean, all = 1, short_ones = 1, alike = 1;
    make_settings(&settings);
    make_sheet_j(&tree);
    size_t whole = tree.n;
    for (tree.n = 0; tree.n < whole; tree.n++)
        short_ones = short_ones && lower(&settings, &tree, 80, &text, &clean) == -WENDUULIG_BAD_FRAME && clean;
    check(short_ones, "each tree that breaks off is refused with 3");
    for (size_t i = 0; i < whole; i++)
        for (unsigned x = 0; x < 256; x++) {
            make_sheet_j(&tree);
            tree.at[i] = (uint8_t)x;
            int64_t n = lower(&settings, &tree, 80, &text, &clean);
            all = all && clean;
            alike = alike && preview(80) == n && preview(0) == (n < 0 ? n : -WENDUULIG_BUFFER_TOO_SHORT);
        }
    check(all, "each tree with a changed byte leaves what is lent as it was");
    check(alike, "each tree with a changed byte has a preview that answers as writing does");
}

/* The row of sheet J's text on which damage is tried. */
static void make_damaged_row(void)
{
    row.n = 0;
    put_column(&row, "a", "x");
    put_column(&row, "b", NULL);
    put_column(&row, "c", "y");
}

/* How many answers differ from the table's, with each byte of one of the two inputs changed to each value. */
static int count_wrong(int in_text, const struct run *runs, size_t count)
{
    int wrong = 0, left = runs[0].times;
    size_t at = 0, n = in_text ? sizeof sheet_j - 1 : row.n;
    for (size_t i = 0; i < n; i++)
        for (unsigned x = 0; x < 256; x++) {
            uint8_t *s = exact_copy(sheet_j, sizeof sheet_j - 1);
            uint8_t *r = exact_copy(row.at, row.n);
            (in_text ? s : r)[i] = (uint8_t)x;
            while (left == 0 && at + 1 < count)
                left = runs[++at].times;
            wrong += wenduulig_read(s, sizeof sheet_j - 1, r, row.n) != runs[at].answer;
            left--;
            free(s);
            free(r);
        }
    return wrong + (left != 0 || at + 1 != count);
}

/* Each byte of a text and of a row changed to each other: the answer of a reader that shares nothing with this one. */
static void test_damaged_reading(void)
{
    make_damaged_row();
    check(count_wrong(1, damaged_texts, sizeof damaged_texts / sizeof *damaged_texts) == 0, "each text with a changed byte has its answer");
    check(count_wrong(0, damaged_rows, sizeof damaged_rows / sizeof *damaged_rows) == 0, "each row with a changed byte has its answer");
}

/* The deepest inputs, on a stack of 128 KiB: with a guard page behind it a larger need ends the program. */
static void *deepest(void *nothing)
{
    int clean;
    (void)nothing;
    make_settings(&settings);
    make_deep(&tree, 32);
    check(lower(&settings, &tree, 400, &text, &clean) == 31 * 6 + 4 && clean, "32 levels on a stack of 128 KiB");
    check(preview(400) == 31 * 6 + 4, "a preview of 32 levels on a stack of 128 KiB");
    row.n = 0;
    make_brackets(&text, 64);
    check(read_row(text.at, text.n, &row) == WENDUULIG_TRUE, "64 brackets on a stack of 128 KiB");
    return NULL;
}

static void run_on_stack(void *(*work)(void *))
{
    pthread_attr_t attributes;
    pthread_t thread;
    int ready = pthread_attr_init(&attributes) == 0 && pthread_attr_setstacksize(&attributes, STACK) == 0 &&
                pthread_create(&thread, &attributes, work, NULL) == 0 && pthread_join(thread, NULL) == 0;
    check(ready, "a thread with a stack of 128 KiB");
    pthread_attr_destroy(&attributes);
}

/* A tree of the controller's most bytes, and of one more: alone, and with settings or records that are wrong. */
static void test_controller_sizes(void)
{
    make_settings(&settings);
    make_run(&tree, 'x', 1993);
    check(tree.n == WENDUULIG_CONTROLLER_TREE_MAX, "the test's own tree has 2,000 bytes");
    expect_length(WENDUULIG_CONTROLLER_TEXT_MAX, 1995, "a tree of 2,000 bytes");
    expect_refusal(1994, WENDUULIG_BUFFER_TOO_SHORT, "9: a buffer one byte short of its text");
    tree.at[1999] = 1;
    expect_refusal(4000, WENDUULIG_BAD_FIELD, "6: a tree of 2,000 bytes, the last one wrong");
    make_run(&tree, 'x', 1994);
    expect_refusal(4000, WENDUULIG_TREE_TOO_LONG, "2: a tree of 2,001 bytes");
    tree.at[0] = 0;
    expect_refusal(0, WENDUULIG_TREE_TOO_LONG, "2 comes before 3");
    settings.at[6] = 16;
    expect_refusal(4000, WENDUULIG_BAD_SETTINGS, "1 comes before 2");
}

/* The kinds that hold records, by turns; TAfter takes an Interval as well as any other operand. */
static const unsigned char deep_kinds[][2] = {{WENDUULIG_MONADIC, WENDUULIG_MONADIC},   {WENDUULIG_DYADIC, WENDUULIG_DYADIC},
                                              {WENDUULIG_FUNCTION, WENDUULIG_FUNCTION}, {WENDUULIG_ARRAY, WENDUULIG_ARRAY},
                                              {WENDUULIG_DYADIC, WENDUULIG_INTERVAL},   {WENDUULIG_ARRAY, WENDUULIG_MONADIC}};

/* `levels` records, one inside another, of the two kinds by turns; the last is `bottom` by its bytes. */
static void make_levels(struct bytes *b, const unsigned char kinds[2], int levels, const void *bottom, size_t size)
{
    size_t starts[16];
    b->n = 0;
    for (int i = 0; i + 1 < levels; i++) {
        unsigned kind = kinds[i % 2];
        starts[i] = begin(b, kind);
        if (kind == WENDUULIG_MONADIC || kind == WENDUULIG_DYADIC)
            put(b, kind == WENDUULIG_MONADIC ? "\7" : "\x1a", 2);
        if (kind == WENDUULIG_FUNCTION)
            put_named(b, "f");
    }
    put(b, bottom, size);
    for (int i = levels - 2; i >= 0; i--) {
        if (kinds[i % 2] == WENDUULIG_DYADIC || kinds[i % 2] == WENDUULIG_INTERVAL)
            put_id(b, "b");
        end(b, starts[i]);
    }
}

/* Eight levels of each kind have the planner's text, nine are refused; at the ninth a bad frame is a 3, all else a 4. */
static void test_controller_levels(const struct writing *planner)
{
    static struct bytes theirs;
    const struct writing *own = writing;
    const uint8_t null[] = {2, 0, 0, 0, 0, 0}, cut[] = {3, 0, 0, 0, 0, 0}, kind[] = {2, 0, 0, 0, 14, 0};
    const uint8_t field[] = {2, 0, 0, 0, 2, 0};
    int clean;
    make_settings(&settings);
    for (size_t i = 0; i < sizeof deep_kinds / sizeof *deep_kinds; i++) {
        make_levels(&tree, deep_kinds[i], 8, null, sizeof null);
        writing = planner;
        int64_t n = lower(&settings, &tree, 1000, &theirs, &clean);
        writing = own;
        expect_length(1000, (size_t)n, "8 levels");
        check(theirs.n == text.n && memcmp(theirs.at, text.at, text.n) == 0, "8 levels: the planner's text");
        make_levels(&tree, deep_kinds[i], 9, null, sizeof null);
        expect_refusal(1000, WENDUULIG_TOO_DEEP, "4: 9 levels");
        make_levels(&tree, deep_kinds[i], 9, kind, sizeof kind);
        expect_refusal(1000, WENDUULIG_TOO_DEEP, "4 comes before 5");
        make_levels(&tree, deep_kinds[i], 9, field, sizeof field);
        expect_refusal(0, WENDUULIG_TOO_DEEP, "4 comes before 6");
        make_levels(&tree, deep_kinds[i], 8, kind, sizeof kind);
        expect_refusal(1000, WENDUULIG_BAD_KIND_OR_OPERATOR, "5: kind 14 at the eighth level");
    }
    for (int levels = 8; levels <= 9; levels++) {
        make_levels(&tree, deep_kinds[3], levels, cut, sizeof cut);
        expect_refusal(1000, WENDUULIG_BAD_FRAME, "3: a length that passes its end, also at the ninth level");
    }
}

/* A text of the controller's most bytes, at each size of the buffer about it, and one of a byte more. */
static void test_controller_texts(void)
{
    make_settings(&settings);
    make_long(&tree, 266, "eight_by");
    for (size_t size = 4000; size < 4003; size++)
        expect_length(size, 4000, "a text of 4,000 bytes");
    expect_refusal(3999, WENDUULIG_BUFFER_TOO_SHORT, "9: a buffer one byte short of it");
    expect_refusal(0, WENDUULIG_BUFFER_TOO_SHORT, "9: an empty buffer");
    make_long(&tree, 266, "nine_byte");
    for (size_t size = 3998; size < 4004; size++)
        expect_refusal(size, WENDUULIG_TEXT_TOO_LONG, "8: a text of 4,001 bytes");
    expect_refusal(0, WENDUULIG_TEXT_TOO_LONG, "8 comes before 9");
    expect_refusal(WENDUULIG_TEXT_MAX, WENDUULIG_TEXT_TOO_LONG, "8: though the buffer is the planner's largest");
    make_run(&tree, '\'', 1993);
    tree.at[6] = 3;
    expect_length(4000, 4000, "a tree of 2,000 bytes with a text of 4,000");
}

/* 8 counts the text of the call: 142 timestamps and a name have 4,000 bytes by the second, 3,290 by the first. */
static void test_controller_writings(void)
{
    int second = *writing->after != 0;
    make_settings(&settings);
    make_many_stamps(&tree, 142, "name_of_twenty_two_byt");
    expect_length(4000, second ? 4000 : 3290, "142 timestamps, 4,000 bytes by the second call");
    make_many_stamps(&tree, 142, "name_of_twenty_three_by");
    if (second)
        expect_refusal(4001, WENDUULIG_TEXT_TOO_LONG, "8: a byte more, which the first call takes");
    else
        expect_length(4001, 3291, "a byte more, which the second call refuses with 8");
}

/* An And of two: of a text that is too long and an Interval out of place, and of a record that is too deep and a wrong one. */
static void make_pair(const struct bytes *one, const struct bytes *other)
{
    tree.n = 0;
    size_t both = begin_op(&tree, WENDUULIG_DYADIC, WENDUULIG_AND);
    put(&tree, one->at, one->n);
    put(&tree, other->at, other->n);
    end(&tree, both);
}

static void test_controller_order(void)
{
    static struct bytes longer, deep, apart, wrong;
    make_settings(&settings);
    make_long(&longer, 267, "");
    make_deep(&deep, 8);
    apart.n = wrong.n = 0;
    put_interval(&apart, "a", "b");
    put_id(&wrong, "1");
    make_pair(&longer, &apart);
    expect_refusal(100, WENDUULIG_BAD_OPERAND, "7 comes before 8 and 9");
    make_pair(&longer, &deep);
    expect_refusal(100, WENDUULIG_TOO_DEEP, "4 comes before 8 and 9");
    make_pair(&apart, &deep);
    expect_refusal(100, WENDUULIG_TOO_DEEP, "4 comes before 7, wherever they stand");
    make_pair(&deep, &wrong);
    expect_refusal(100, WENDUULIG_TOO_DEEP, "4 before a 6 that stands later");
    make_pair(&wrong, &deep);
    expect_refusal(100, WENDUULIG_BAD_FIELD, "6 before a 4 that stands later");
    make_pair(&longer, &longer);
    expect_refusal(0, WENDUULIG_TREE_TOO_LONG, "2 comes before 8 and 9");
}

/* What both callers answer alike: nothing here lies between the controller's limits and the planner's. */
static void test_either_caller(const struct writing *call)
{
    writing = call;
    test_texts();
    test_kinds();
    test_timestamps();
    test_timestamp_truths();
    test_open_ends();
    test_lone_unbounded();
    test_open_end_truths();
    test_outer_refusals();
    test_inner_refusals();
    test_preview_sizes();
    test_reserving();
    test_strings();
    test_damage();
}

static void test_planner(const struct writing *call)
{
    test_either_caller(call);
    test_timestamp_limits();
    test_open_end_limits();
    test_length_refusals();
    test_preview_limits();
    test_preview_order();
    test_string_limits();
    run_on_stack(deepest);
}

static void test_controller(const struct writing *call, const struct writing *planner)
{
    test_either_caller(call);
    test_controller_sizes();
    test_controller_levels(planner);
    test_controller_texts();
    test_controller_writings();
    test_controller_order();
}

/* ---- reducing ---- */

static struct bytes want, reduced;

/* Reduces `tree` into a filled buffer of out_len bytes; the reduced tree goes to `reduced`. `clean` as for lowering. */
static int64_t reduce(size_t out_len, int *clean)
{
    uint8_t *t = exact_copy(tree.at, tree.n);
    uint8_t *out = filled(out_len);
    int64_t n = wenduulig_reduce(t, tree.n, out, out_len);
    size_t used = n > 0 ? (size_t)n : 0;
    *clean = n >= -14 && n != 0 && used <= out_len && all_filled(out + used, out_len - used) && memcmp(t, tree.at, tree.n) == 0;
    reduced.n = 0;
    if (*clean)
        put(&reduced, out, used);
    free(t);
    free(out);
    return n;
}

/* `want` comes of `tree`, in each buffer that is long enough, and 9 of one that is not; and `want` comes of itself. */
static void expect_reduced(const char *what)
{
    const size_t n = want.n, sizes[] = {n, n + 1, tree.n, WENDUULIG_TREE_MAX};
    int clean;
    for (size_t i = 0; i < sizeof sizes / sizeof *sizes; i++) {
        check(reduce(sizes[i], &clean) == (int64_t)n && clean, what);
        check(reduced.n == n && memcmp(reduced.at, want.at, n) == 0, what);
    }
    check(reduce(n - 1, &clean) == -WENDUULIG_BUFFER_TOO_SHORT && clean, what);
    check(reduce(0, &clean) == -WENDUULIG_BUFFER_TOO_SHORT && clean, what);
    tree = want;
    check(reduce(n, &clean) == (int64_t)n && clean && memcmp(reduced.at, want.at, n) == 0, "a reduced tree is reduced to itself");
}

/* In a buffer of any size. */
static void expect_no_reduction(int number, const char *what)
{
    int clean;
    check(reduce(0, &clean) == -number && clean && reduced.n == 0, what);
    check(reduce(tree.n, &clean) == -number && clean && reduced.n == 0, what);
    check(reduce(WENDUULIG_TREE_MAX, &clean) == -number && clean && reduced.n == 0, what);
}

static void put_bool(struct bytes *b, unsigned value)
{
    size_t start = begin(b, WENDUULIG_BOOL);
    put_byte(b, value);
    end(b, start);
}

static void put_num(struct bytes *b, int64_t mantissa, unsigned scale)
{
    size_t start = begin(b, WENDUULIG_NUM);
    for (int i = 0; i < 8; i++)
        put_byte(b, (unsigned)((uint64_t)mantissa >> (8 * i)) & 255);
    put_byte(b, scale);
    end(b, start);
}

/* Noon of the day that put_date is given in these tests, or another hour. */
static void put_hour(struct bytes *b, unsigned hour)
{
    const uint8_t fields[] = {2024 % 256, 2024 / 256, 2, 29, (uint8_t)hour, 0, 0};
    put_fields(b, WENDUULIG_TIMESTAMP, fields, sizeof fields, "");
}

/* Minus keeps the scale, and a zero; Neg; IsNull, IsNotNull. */
static void test_reduced_values(void)
{
    static const int64_t numbers[][2] = {{1500, -1500}, {-1, 1}, {0, 0}, {-999999999999999, 999999999999999}};
    for (size_t i = 0; i < sizeof numbers / sizeof *numbers; i++) {
        tree.n = want.n = 0;
        size_t start = begin_op(&tree, WENDUULIG_MONADIC, WENDUULIG_MINUS);
        put_num(&tree, numbers[i][0], 3);
        end(&tree, start);
        put_num(&want, numbers[i][1], 3);
        expect_reduced("Minus of a number");
    }
    static const unsigned ops[][2] = {{WENDUULIG_IS_NULL, 1}, {WENDUULIG_IS_NOT_NULL, 0}};
    for (size_t i = 0; i < sizeof ops / sizeof *ops; i++) {
        tree.n = want.n = 0;
        size_t start = begin_op(&tree, WENDUULIG_MONADIC, ops[i][0]), inner = begin_op(&tree, WENDUULIG_MONADIC, WENDUULIG_NEG);
        put_leaf(&tree, WENDUULIG_NULL);
        end(&tree, inner);
        end(&tree, start);
        put_bool(&want, ops[i][1]);
        expect_reduced("IsNull and IsNotNull of Neg of Null");
    }
}

/* CaseI and AccentI: flags are joined; of themselves over a column one is left. */
static void test_reduced_strings(void)
{
    static const unsigned outer[] = {WENDUULIG_CASE_I, WENDUULIG_ACCENT_I};
    for (unsigned flags = 0; flags < 4; flags++)
        for (size_t k = 0; k < 2; k++) {
            tree.n = want.n = 0;
            size_t start = begin_op(&tree, WENDUULIG_MONADIC, outer[k]);
            put_str(&tree, flags, "O'Ring");
            end(&tree, start);
            put_str(&want, flags | (unsigned)(k + 1), "O'Ring");
            expect_reduced("CaseI and AccentI of a string");
        }
    for (size_t k = 0; k < 2; k++) {
        tree.n = want.n = 0;
        size_t start = begin_op(&tree, WENDUULIG_MONADIC, outer[k]), inner = begin_op(&tree, WENDUULIG_MONADIC, outer[k]);
        put_id(&tree, "a");
        end(&tree, inner);
        end(&tree, start);
        put(&want, tree.at + inner, tree.n - inner);
        expect_reduced("CaseI of CaseI, AccentI of AccentI");
    }
}

/* 0 false, 1 true, 2 Null. */
static void put_truth(struct bytes *b, unsigned truth)
{
    if (truth == 2)
        put_leaf(b, WENDUULIG_NULL);
    else
        put_bool(b, truth);
}

/* And, Or of each pair; Or of Null and true is true. */
static void test_reduced_logic(void)
{
    static const unsigned both[3][3] = {{0, 0, 0}, {0, 1, 2}, {0, 2, 2}}, either[3][3] = {{0, 1, 2}, {1, 1, 1}, {2, 1, 2}};
    for (unsigned x = 0; x < 3; x++)
        for (unsigned y = 0; y < 6; y++) {
            tree.n = want.n = 0;
            size_t start = begin_op(&tree, WENDUULIG_DYADIC, y < 3 ? WENDUULIG_AND : WENDUULIG_OR);
            put_truth(&tree, x);
            put_truth(&tree, y % 3);
            end(&tree, start);
            put_truth(&want, y < 3 ? both[x][y] : either[x][y - 3]);
            expect_reduced("And and Or of true, false and Null");
        }
    tree.n = 0;
    size_t start = begin_op(&tree, WENDUULIG_DYADIC, WENDUULIG_AND);
    put_id(&tree, "a");
    put_bool(&tree, 0);
    end(&tree, start);
    want = tree;
    expect_reduced("And of a column and false stays");
}

/* One of 2024-02-29, its midnight, its noon, Unbounded; these lie in the order 3, 0 and 1, 2. */
static void put_instant(struct bytes *b, unsigned which)
{
    if (which == 0)
        put_date(b, 2024, 2, 29);
    else if (which == 3)
        put_leaf(b, WENDUULIG_UNBOUNDED);
    else
        put_hour(b, which == 1 ? 0 : 12);
}

/* The five operators of instants; Null on a side is Null by every operator other than And and Or. */
static void test_reduced_instants(void)
{
    static const unsigned ops[] = {WENDUULIG_T_AFTER, WENDUULIG_T_BEFORE, WENDUULIG_T_DISJOINT, WENDUULIG_T_EQUALS, WENDUULIG_T_INTERSECTS};
    static const int place[] = {1, 1, 2, 0};
    for (unsigned k = 0; k < 80; k++) {
        unsigned x = k % 4, y = k / 4 % 4, op = k / 16;
        int order = place[x] - place[y], truth[] = {order > 0, order < 0, order != 0, order == 0, order == 0};
        tree.n = want.n = 0;
        size_t start = begin_op(&tree, WENDUULIG_DYADIC, ops[op]);
        put_instant(&tree, x);
        put_instant(&tree, y);
        end(&tree, start);
        put_bool(&want, (unsigned)truth[op]);
        expect_reduced("instants against each other: a date is its midnight");
    }
    for (unsigned op = WENDUULIG_EQ; op <= WENDUULIG_GTE; op++) {
        tree.n = want.n = 0;
        size_t start = begin_op(&tree, WENDUULIG_DYADIC, op);
        put_id(&tree, "a");
        put_leaf(&tree, WENDUULIG_NULL);
        end(&tree, start);
        put_leaf(&want, WENDUULIG_NULL);
        expect_reduced("Null as an operand");
    }
}

/* Null, that has still to be reduced to it. */
static void put_unreduced(struct bytes *b)
{
    size_t start = begin_op(b, WENDUULIG_MONADIC, WENDUULIG_NEG);
    put_leaf(b, WENDUULIG_NULL);
    end(b, start);
}

static void put_null(struct bytes *b)
{
    put_leaf(b, WENDUULIG_NULL);
}

/* A Null in each place where a record can stand: in an Array, a Function, an Interval, BETWEEN's list. */
static void put_places(struct bytes *b, void (*put_one)(struct bytes *))
{
    size_t start = begin(b, WENDUULIG_ARRAY), call = begin(b, WENDUULIG_FUNCTION), between, list, spans, span;
    put_named(b, "f");
    for (int i = 0; i < 2; i++)
        put_one(b);
    end(b, call);
    between = begin_op(b, WENDUULIG_DYADIC, WENDUULIG_IS_BETWEEN);
    put_id(b, "a");
    list = begin(b, WENDUULIG_ARRAY);
    put_id(b, "b");
    put_one(b);
    end(b, list);
    end(b, between);
    spans = begin_op(b, WENDUULIG_DYADIC, WENDUULIG_T_AFTER);
    put_id(b, "c");
    span = begin(b, WENDUULIG_INTERVAL);
    put_one(b);
    put_one(b);
    end(b, span);
    end(b, spans);
    end(b, start);
}

/* The same inside 32 levels, and a tree of 32,766 bytes. */
static void test_reduced_places(void)
{
    tree.n = want.n = 0;
    put_places(&tree, put_unreduced);
    put_places(&want, put_null);
    expect_reduced("in every place of a tree");
    make_deep(&tree, 32);
    want.n = 0;
    put_leaf(&want, WENDUULIG_NULL);
    expect_reduced("32 levels of Neg over Null");
    make_long(&tree, 5460, "");
    check(tree.n == 32766, "the test's own tree");
    want = tree;
    expect_reduced("an Array of 5,460 records");
}

/* Eq of two numbers. */
static void put_constant(struct bytes *b)
{
    size_t start = begin_op(b, WENDUULIG_DYADIC, WENDUULIG_EQ);
    put_num(b, 1, 0);
    put_num(b, 1, 0);
    end(b, start);
}

/* 2 to 7 come before 14, and 14 before 9. */
static void test_reduced_order(void)
{
    static const struct { unsigned kind, byte; int number; } wrong[] = {
        {14, 0, WENDUULIG_BAD_KIND_OR_OPERATOR}, {WENDUULIG_BOOL, 2, WENDUULIG_BAD_FIELD}, {WENDUULIG_ID, '1', WENDUULIG_BAD_FIELD},
        {WENDUULIG_ID, 'a', WENDUULIG_CONSTANT_OPERANDS}, {WENDUULIG_ARRAY, 0, WENDUULIG_BAD_FRAME}};
    for (size_t i = 0; i < sizeof wrong / sizeof *wrong; i++) {
        tree.n = 0;
        size_t start = begin(&tree, WENDUULIG_ARRAY);
        put_constant(&tree);
        size_t inner = begin(&tree, wrong[i].kind);
        put_byte(&tree, wrong[i].byte);
        end(&tree, inner);
        end(&tree, start);
        expect_no_reduction(wrong[i].number, "a 14, and beside it what comes before");
    }
    tree.n = 0;
    size_t start = begin(&tree, WENDUULIG_ARRAY);
    put_constant(&tree);
    put_interval(&tree, "a", "b");
    end(&tree, start);
    expect_no_reduction(WENDUULIG_BAD_OPERAND, "7 before 14");
    make_deep(&tree, 33);
    expect_no_reduction(WENDUULIG_TOO_DEEP, "33 levels");
    tree.n = 0;
    expect_no_reduction(WENDUULIG_BAD_FRAME, "no tree");
    make_long(&tree, 5461, "");
    expect_no_reduction(WENDUULIG_TREE_TOO_LONG, "32,772 bytes");
}

/* Each prefix of a tree is refused with 3; with each byte changed to each other the answer is that of lowering, 14, or a tree. */
static void test_reduced_damage(void)
{
    int clean, short_ones = 1, all = 1;
    tree.n = 0;
    put_places(&tree, put_unreduced);
    want = tree;
    for (tree.n = 0; tree.n < want.n; tree.n++)
        short_ones = short_ones && reduce(want.n, &clean) == -WENDUULIG_BAD_FRAME && clean;
    check(short_ones, "each tree that breaks off is refused with 3");
    for (size_t i = 0; i < want.n; i++)
        for (unsigned x = 0; x < 256; x++) {
            tree = want;
            tree.at[i] = (uint8_t)x;
            int64_t n = reduce(want.n, &clean), told = preview(SIZE_MAX);
            all = all && clean && (told < 0 && told > -8 ? n == told : n > 0 || n == -WENDUULIG_CONSTANT_OPERANDS);
        }
    check(all, "each tree with a changed byte is refused as lowering refuses it, or reduced");
}

/* The deepest trees on a stack of 128 KiB, and the header's example: reduced, and then lowered. */
static void *deepest_reduced(void *nothing)
{
    int clean;
    (void)nothing;
    make_deep(&tree, 32);
    check(reduce(tree.n, &clean) == 6 && clean, "32 levels reduced on a stack of 128 KiB");
    make_sheet_j(&tree);
    check(reduce(tree.n, &clean) == (int64_t)tree.n && clean, "sheet J stays");
    tree = reduced;
    expect_text(sizeof sheet_j, sheet_j, "sheet J reduced, and then lowered");
    return NULL;
}

static void test_reducing(void)
{
    writing = &after_reducing;
    make_settings(&settings);
    test_reduced_values();
    test_reduced_strings();
    test_reduced_logic();
    test_reduced_instants();
    test_reduced_places();
    test_reduced_order();
    test_reduced_damage();
    run_on_stack(deepest_reduced);
}

int main(void)
{
    test_planner(&first_call);
    test_planner(&second_call);
    test_controller(&controller_first, &first_call);
    test_controller(&controller_second, &second_call);
    test_reducing();
    writing = &before_reading;
    test_truths();
    test_reading_refusals();
    test_quotes();
    test_damaged_reading();
    printf("%d passed, %d failed\n", passed, failed);
    return failed ? 1 : 0;
}
