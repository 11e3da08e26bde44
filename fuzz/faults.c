/* The library with one planted fault, FAULT, in front of the true calls: fuzz/run --faults shows that each is found. Each fault is told by a line
   that begins with its number. */
#include <string.h>
#include <strings.h>
#include <wenduulig.h>

int64_t true_to_sql(const uint8_t *, size_t, const uint8_t *, size_t, uint8_t *, size_t);
int64_t true_to_geopackage_sql(const uint8_t *, size_t, const uint8_t *, size_t, uint8_t *, size_t);
int64_t true_preview_sql(const uint8_t *, size_t, const uint8_t *, size_t, size_t);
int64_t true_preview_geopackage_sql(const uint8_t *, size_t, const uint8_t *, size_t, size_t);
int64_t true_controller_preview_sql(const uint8_t *, size_t, const uint8_t *, size_t, size_t);
int32_t true_read(const uint8_t *, size_t, const uint8_t *, size_t);

static uint8_t copy[140000];
static volatile uint8_t sink;

/* The true answer on a copy of the bytes in which each `from` stands for `to`. */
static const uint8_t *changed(const uint8_t *s, size_t n, const char *from, const char *to, size_t size)
{
    memcpy(copy, s, n);
    for (size_t i = 0; i + size <= n; i++)
        if (!memcmp(copy + i, from, size))
            memcpy(copy + i, to, size);
    return copy;
}

/* The same for a word of two letters, in any letter case. */
static const uint8_t *without(const uint8_t *s, size_t n, const char *word)
{
    memcpy(copy, s, n);
    for (size_t i = 0; i + 2 <= n; i++)
        if (!strncasecmp((const char *)copy + i, word, 2))
            copy[i + 1] = 'X';
    return copy;
}

/* The bytes, with `pair` in place of each byte `lead` that stands before a byte of `low` to `high`, and of that byte. */
static const uint8_t *with_pairs(const uint8_t *s, size_t n, uint8_t lead, uint8_t low, uint8_t high, const char *pair)
{
    memcpy(copy, s, n);
    for (size_t i = 0; i + 2 <= n; i++)
        if (copy[i] == lead && low <= copy[i + 1] && copy[i + 1] <= high)
            memcpy(copy + i, pair, 2);
    return copy;
}

/* The text with `times` apostrophes for each pair of them inside a quoted text; its length in *m. */
static const uint8_t *rewritten(const uint8_t *s, size_t n, size_t times, size_t *m)
{
    int inside = 0;
    *m = 0;
    for (size_t i = 0; i < n; i++) {
        if (inside && s[i] == '\'' && i + 1 < n && s[i + 1] == '\'') {
            memset(copy + *m, '\'', times);
            *m += times;
            i++;
            continue;
        }
        inside ^= s[i] == '\'';
        copy[(*m)++] = s[i];
    }
    return copy;
}

/* The longest run of a byte. */
static size_t run_of(const uint8_t *s, size_t n, uint8_t byte)
{
    size_t most = 0, now = 0;
    for (size_t i = 0; i < n; i++) {
        now = s[i] == byte ? now + 1 : 0;
        most = now > most ? now : most;
    }
    return most;
}

/* Whether a Date or Timestamp has the month and day: its kind and its year, two bytes each, then these. */
static int has_day(const uint8_t *t, size_t n, uint8_t month, uint8_t day)
{
    for (size_t i = 0; i + 6 <= n; i++)
        if ((t[i] == 5 || t[i] == 6) && !t[i + 1] && t[i + 4] == month && t[i + 5] == day)
            return 1;
    return 0;
}

/* The length of what stands at `s` in the form, in which 0 is any digit; 0 if something else stands there. */
static size_t matches(const uint8_t *s, size_t n, const char *form)
{
    size_t size = strlen(form);
    for (size_t i = 0; i < size && size <= n; i++)
        if (form[i] == '0' ? s[i] < '0' || s[i] > '9' : s[i] != (uint8_t)form[i])
            return 0;
    return size <= n ? size : 0;
}

/* In the first n bytes of `out`, of which `room` are lent, `last` in the place of the last `cut` bytes of all that has the form; after `before` alone,
   if there is something. The length then, or -9. */
static int64_t replaced(uint8_t *out, int64_t n, size_t room, const char *before, const char *form, size_t cut, const char *last)
{
    size_t m = 0, size, b = strlen(before), l = strlen(last);
    for (size_t i = 0; i < (size_t)n; i++) {
        copy[m++] = out[i];
        size = i + 1 >= b && !memcmp(out + i + 1 - b, before, b) ? matches(out + i + 1, (size_t)n - i - 1, form) : 0;
        if (!size)
            continue;
        memcpy(copy + m, out + i + 1, size - cut);
        memcpy(copy + m + size - cut, last, l);
        m += size - cut + l;
        i += size;
    }
    if (m > room)
        return -9;
    memcpy(out, copy, m);
    return (int64_t)m;
}

/* Whether a record of the kind may stand in the tree: its number, after a length of less than 256. */
static int has_kind(const uint8_t *t, size_t n, uint8_t kind)
{
    const uint8_t head[] = {0, 0, 0, kind, 0};
    return memmem(t, n, head, sizeof head) != NULL;
}

/* The true answer, but 9 only if the text with its apostrophes once is longer than the buffer. */
static int64_t counted_once(const uint8_t *s, size_t sn, const uint8_t *t, size_t tn, uint8_t *out, size_t room)
{
    static uint8_t whole[65536];
    int64_t n = true_to_sql(s, sn, t, tn, whole, sizeof whole);
    size_t m = 0;
    if (n < 0)
        return n;
    rewritten(whole, (size_t)n, 1, &m);
    if (m > room)
        return -9;
    memcpy(out, whole, room);
    return n;
}

/* A string that is taken, refused or written as it should not be. */
static int64_t faulty_strings(const uint8_t *s, size_t sn, const uint8_t *t, size_t tn, uint8_t *out, size_t room, int64_t n)
{
    size_t m = 0;
    (void)m;
    switch (FAULT) {
    case 30: /* 30 an apostrophe is written once */
        if (n < 0)
            return n;
        rewritten(out, (size_t)n, 1, &m);
        memcpy(out, copy, m);
        return (int64_t)m;
    case 31: /* 31 the length is counted undoubled */
        return n == -9 ? counted_once(s, sn, t, tn, out, room) : n;
    case 32: /* 32 the limit of a Str counts apostrophes doubled */
        return n >= 0 && run_of(t, tn, '\'') > 2048 ? -6 : n;
    case 33: /* 33 an overlong form of two bytes is taken in a tree */
        return n == -6 && tn < 60000 ? true_to_sql(s, sn, with_pairs(t, tn, 0xc0, 0x80, 0xbf, "\xc3\xa9"), tn, out, room) : n;
    case 34: /* 34 an overlong form of four bytes is taken in a tree */
        return n == -6 && tn < 60000 ? true_to_sql(s, sn, with_pairs(t, tn, 0xf0, 0x80, 0x8f, "\xf0\x90"), tn, out, room) : n;
    case 35: /* 35 a surrogate is taken in a tree */
        return n == -6 && tn < 60000 ? true_to_sql(s, sn, with_pairs(t, tn, 0xed, 0xa0, 0xbf, "\xed\x9f"), tn, out, room) : n;
    case 36: /* 36 the byte 7F is taken in a tree */
        return n == -6 && tn < 60000 ? true_to_sql(s, sn, changed(t, tn, "\x7f", "x", 1), tn, out, room) : n;
    default:
        return n;
    }
}

/* A name or a date that is taken or refused as it should not be. */
static int64_t faulty_fields(const uint8_t *s, size_t sn, const uint8_t *t, size_t tn, uint8_t *out, size_t room, int64_t n)
{
    switch (FAULT) {
    case 5: /* 5 1900 has a 29 February */
        return n == -6 && tn < 60000 ? true_to_sql(s, sn, changed(t, tn, "\x6c\x07\x02\x1d", "\x6c\x07\x02\x1c", 4), tn, out, room) : n;
    case 15: /* 15 TO is a name of a tree */
        return n == -6 && tn < 60000 ? true_to_sql(s, sn, without(t, tn, "TO"), tn, out, room) : n;
    case 16: /* 16 OF is a collation's name */
        return n == -1 && sn < 60000 ? true_to_sql(without(s, sn, "OF"), sn, t, tn, out, room) : n;
    case 17: /* 17 July has 30 days */
        return n >= 0 && has_day(t, tn, 7, 31) ? -6 : n;
    case 18: /* 18 July has 32 days */
        return n == -6 && tn < 60000 ? true_to_sql(s, sn, changed(t, tn, "\x07\x20", "\x07\x1f", 2), tn, out, room) : n;
    case 19: /* 19 February has 30 days */
        return n == -6 && tn < 60000 ? true_to_sql(s, sn, changed(t, tn, "\x02\x1e", "\x02\x1c", 2), tn, out, room) : n;
    default:
        return faulty_strings(s, sn, t, tn, out, room, n);
    }
}

/* A limit, a refusal or a sign that is another. */
static int64_t faulty_answers(const uint8_t *s, size_t sn, const uint8_t *t, size_t tn, uint8_t *out, size_t room, int64_t n)
{
    switch (FAULT) {
    case 4: /* 4 <> in TDisjoint of instants */
        for (int64_t i = 0; i + 2 <= n; i++)
            if (!memcmp(out + i, "!=", 2))
                memcpy(out + i, "<>", 2);
        return n;
    case 6: /* 6 a text of 65,535 bytes is refused with 8 */
        return n == 65535 ? (memset(out, 0, 1), -8) : n;
    case 7: /* 7 a text of 65,535 bytes in a shorter buffer is refused with 8 */
        return n == -9 && room == 65534 ? -8 : n;
    case 8: /* 8 a tree of 32,768 bytes is refused */
        return tn == 32768 && n != -1 ? -2 : n;
    case 13: /* 13 a record of a wrong kind at level 33 is refused with 5 */
        return n == -4 && memmem(t, tn, "\x02\0\0\0\x0e\0", 6) ? -5 : n;
    case 14: /* 14 precision 15 is written 1E-1 and 5 bytes follow from before */
        for (int64_t i = 0; i + 5 <= n; i++)
            if (!memcmp(out + i, "1E-15", 5))
                out[i + 4] = ' ';
        return n;
    default:
        return faulty_fields(s, sn, t, tn, out, room, n);
    }
}

/* A byte outside what was lent for it, or in the buffer, that should have been left. */
static int64_t faulty_to_sql(const uint8_t *s, size_t sn, const uint8_t *t, size_t tn, uint8_t *out, size_t room, int64_t n)
{
    switch (FAULT) {
    case 1: /* 1 a buffer of the text's exact length is refused */
        return n == (int64_t)room && n > 0 ? -9 : n;
    case 2: /* 2 the byte after the text is written */
        if (n >= 0 && n < (int64_t)room)
            out[n] = 0;
        return n;
    case 3: /* 3 a refusal with 9 leaves the first byte written */
        if (n == -9 && room)
            out[0] ^= 1;
        return n;
    case 9: /* 9 the byte after the tree is read */
        sink = t[tn];
        return n;
    case 10: /* 10 the byte before the settings is read */
        sink = s[-1];
        return n;
    case 11: /* 11 the byte after the buffer is written */
        if (n == (int64_t)room)
            out[n] = 0;
        return n;
    case 12: /* 12 a tree that is refused with 7 is changed */
        if (n == -7)
            ((uint8_t *)t)[tn - 1] ^= 1;
        return n;
    default:
        return faulty_answers(s, sn, t, tn, out, room, n);
    }
}

#define DAY "'0000-00-00'"
#define CLOCK "0000-00-00T00:00:00"

/* The length of the first call's text, or minus the refusal's number. */
static int64_t first_length(const uint8_t *s, size_t sn, const uint8_t *t, size_t tn)
{
    static uint8_t whole[65536];
    return true_to_sql(s, sn, t, tn, whole, sizeof whole);
}

/* Where an Unbounded can stand: an Interval's two ends, by their number, and any other place. */
enum { START, END, ALONE };

/* At `to` the record at `t`, with a Str of the text for each Unbounded that stands at `place`; it stands itself at `here`. Its length then. The tree is
   a right one. */
static size_t with_strings(const uint8_t *t, uint8_t *to, unsigned here, unsigned place, const char *text)
{
    uint32_t length;
    size_t size = strlen(text), kind = t[4], m = kind == 11 ? 7 + (size_t)t[6] : kind == 9 || kind == 10 ? 8 : 6;
    memcpy(&length, t, 4);
    if (kind == 1 && here == place) {
        memcpy(to + 4, "\4\0", 3); /* the kind, and no flags */
        memcpy(to + 7, text, size);
        m = 7 + size;
    } else if (kind < 9) {
        m = 4 + (size_t)length;
        memcpy(to, t, m);
    } else {
        memcpy(to, t, m);
        for (size_t i = m, k = 0; i < 4 + (size_t)length; k++) {
            uint32_t inner;
            memcpy(&inner, t + i, 4);
            m += with_strings(t + i, to + m, kind == 13 ? (unsigned)k : ALONE, place, text);
            i += 4 + (size_t)inner;
        }
    }
    length = (uint32_t)m - 4;
    memcpy(to, &length, 4);
    return m;
}

typedef int64_t writer(const uint8_t *, size_t, const uint8_t *, size_t, uint8_t *, size_t);

/* What the call answers if it writes the text for each Unbounded that stands at `place`. */
static int64_t ends_written(writer *call, unsigned place, const char *text, const uint8_t *s, size_t sn, const uint8_t *t, size_t tn, uint8_t *out,
                            size_t room)
{
    int64_t n = call(s, sn, t, tn, out, 0);
    size_t m = n == -8 || n == -9 ? with_strings(t, copy, ALONE, place, text) : 0;
    return m && m <= WENDUULIG_TREE_MAX ? call(s, sn, copy, m, out, room) : call(s, sn, t, tn, out, room);
}

/* A text that is shorter than the first call's, and is counted as that. */
static int64_t faulty_lengths(const uint8_t *s, size_t sn, const uint8_t *t, size_t tn, size_t room, int64_t n)
{
    switch (FAULT) {
    case 65: /* 65 the second call refuses with 8 what the first does */
        return (n >= 0 || n == -9) && first_length(s, sn, t, tn) == -8 ? -8 : n;
    case 66: /* 66 the second call decides 9 by the first call's longer text */
        return n >= 0 && first_length(s, sn, t, tn) > (int64_t)room ? -9 : n;
    default:
        return n;
    }
}

static int64_t faulty_to_geopackage_sql(const uint8_t *s, size_t sn, const uint8_t *t, size_t tn, uint8_t *out, size_t room, int64_t n)
{
    switch (FAULT) {
    case 50: /* 50 the second call writes .000Z after dates too */
        return n < 0 ? n : replaced(out, n, room, "", DAY, 1, ".000Z'");
    case 51: /* 51 the second call writes .00Z */
        return n < 0 ? n : replaced(out, n, room, "", "'" CLOCK ".000Z'", 3, "Z'");
    case 52: /* 52 the second call writes .000 without Z */
        return n < 0 ? n : replaced(out, n, room, "", "'" CLOCK ".000Z'", 2, "'");
    case 53: /* 53 the second call leaves the timestamps of a list without */
        return n < 0 ? n : replaced(out, n, room, ", ", "'" CLOCK ".000Z'", 6, "'");
    case 54: /* 54 the second call leaves them without if there is an Interval */
        return n >= 0 && has_kind(t, tn, 13) ? ends_written(true_to_sql, END, "A", s, sn, t, tn, out, room) : n;
    case 55: /* 55 the second call writes .000Z after texts like timestamps */
        return n < 0 ? n : replaced(out, n, room, "'", CLOCK "'", 1, ".000Z'");
    case 56: /* 56 the second call decides 9 by the first call's length */
        return n == -9 && first_length(s, sn, t, tn) <= (int64_t)room ? true_to_sql(s, sn, t, tn, out, room) : n;
    case 57: /* 57 the second call decides 8 by the first call's length */
        return n == -8 && first_length(s, sn, t, tn) >= 0 ? -9 : n;
    case 58: /* 58 the second call refuses a buffer of the text's exact length */
        return n == (int64_t)room && n > 0 ? -9 : n;
    case 59: /* 59 the second call leaves the first byte written after a 9 */
        if (n == -9 && room)
            out[0] ^= 1;
        return n;
    case 60: /* 60 the second call writes the byte after the text */
        if (n >= 0 && n < (int64_t)room)
            out[n] = 0;
        return n;
    default:
        return faulty_lengths(s, sn, t, tn, room, n);
    }
}

/* The planner's calls with one of the controller's limits. */
static int64_t limited(int64_t n, size_t tn)
{
    if (FAULT == 128 && n >= 0 && tn > WENDUULIG_CONTROLLER_TREE_MAX) /* 128 the planner has the controller's limit of a tree */
        return -2;
    if (FAULT == 129 && n > WENDUULIG_CONTROLLER_TEXT_MAX) /* 129 the planner has the controller's limit of a text */
        return -8;
    return n;
}

int64_t wenduulig_to_sql(const uint8_t *s, size_t sn, const uint8_t *t, size_t tn, uint8_t *out, size_t room)
{
    if (FAULT == 130 && true_controller_preview_sql(s, sn, t, tn, room) == -4) /* 130 the planner has the controller's depth */
        return -4;
    if (FAULT == 49) /* 49 the first call writes .000Z */
        return ends_written(true_to_geopackage_sql, END, "-2021-01-01", s, sn, t, tn, out, room);
    if (FAULT == 64) /* 64 the first call writes 'A' for an open end */
        return ends_written(true_to_sql, END, "A", s, sn, t, tn, out, room);
    return faulty_to_sql(s, sn, t, tn, out, room, limited(true_to_sql(s, sn, t, tn, out, room), tn));
}

int64_t wenduulig_to_geopackage_sql(const uint8_t *s, size_t sn, const uint8_t *t, size_t tn, uint8_t *out, size_t room)
{
    if (FAULT == 48) /* 48 the second call is the first */
        return true_to_sql(s, sn, t, tn, out, room);
    if (FAULT == 61) /* 61 the second call writes 'A' for an open start */
        return ends_written(true_to_geopackage_sql, START, "A", s, sn, t, tn, out, room);
    if (FAULT == 62) /* 62 the second call writes 'A' for a lone Unbounded */
        return ends_written(true_to_geopackage_sql, ALONE, "A", s, sn, t, tn, out, room);
    if (FAULT == 63) /* 63 the second call writes '-2021-01-01' for an open end */
        return ends_written(true_to_geopackage_sql, END, "-2021-01-01", s, sn, t, tn, out, room);
    return faulty_to_geopackage_sql(s, sn, t, tn, out, room, true_to_geopackage_sql(s, sn, t, tn, out, room));
}

typedef int64_t previewer(const uint8_t *, size_t, const uint8_t *, size_t, size_t);

/* Whether the tree is an operator of two operands, one of which has by itself a text of more than 65,535 bytes. The tree is one that was refused with 7. */
static int has_long_side(const uint8_t *s, size_t sn, const uint8_t *t, size_t tn)
{
    uint32_t length;
    if (t[4] != WENDUULIG_DYADIC)
        return 0;
    memcpy(&length, t + 8, 4);
    size_t second = 12 + (size_t)length;
    return true_preview_sql(s, sn, t + 8, second - 8, 0) == -8 || true_preview_sql(s, sn, t + second, tn - second, 0) == -8;
}

/* The length of the text that the call writes, with its apostrophes once. */
static int64_t undoubled(writer *call, const uint8_t *s, size_t sn, const uint8_t *t, size_t tn)
{
    static uint8_t whole[65536];
    int64_t n = call(s, sn, t, tn, whole, sizeof whole);
    size_t m = 0;
    rewritten(whole, n < 0 ? 0 : (size_t)n, 1, &m);
    return (int64_t)m;
}

/* A refusal that comes too early or too late, or not at all; n is the true answer, of the size. */
static int64_t faulty_order(const uint8_t *s, size_t sn, const uint8_t *t, size_t tn, size_t size, int64_t n)
{
    switch (FAULT) {
    case 67: /* 67 a preview skips 7 */
        return n == -7 ? (size < tn ? -9 : (int64_t)tn) : n;
    case 68: /* 68 a preview answers 8 before 7 */
        return n == -7 && has_long_side(s, sn, t, tn) ? -8 : n;
    case 69: /* 69 a preview answers 9 before 7 */
        return n == -7 && size == 0 ? -9 : n;
    case 70: /* 70 a preview answers 9 before 8 */
        return n == -8 && size <= 65535 ? -9 : n;
    case 71: /* 71 a preview of no bytes is refused with 9, whatever the tree */
        return size == 0 ? -9 : n;
    case 72: /* 72 a preview knows no limit of 65,535 bytes */
        return n == -8 ? (size < 65536 ? -9 : 65536) : n;
    case 73: /* 73 a preview refuses a text of 65,535 bytes with 8 */
        return n == 65535 ? -8 : n;
    default:
        return n;
    }
}

/* A length or a size that is another, or bytes that were not lent or should have been left. */
static int64_t faulty_preview(previewer *call, const uint8_t *s, size_t sn, const uint8_t *t, size_t tn, size_t size)
{
    int64_t n = call(s, sn, t, tn, size);
    switch (FAULT) {
    case 74: /* 74 a preview refuses a size of the text's exact length */
        return n == (int64_t)size ? -9 : n;
    case 75: /* 75 a preview takes a size that is one byte too small */
        return n == -9 ? call(s, sn, t, tn, size + 1) : n;
    case 76: /* 76 a preview ignores the size */
        return n == -9 ? call(s, sn, t, tn, SIZE_MAX) : n;
    case 77: /* 77 a preview takes 32 bits of the size */
        return call(s, sn, t, tn, (uint32_t)size);
    case 78: /* 78 a preview takes the size for a number with a sign */
        return n >= 0 && (int64_t)size < 0 ? -9 : n;
    case 79: /* 79 a preview counts an apostrophe once */
        return n < 0 ? n : undoubled(call == true_preview_sql ? true_to_sql : true_to_geopackage_sql, s, sn, t, tn);
    case 80: /* 80 a preview changes the tree's last byte */
        if (n >= 0)
            ((uint8_t *)t)[tn - 1] ^= 1;
        return n;
    case 81: /* 81 a preview reads the byte after the settings */
        sink = s[sn];
        return n;
    case 82: /* 82 a preview answers the size in the place of the length */
        return n >= 0 && size <= WENDUULIG_TEXT_MAX ? (int64_t)size : n;
    default:
        return faulty_order(s, sn, t, tn, size, n);
    }
}

int64_t wenduulig_preview_sql(const uint8_t *s, size_t sn, const uint8_t *t, size_t tn, size_t size)
{
    if (FAULT == 83) /* 83 the first call's preview is that of the second */
        return true_preview_geopackage_sql(s, sn, t, tn, size);
    return faulty_preview(true_preview_sql, s, sn, t, tn, size);
}

int64_t wenduulig_preview_geopackage_sql(const uint8_t *s, size_t sn, const uint8_t *t, size_t tn, size_t size)
{
    if (FAULT == 84) /* 84 the second call's preview is that of the first */
        return true_preview_sql(s, sn, t, tn, size);
    if (FAULT == 85 && true_preview_sql(s, sn, t, tn, size) == -8) /* 85 the second call's preview decides 8 by the first call's length */
        return -8;
    if (FAULT == 86 && true_preview_sql(s, sn, t, tn, size) == -9) /* 86 the second call's preview decides 9 by the first call's length */
        return -9;
    return faulty_preview(true_preview_geopackage_sql, s, sn, t, tn, size);
}

/* A string of a text or row that is read as it should not be. */
static int32_t faulty_strings_read(const uint8_t *t, size_t tn, const uint8_t *row, size_t rn, int32_t n)
{
    size_t m = 0;
    (void)m;
    switch (FAULT) {
    case 40: /* 40 a doubled apostrophe is read as two bytes */
        rewritten(t, tn < 60000 ? tn : 0, 4, &m);
        return n >= 0 && tn < 60000 && m <= 65535 ? true_read(copy, m, row, rn) : n;
    case 41: /* 41 an unclosed text ends with the SQL text */
        if (n != -12 || tn >= 60000)
            return n;
        memcpy(copy, t, tn);
        copy[tn] = '\'';
        return true_read(copy, tn + 1, row, rn);
    case 42: /* 42 a surrogate is taken in a row */
        return n == -11 && rn < 60000 ? true_read(t, tn, with_pairs(row, rn, 0xed, 0xa0, 0xbf, "\xed\x9f"), rn) : n;
    case 43: /* 43 an overlong form of three bytes is taken in a text */
        return n == -12 && tn < 60000 ? true_read(with_pairs(t, tn, 0xe0, 0x80, 0x9f, "\xe0\xa0"), tn, row, rn) : n;
    case 44: /* 44 a character above U+10FFFF is taken in a row */
        return n == -11 && rn < 60000 ? true_read(t, tn, with_pairs(row, rn, 0xf4, 0x90, 0xbf, "\xf4\x80"), rn) : n;
    case 45: /* 45 the limit of a row's value counts apostrophes doubled */
        return n >= 0 && run_of(row, rn, '\'') > 32 ? -11 : n;
    default:
        return n;
    }
}

int32_t wenduulig_read(const uint8_t *t, size_t tn, const uint8_t *row, size_t rn)
{
    int32_t n = true_read(t, tn, row, rn);
    size_t deep = 0;
    (void)deep;
    switch (FAULT) {
    case 20: /* 20 != with a NULL is false */
        return n == 2 && memmem(t, tn, "!=", 2) ? 0 : n;
    case 21: /* 21 64 brackets are refused */
        while (deep < tn && t[deep] == '(')
            deep++;
        return deep == 64 ? -12 : n;
    case 22: /* 22 a tab is taken for a space */
        return n == -12 && tn < 60000 ? true_read(changed(t, tn, "\t", " ", 1), tn, row, rn) : n;
    case 23: /* 23 the byte before the text is read */
        sink = t[-1];
        return n;
    case 24: /* 24 a row of 32,768 bytes is refused */
        return rn == 32768 && n != -10 ? -10 : n;
    case 25: /* 25 a name of 64 bytes is not found */
        return n >= 0 && memmem(t, tn, "nnnnnnnnnnnnnnnnnnnnnnnnnnnnnnnnnnnnnnnnnnnnnnnnnnnnnnnnnnnnnnnn", 64) ? -13 : n;
    case 26: /* 26 a missing name comes before a text outside the grammar */
        return n == -12 && memmem(t, tn, "zz", 2) ? -13 : n;
    case 27: /* 27 the row's last byte is changed */
        if (rn && n == 1)
            ((uint8_t *)row)[rn - 1] ^= 1;
        return n;
    case 28: /* 28 BY is a column's name */
        return n == -11 && rn < 60000 ? true_read(t, tn, without(row, rn, "BY"), rn) : n;
    case 29: /* 29 group is a name in a text */
        return n == -12 && tn < 60000 ? true_read(changed(t, tn, "group", "groux", 5), tn, row, rn) : n;
    default:
        return faulty_strings_read(t, tn, row, rn, n);
    }
}
