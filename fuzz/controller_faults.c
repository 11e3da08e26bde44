/* The controller's functions with one planted fault, FAULT, in front of the true calls; beside faults.c, and told by its lines as there. */
#include <string.h>
#include <wenduulig.h>

enum { TREE = WENDUULIG_CONTROLLER_TREE_MAX, LEVELS = WENDUULIG_CONTROLLER_DEPTH_MAX, TEXT = WENDUULIG_CONTROLLER_TEXT_MAX, PLANNER_LEVELS = WENDUULIG_DEPTH_MAX };

typedef int64_t writer(const uint8_t *, size_t, const uint8_t *, size_t, uint8_t *, size_t);
typedef int64_t previewer(const uint8_t *, size_t, const uint8_t *, size_t, size_t);

writer true_to_sql, true_to_geopackage_sql, true_controller_to_sql, true_controller_to_geopackage_sql;
previewer true_preview_sql, true_preview_geopackage_sql, true_controller_preview_sql, true_controller_preview_geopackage_sql;

/* What is asked: a call of the planner's, and what it is lent; `out` is NULL for a preview. */
struct asked {
    writer *planner;
    const uint8_t *s, *t;
    size_t sn, tn;
    uint8_t *out;
    size_t room;
};

static uint8_t whole[65536];

/* What the planner answers with no limit of a buffer: the text is left in `whole`. */
static int64_t planned(const struct asked *a)
{
    return a->planner(a->s, a->sn, a->t, a->tn, whole, sizeof whole);
}

/* The planner's answer with a limit of the text. */
static int64_t within(const struct asked *a, int64_t text)
{
    int64_t n = planned(a);
    if (n > text)
        return -8;
    if (n > 0 && (size_t)n > a->room)
        return -9;
    if (n > 0 && a->out)
        memcpy(a->out, whole, (size_t)n);
    return n;
}

/* The same with a limit of levels: the tree is asked about inside as many arrays as are left to the planner's. */
static int64_t to_level(const struct asked *a, size_t levels, int64_t text)
{
    static uint8_t inside[2 * WENDUULIG_TREE_MAX];
    size_t m = 0;
    if (a->tn > TREE)
        return -2;
    for (size_t left = PLANNER_LEVELS - levels; left > 0; left--, m += 6) {
        const uint32_t length = (uint32_t)(6 * (left - 1) + a->tn + 2);
        memcpy(inside + m, &length, 4);
        memcpy(inside + m + 4, "\x0c", 2);
    }
    memcpy(inside + m, a->t, a->tn);
    int64_t n = a->planner(a->s, a->sn, inside, m + a->tn, whole, sizeof whole);
    return n < 0 && n > -8 ? n : within(a, text);
}

/* The level of the first record in reading order whose frame is bad, or 0. */
static unsigned bad_frame(const uint8_t *t, size_t *at, size_t end, unsigned level)
{
    uint32_t length;
    if (end - *at < 6)
        return level;
    memcpy(&length, t + *at, 4);
    if (length < 2 || length > end - *at - 4)
        return level;
    size_t kind = t[*at + 4], inner = *at + 6, stop = *at + 4 + length;
    inner += kind == 9 || kind == 10 ? 2 : kind == 11 && inner < stop ? 1 + (size_t)t[inner] : 0;
    while (kind >= 9 && inner < stop) {
        unsigned found = bad_frame(t, &inner, stop, level + 1);
        if (found)
            return found;
    }
    *at = stop;
    return 0;
}

/* A limit that is another; n is the true answer. */
static int64_t faulty_limits(const struct asked *a, int64_t n)
{
    switch (FAULT) {
    case 87: /* 87 the controller takes 9 levels */
        return n == -4 ? to_level(a, LEVELS + 1, TEXT) : n;
    case 88: /* 88 the controller refuses 8 levels */
        return n >= 0 && to_level(a, LEVELS - 1, TEXT) == -4 ? -4 : n;
    case 89: /* 89 the controller has the planner's depth */
        return n == -4 ? within(a, TEXT) : n;
    case 90: /* 90 the controller's text is tested against the planner's limit */
        return n == -8 ? within(a, 65535) : n;
    case 91: /* 91 the controller takes a text of 4,001 bytes */
        return n == -8 ? within(a, TEXT + 1) : n;
    case 92: /* 92 the controller refuses a text of 4,000 bytes with 8 */
        return n == TEXT ? -8 : n;
    case 93: /* 93 the controller takes a tree of 2,001 bytes */
        return n == -2 && a->tn == TREE + 1 ? within(a, TEXT) : n;
    case 94: /* 94 the controller refuses a tree of 2,000 bytes with 2 */
        return n >= 0 && a->tn == TREE ? -2 : n;
    case 95: /* 95 the controller has the planner's limit of a tree */
        return n == -2 ? within(a, TEXT) : n;
    default:
        return n;
    }
}

/* A refusal in the place of another, or too early or too late. */
static int64_t faulty_order(const struct asked *a, int64_t n)
{
    size_t at = 0;
    switch (FAULT) {
    case 96: /* 96 the controller answers 8 in the place of 2 */
        return n == -2 ? -8 : n;
    case 97: /* 97 the controller answers 2 in the place of 8 */
        return n == -8 ? -2 : n;
    case 98: /* 98 the controller answers 4 in the place of 2 */
        return n == -2 && planned(a) >= 0 ? -4 : n;
    case 99: /* 99 the controller answers 9 before 8 */
        return n == -8 && within(a, 65535) == -9 ? -9 : n;
    case 100: /* 100 the controller answers 2 before 1 */
        return n == -1 && a->tn > TREE ? -2 : n;
    case 101: /* 101 the controller answers 3 before 2 */
        return n == -2 && planned(a) == -3 ? -3 : n;
    case 102: /* 102 the controller answers 4 for a bad frame at the ninth level */
        return n == -3 && bad_frame(a->t, &at, a->tn, 1) > LEVELS ? -4 : n;
    case 103: /* 103 the controller answers 5 or 6 of a later record before 4 */
        return n == -4 && (planned(a) == -5 || planned(a) == -6) ? planned(a) : n;
    case 104: /* 104 the controller answers 7 before 4 */
        return n == -4 && planned(a) == -7 ? -7 : n;
    case 105: /* 105 the controller answers 8 before 4 */
        return n == -4 && (planned(a) > TEXT || planned(a) == -8) ? -8 : n;
    default:
        return faulty_limits(a, n);
    }
}

/* Bytes of the buffer that are not as they should be, or a text that is another; n is the true answer. */
static int64_t faulty_bytes(const struct asked *a, int64_t n)
{
    switch (FAULT) {
    case 106: /* 106 the controller leaves the first byte written after an 8 */
        if (n == -8 && a->room)
            a->out[0] ^= 1;
        return n;
    case 107: /* 107 the controller leaves the planner's text after a 4 */
        if (n == -4)
            within(a, 65535);
        return n;
    case 108: /* 108 the controller does not write what lies past 3,900 bytes */
        if (n > 3900)
            memset(a->out + 3900, ' ', (size_t)n - 3900);
        return n;
    case 109: /* 109 the controller refuses a buffer of less than 4,000 bytes */
        return n >= 0 && a->room < TEXT ? -9 : n;
    case 110: /* 110 the controller refuses a buffer of the text's exact length */
        return n == (int64_t)a->room ? -9 : n;
    case 111: /* 111 the controller writes the byte after the text */
        if (n >= 0 && n < (int64_t)a->room)
            a->out[n] = 0;
        return n;
    default:
        return faulty_order(a, n);
    }
}

int64_t wenduulig_controller_to_sql(const uint8_t *s, size_t sn, const uint8_t *t, size_t tn, uint8_t *out, size_t room)
{
    const struct asked a = {true_to_sql, s, t, sn, tn, out, room};
    if (FAULT == 112) /* 112 the controller's first call has the planner's limits */
        return true_to_sql(s, sn, t, tn, out, room);
    if (FAULT == 113) /* 113 the controller's first call is its second */
        return true_controller_to_geopackage_sql(s, sn, t, tn, out, room);
    return faulty_bytes(&a, true_controller_to_sql(s, sn, t, tn, out, room));
}

int64_t wenduulig_controller_to_geopackage_sql(const uint8_t *s, size_t sn, const uint8_t *t, size_t tn, uint8_t *out, size_t room)
{
    const struct asked a = {true_to_geopackage_sql, s, t, sn, tn, out, room};
    if (FAULT == 114) /* 114 the controller's second call has the planner's limits */
        return true_to_geopackage_sql(s, sn, t, tn, out, room);
    if (FAULT == 115) /* 115 the controller's second call is its first */
        return true_controller_to_sql(s, sn, t, tn, out, room);
    if (FAULT == 116 && true_controller_preview_sql(s, sn, t, tn, 0) == -8) /* 116 its second call decides 8 by the first call's length */
        return -8;
    return faulty_bytes(&a, true_controller_to_geopackage_sql(s, sn, t, tn, out, room));
}

/* Of a preview alone. */
static int64_t faulty_preview(const struct asked *a, previewer *planner, int64_t n)
{
    switch (FAULT) {
    case 117: /* 117 the controller's previews have the planner's limits */
        return planner(a->s, a->sn, a->t, a->tn, a->room);
    case 118: /* 118 the controller's previews have the planner's limit of a text */
        return n == -8 ? within(a, 65535) : n;
    case 119: /* 119 the controller's previews take 9 levels */
        return n == -4 ? to_level(a, LEVELS + 1, TEXT) : n;
    case 120: /* 120 the controller's previews take a tree of 2,001 bytes */
        return n == -2 && a->tn == TREE + 1 ? within(a, TEXT) : n;
    case 121: /* 121 the controller's previews answer 9 before 8 */
        return n == -8 && a->room <= TEXT ? -9 : n;
    case 122: /* 122 the controller's previews ignore the size */
        return n == -9 ? planned(a) : n;
    case 123: /* 123 the controller's previews take a size that is one byte too small */
        return n == -9 && a->room + 1 == (size_t)planned(a) ? planned(a) : n;
    case 124: /* 124 the controller's previews answer 8 for a size above 4,000 */
        return n >= 0 && a->room > TEXT ? -8 : n;
    default:
        return n;
    }
}

int64_t wenduulig_controller_preview_sql(const uint8_t *s, size_t sn, const uint8_t *t, size_t tn, size_t size)
{
    const struct asked a = {true_to_sql, s, t, sn, tn, NULL, size};
    if (FAULT == 125) /* 125 the preview of the controller's first call is that of its second */
        return true_controller_preview_geopackage_sql(s, sn, t, tn, size);
    return faulty_preview(&a, true_preview_sql, true_controller_preview_sql(s, sn, t, tn, size));
}

int64_t wenduulig_controller_preview_geopackage_sql(const uint8_t *s, size_t sn, const uint8_t *t, size_t tn, size_t size)
{
    const struct asked a = {true_to_geopackage_sql, s, t, sn, tn, NULL, size};
    if (FAULT == 126) /* 126 the preview of the controller's second call is that of its first */
        return true_controller_preview_sql(s, sn, t, tn, size);
    if (FAULT == 127) /* 127 the preview of the controller's second call has the planner's limits */
        return true_preview_geopackage_sql(s, sn, t, tn, size);
    return faulty_preview(&a, true_preview_geopackage_sql, true_controller_preview_geopackage_sql(s, sn, t, tn, size));
}
