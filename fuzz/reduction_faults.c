/* Reducing with one planted fault, FAULT, or none; beside faults.c, and told by its lines as there. The rules stand here a second time, in C, so that a
   fault can be planted in each: 2 to 7 and 14 are the true call's, and with FAULT 0 all must be as the true call has it. */
#include <string.h>
#include <wenduulig.h>

int64_t true_reduce(const uint8_t *, size_t, uint8_t *, size_t);
int64_t true_to_sql(const uint8_t *, size_t, const uint8_t *, size_t, uint8_t *, size_t);

enum { HEAD = 6, OPERATOR = 8 };    /* bytes before a body; before the operands */
enum { LATER = 1, EQUAL = 0, EARLIER = -1 };

/* What the rules make of a node with reduced operands. */
enum made { STAYS, TO_NULL, TO_FALSE, TO_TRUE, REFUSED };

static size_t size_of(const uint8_t *r)
{
    return 4 + (size_t)(r[0] | r[1] << 8 | r[2] << 16 | r[3] << 24);
}

static size_t put_head(uint8_t *o, size_t size, uint8_t kind)
{
    const uint32_t length = (uint32_t)size - 4;
    memcpy(o, &length, 4);
    o[4] = kind;
    o[5] = 0;
    return size;
}

static size_t put_bool(uint8_t *o, int value)
{
    o[HEAD] = (uint8_t)value;
    return put_head(o, HEAD + 1, WENDUULIG_BOOL);
}

static size_t put_made(enum made made, uint8_t *o)
{
    return made == TO_NULL ? put_head(o, HEAD, WENDUULIG_NULL) : put_bool(o, made == TO_TRUE);
}

static int is_instant(uint8_t kind)
{
    return kind == WENDUULIG_UNBOUNDED || kind == WENDUULIG_DATE || kind == WENDUULIG_TIMESTAMP;
}

static int is_literal(uint8_t kind)
{
    if (FAULT == 131 && kind == WENDUULIG_SPATIAL) /* 131 a Spatial is no literal for a 14 */
        return 0;
    if (FAULT == 132 && kind == WENDUULIG_UNBOUNDED) /* 132 Unbounded is no literal, and so is never compared */
        return 0;
    return kind >= WENDUULIG_UNBOUNDED && kind <= WENDUULIG_SPATIAL;
}

static int is_of_five(unsigned op)
{
    return op == WENDUULIG_T_AFTER || op == WENDUULIG_T_BEFORE || op == WENDUULIG_T_DISJOINT || op == WENDUULIG_T_EQUALS ||
           op == WENDUULIG_T_INTERSECTS;
}

/* An instant as one number, a field in two digits. */
static uint64_t key_of(const uint8_t *r)
{
    uint64_t key = r[HEAD] + (FAULT == 133 ? 0 : 256u * r[HEAD + 1]); /* 133 years are compared by their lower byte */
    if (r[4] == WENDUULIG_UNBOUNDED)
        return FAULT == 134 ? UINT64_MAX : 0; /* 134 Unbounded lies above every instant */
    const int stamp = r[4] == WENDUULIG_TIMESTAMP, fields = FAULT == 135 ? 6 : 7; /* 135 seconds are not compared */
    for (int i = 2; i < fields; i++)
        key = 100 * key + (stamp || i < 4 ? r[HEAD + i] : 0);
    if (FAULT == 136 && !stamp) /* 136 a Date is its noon */
        key += 120000;
    if (FAULT == 137 && !stamp) /* 137 a Date is the end of its day */
        key += 235959;
    if (FAULT == 138 && stamp) /* 138 a timestamp is its day: a Date equals its noon */
        key -= key % 1000000;
    return key;
}

static int order_of(const uint8_t *x, const uint8_t *y)
{
    const uint64_t a = key_of(x), b = key_of(y);
    if (FAULT == 139 && x[4] == WENDUULIG_UNBOUNDED && y[4] == WENDUULIG_UNBOUNDED) /* 139 Unbounded does not equal itself */
        return EARLIER;
    return a < b ? EARLIER : a > b ? LATER : EQUAL;
}

static enum made compared(unsigned op, const uint8_t *x, const uint8_t *y)
{
    const int order = order_of(x, y);
    if (FAULT == 140 && op == WENDUULIG_T_BEFORE) /* 140 TBefore is TAfter */
        op = WENDUULIG_T_AFTER;
    if (FAULT == 141 && op == WENDUULIG_T_INTERSECTS) /* 141 TIntersects of instants is TDisjoint */
        op = WENDUULIG_T_DISJOINT;
    if (FAULT == 142 && op == WENDUULIG_T_AFTER && order == EQUAL) /* 142 TAfter of equal instants is true */
        return TO_TRUE;
    switch (op) {
    case WENDUULIG_T_AFTER:
        return order == LATER ? TO_TRUE : TO_FALSE;
    case WENDUULIG_T_BEFORE:
        return order == EARLIER ? TO_TRUE : TO_FALSE;
    case WENDUULIG_T_DISJOINT:
        return order != EQUAL ? TO_TRUE : TO_FALSE;
    default:
        return order == EQUAL ? TO_TRUE : TO_FALSE;
    }
}

/* And, Or. */
static enum made joined(unsigned op, const uint8_t *x, const uint8_t *y)
{
    const int decides = op == WENDUULIG_OR, null = x[4] == WENDUULIG_NULL || y[4] == WENDUULIG_NULL;
    const int left = x[4] == WENDUULIG_BOOL && x[HEAD] == decides, right = y[4] == WENDUULIG_BOOL && y[HEAD] == decides;
    if (FAULT == 143 && (left || right)) /* 143 And of a column and false is false */
        return decides ? TO_TRUE : TO_FALSE;
    if ((x[4] != WENDUULIG_NULL && x[4] != WENDUULIG_BOOL) || (y[4] != WENDUULIG_NULL && y[4] != WENDUULIG_BOOL))
        return STAYS;
    if (FAULT == 144 && decides && null) /* 144 Or of Null and true is Null */
        return TO_NULL;
    if (FAULT == 145 && !decides && null) /* 145 And of Null and false is Null */
        return TO_NULL;
    if (FAULT == 146 && !decides && null && !left && !right) /* 146 And of Null and true is false */
        return TO_FALSE;
    if (left || right)
        return decides ? TO_TRUE : TO_FALSE;
    return null ? TO_NULL : decides ? TO_FALSE : TO_TRUE;
}

static enum made met(unsigned op, const uint8_t *x, const uint8_t *y)
{
    const int instants = is_instant(x[4]) && is_instant(y[4]);
    if (op == WENDUULIG_AND || op == WENDUULIG_OR)
        return joined(op, x, y);
    if (FAULT == 147 && y[4] == WENDUULIG_NULL) /* 147 Null as a second operand stays */
        return STAYS;
    if (FAULT == 148 && op == WENDUULIG_EQ && x[4] == WENDUULIG_NULL && y[4] == WENDUULIG_NULL) /* 148 Null equals Null */
        return TO_TRUE;
    if (x[4] == WENDUULIG_NULL || y[4] == WENDUULIG_NULL)
        return TO_NULL;
    if (!is_literal(x[4]) || !is_literal(y[4]))
        return STAYS;
    if (FAULT == 149 && op == WENDUULIG_EQ) /* 149 Eq of two literals is reckoned */
        return size_of(x) == size_of(y) && !memcmp(x, y, size_of(x)) ? TO_TRUE : TO_FALSE;
    if (FAULT == 150 && op == WENDUULIG_LT && instants) /* 150 Lt between instants is taken for one of the five */
        return compared(WENDUULIG_T_BEFORE, x, y);
    if (FAULT == 151 && x[4] == WENDUULIG_STR && y[4] == WENDUULIG_STR) /* 151 an operator of two strings stays */
        return STAYS;
    if (FAULT == 152 && is_of_five(op) && (is_instant(x[4]) || is_instant(y[4]))) /* 152 one instant is enough for the five */
        return instants ? compared(op, x, y) : TO_FALSE;
    return is_of_five(op) && instants ? compared(op, x, y) : REFUSED;
}

static size_t negated(uint8_t *o, size_t n)
{
    uint64_t m;
    memcpy(&m, o + HEAD, 8);
    if (FAULT == 153 && m == 0) /* 153 a zero under Minus becomes -1 in its last place */
        m = 1;
    m = 0 - m;
    memcpy(o + HEAD, &m, 8);
    if (FAULT == 154) /* 154 the scale is lost under Minus */
        o[HEAD + 8] = 0;
    return n;
}

static size_t flagged(unsigned op, uint8_t *o, size_t n)
{
    uint8_t flag = op == WENDUULIG_CASE_I ? 1 : 2;
    if (FAULT == 155) /* 155 AccentI sets the flag of CaseI */
        flag = 1;
    o[HEAD] = FAULT == 156 ? flag : o[HEAD] | flag; /* 156 flags are replaced, not joined */
    return n;
}

/* A node of one operand, which has n bytes, of this kind, and stands in its place behind the node's head; 0 if it stays as it is. */
static size_t turned(unsigned op, uint8_t *o, size_t n)
{
    uint8_t *x = o + OPERATOR;
    const uint8_t kind = x[4];
    const int folds = op == WENDUULIG_CASE_I || op == WENDUULIG_ACCENT_I;
    if (FAULT == 157 && op == WENDUULIG_NEG && kind == WENDUULIG_NULL) /* 157 Neg of Null is true */
        return put_bool(o, 1);
    if ((op == WENDUULIG_MINUS || op == WENDUULIG_NEG) && kind == WENDUULIG_NULL)
        return put_head(o, HEAD, WENDUULIG_NULL);
    if (FAULT == 158 && folds && kind == WENDUULIG_NULL) /* 158 CaseI of Null is Null */
        return put_head(o, HEAD, WENDUULIG_NULL);
    if (op == WENDUULIG_NEG && kind == WENDUULIG_BOOL)
        return put_bool(o, FAULT == 159 ? 1 : !x[HEAD]); /* 159 Neg of true is true */
    if ((op == WENDUULIG_IS_NULL || op == WENDUULIG_IS_NOT_NULL) && kind == WENDUULIG_NULL)
        return put_bool(o, FAULT == 160 || op == WENDUULIG_IS_NULL); /* 160 IsNotNull of Null is true */
    if (FAULT == 161 && op == WENDUULIG_IS_NULL && is_literal(kind)) /* 161 IsNull of a literal is false */
        return put_bool(o, 0);
    if ((op == WENDUULIG_MINUS && kind == WENDUULIG_NUM) || (folds && kind == WENDUULIG_STR)) {
        memmove(o, x, n);
        return kind == WENDUULIG_NUM ? negated(o, n) : flagged(op, o, n);
    }
    const int both = folds && kind == WENDUULIG_MONADIC;
    const int same = both && (x[HEAD] == op || (FAULT == 162 && x[HEAD] / 2 == op / 2)); /* 162 CaseI of AccentI is AccentI */
    const int twice = FAULT == 163 && op == WENDUULIG_MINUS && kind == WENDUULIG_MONADIC && x[HEAD] == op; /* 163 Minus of Minus stays once */
    if ((same && FAULT != 164) || twice) /* 164 CaseI of CaseI is kept twice */
        return memmove(o, x, n), n;
    return 0;
}

static size_t reduced(const uint8_t *t, uint8_t *o);

static size_t one(const uint8_t *t, uint8_t *o)
{
    const unsigned op = t[HEAD];
    const size_t n = reduced(t + OPERATOR, o + OPERATOR), m = n ? turned(op, o, n) : 0;
    if (!n || m)
        return m;
    memcpy(o + HEAD, t + HEAD, 2);
    return put_head(o, OPERATOR + n, WENDUULIG_MONADIC);
}

/* A record as it is. */
static size_t copied(const uint8_t *t, uint8_t *o)
{
    return memcpy(o, t, size_of(t)), size_of(t);
}

static size_t two(const uint8_t *t, uint8_t *o)
{
    const unsigned op = t[HEAD];
    const uint8_t *second = t + OPERATOR + size_of(t + OPERATOR);
    const int between = op == WENDUULIG_IS_BETWEEN || op == WENDUULIG_IS_NOT_BETWEEN;
    const size_t n = reduced(t + OPERATOR, o + OPERATOR);
    if (FAULT == 165 && n && op == WENDUULIG_AND && o[OPERATOR + 4] == WENDUULIG_BOOL && !o[OPERATOR + HEAD]) /* 165 And of false and anything is false */
        return put_bool(o, 0);
    if (FAULT == 166 && n && o[OPERATOR + 4] == WENDUULIG_NULL && op != WENDUULIG_AND && op != WENDUULIG_OR) /* 166 Null before a 14 is Null */
        return put_head(o, HEAD, WENDUULIG_NULL);
    if (!n)
        return 0;
    uint8_t *y = o + OPERATOR + n;
    const size_t m = FAULT == 167 && between ? copied(second, y) : reduced(second, y); /* 167 BETWEEN's list is not reduced */
    const enum made made = m ? met(op, o + OPERATOR, y) : REFUSED;
    if (made == REFUSED)
        return 0;
    if (made != STAYS)
        return put_made(made, o);
    memcpy(o + HEAD, t + HEAD, 2);
    return put_head(o, OPERATOR + n + m, WENDUULIG_DYADIC);
}

/* Whether an item stays as it is, though it reduces. */
static int is_skipped(uint8_t kind, size_t first, size_t at, size_t end, const uint8_t *t)
{
    const int last = at + size_of(t + at) == end;
    if (FAULT == 168 && kind == WENDUULIG_ARRAY && last) /* 168 the last item of an Array is not reduced */
        return 1;
    if (FAULT == 169 && kind == WENDUULIG_ARRAY && at == first && !last) /* 169 the first of several items of an Array is not reduced */
        return 1;
    if (FAULT == 170 && kind == WENDUULIG_FUNCTION) /* 170 a Function's arguments are not reduced */
        return 1;
    if (FAULT == 171 && kind == WENDUULIG_INTERVAL && at == first) /* 171 an Interval's start is not reduced */
        return 1;
    return FAULT == 172 && kind == WENDUULIG_INTERVAL && last; /* 172 an Interval's end is not reduced */
}

/* A Function, an Array, an Interval: what stands before the items, then each. */
static size_t several(const uint8_t *t, uint8_t *o)
{
    const size_t first = HEAD + (t[4] == WENDUULIG_FUNCTION ? 1 + (size_t)t[HEAD] : 0), end = size_of(t);
    size_t at = first, n = first;
    memcpy(o, t, first);
    while (at < end) {
        const size_t m = is_skipped(t[4], first, at, end, t) ? copied(t + at, o + n) : reduced(t + at, o + n);
        if (!m)
            return 0;
        n += m;
        at += size_of(t + at);
    }
    return put_head(o, n, t[4]);
}

/* The length of the reduced tree, which stands in `o` then; 0 for a 14. */
static size_t reduced(const uint8_t *t, uint8_t *o)
{
    switch (t[4]) {
    case WENDUULIG_MONADIC:
        return one(t, o);
    case WENDUULIG_DYADIC:
        return two(t, o);
    case WENDUULIG_FUNCTION:
    case WENDUULIG_ARRAY:
    case WENDUULIG_INTERVAL:
        return several(t, o);
    default:
        return copied(t, o);
    }
}

static uint8_t whole[2 * WENDUULIG_TREE_MAX];

/* The number of levels of an accepted tree. */
static unsigned levels(const uint8_t *t)
{
    const size_t end = size_of(t);
    size_t at = t[4] == WENDUULIG_FUNCTION ? HEAD + 1 + (size_t)t[HEAD] : t[4] == WENDUULIG_MONADIC || t[4] == WENDUULIG_DYADIC ? OPERATOR : HEAD;
    unsigned most = 0;
    while (t[4] >= WENDUULIG_MONADIC && at < end) {
        const unsigned below = levels(t + at);
        most = below > most ? below : most;
        at += size_of(t + at);
    }
    return most + 1;
}

/* The answer with no limit of a buffer; the tree is left in `whole`. */
static int64_t answer(const uint8_t *t, size_t tn)
{
    static const uint8_t settings[] = {9, 0, 0, 0, WENDUULIG_SETTINGS, 0, 7, 1, 'C', 1, 'A', 1, 'B'};
    static uint8_t text[WENDUULIG_TEXT_MAX];
    int64_t n = true_reduce(t, tn, whole, sizeof whole);
    if (FAULT == 173 && n == -2 && tn == WENDUULIG_TREE_MAX + 1) /* 173 a tree of 32,769 bytes is reduced */
        n = 0;
    if (FAULT == 174 && n == -7 && !reduced(t, whole)) /* 174 14 comes before 7 */
        return -14;
    if (n < 0 && n != -14)
        return n;
    if (FAULT == 175 && tn == WENDUULIG_TREE_MAX) /* 175 a tree of 32,768 bytes is refused with 2 */
        return -2;
    if (FAULT == 176 && levels(t) == WENDUULIG_DEPTH_MAX) /* 176 32 levels are refused with 4 */
        return -4;
    if (FAULT == 177 && true_to_sql(settings, sizeof settings, t, tn, text, sizeof text) == -8) /* 177 a text that is too long is an 8 */
        return -8;
    if (FAULT == 192 && tn > 1024) /* 192 a tree of more than 1,024 bytes stays as it is */
        return (int64_t)copied(t, whole);
    n = (int64_t)reduced(t, whole);
    return n ? n : -14;
}

/* A refusal, and what it leaves in the buffer. */
static int64_t refused(int64_t n, const uint8_t *t, size_t tn, uint8_t *out, size_t room)
{
    if (FAULT == 178 && n == -14 && room < tn) /* 178 9 comes before 14 */
        return -9;
    if (FAULT == 179 && n == -7 && room < tn) /* 179 9 comes before 7 */
        return -9;
    if (FAULT == 180 && n == -14 && room) /* 180 a 14 leaves the first byte written */
        out[0] ^= 1;
    if (FAULT == 181 && n == -14 && room >= tn) /* 181 a 14 leaves the tree as it was in the buffer */
        memcpy(out, t, tn);
    if (FAULT == 182 && n == -14) /* 182 a 14 is told as a 7 */
        return -7;
    return n;
}

int64_t wenduulig_reduce(const uint8_t *t, size_t tn, uint8_t *out, size_t room)
{
    const int64_t n = answer(t, tn);
    if (n < 0)
        return refused(n, t, tn, out, room);
    if (FAULT == 183 && room < tn) /* 183 a buffer as long as the tree is asked for */
        return -9;
    if (FAULT == 184 && room == (size_t)n) /* 184 a buffer of the reduced tree's exact length is refused */
        return -9;
    if (FAULT == 185 && room < (size_t)n) /* 185 a 9 leaves what fits in the buffer */
        memcpy(out, whole, room);
    if (FAULT == 186 && room + 1 == (size_t)n) /* 186 a buffer that is one byte short is taken */
        return memcpy(out, whole, room), n;
    if (room < (size_t)n)
        return -9;
    if (FAULT == 187) /* 187 the length is told and nothing is written */
        return n;
    memcpy(out, whole, (size_t)n - (FAULT == 188)); /* 188 the last byte is not written */
    if (FAULT == 189 && room > (size_t)n) /* 189 the byte behind the reduced tree is written */
        out[n] = 0;
    if (FAULT == 190 && room >= tn) /* 190 bytes behind the reduced tree are those of the walk */
        memcpy(out + n, whole + n, tn - (size_t)n);
    if (FAULT == 191 && n < (int64_t)tn) /* 191 the length is the tree's */
        return (int64_t)tn;
    return n;
}
