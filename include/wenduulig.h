/* wenduulig.h: the SQL text of a CQL2 filter for a GeoPackage, as it is or reduced first, and what a time filter's text says of a
 * row.
 *
 * Build and link:   tools/build/archive capi
 *                   cc -Iinclude your.c target/staticlib/libcapi.a
 * For the controller's four functions alone, in its place:
 *                   tools/build/archive controller_capi
 *                   cc -Iinclude your.c target/staticlib/libcontroller_capi.a
 * The libraries are for x86-64 Linux; a program links one of them.
 *
 * Settings, trees and rows are handed in as the records below. Any bytes may be handed in: what breaks a rule is refused
 * by a number and never read out of bounds. The ten functions are proved to give the numbers and bytes below on all
 * inputs (crates/capi_c and crates/controller_capi_c, over crates/capi, crates/controller_capi, crates/gpkg, crates/controller,
 * crates/reduce, crates/truth).
 *
 * Two of them write for the planner. They take the same arguments and refuse by the same rules: 1 to 7 the same inputs, 8 and
 * 9 by the bytes of the text that the call writes. Their texts differ in two things alone. Timestamps, wherever they stand:
 *    wenduulig_to_sql              '2024-02-29T12:00:00'        the text of ogc-cql2, for columns that hold instants so
 *    wenduulig_to_geopackage_sql   '2024-02-29T12:00:00.000Z'   for DATETIME columns as OGC GeoPackage stores them; the
 *                                                               fields of a Timestamp are then UTC
 * And an open end, Unbounded as the second record of an Interval:
 *    wenduulig_to_sql              '-2021-01-01'                the text of ogc-cql2, below every instant
 *    wenduulig_to_geopackage_sql   'A'                          above every instant, as CQL2 has it
 * SQLite, and reading here, compare texts by their bytes, a shorter prefix first: '2024-02-29T12:00:00' lies below the same
 * instant with .000Z. So take the call that writes instants as the columns hold them. For stays that have not ended, from a
 * start to .., take wenduulig_to_geopackage_sql, over DATETIME and DATE columns; by the other call such a stay ends before it
 * begins. A Date is '2024-02-29' in both texts, for DATE columns; an open start, and an Unbounded that is no end of an
 * Interval, is '-2021-01-01' in both, below every instant.
 *
 * Each of the two has a preview, wenduulig_preview_sql and wenduulig_preview_geopackage_sql. It takes the size of a buffer in
 * the place of one, any size_t, writes nothing, and answers what the call that writes would with a buffer of that size: the
 * length of the text, or the refusal. With SIZE_MAX, or any size from WENDUULIG_TEXT_MAX on, 9 does not occur: the answer is
 * the length to reserve, or a refusal of 1 to 8. It costs what the call that writes does before it writes.
 *
 * The camera's controller has the same four with wenduulig_controller_ in the place of wenduulig_, and smaller limits: trees
 * of 2,000 bytes, 8 levels, texts of 4,000 bytes. 2, 4 and 8 mean these limits there; all else is the same. Where both
 * callers accept, their texts are equal; what the planner's functions accept, the controller's refuse by 2, 4, 8 or 9 alone.
 *
 * A filter that is not reduced yet goes through wenduulig_reduce first. It takes a tree and writes one, which any of the calls
 * above then takes; these lower a tree as it is, reduced or not. Operands are reduced first; then
 *    Minus                of Null is Null, of a Num that with the other sign, its scale kept; of a zero 0 (in ogc-cql2 -0)
 *    Neg                  of Null is Null, of a Bool the other Bool
 *    IsNull, IsNotNull    of Null are true and false
 *    CaseI, AccentI       of a Str are that Str with the flag 1 or 2 set besides those that it has; of themselves the inner one
 *    And, Or              of Null and Bools on both sides are what SQL has for them: NULL OR TRUE is true
 *    any other operator of two operands, one of them Null, is Null
 *    TAfter, TBefore, TDisjoint, TEquals, TIntersects between two of Date, Timestamp and Unbounded are true or false by their
 *                         time: a Date is its midnight, Unbounded lies below every instant and equals itself
 *    any other operator of two operands, other than And and Or, with a literal on both sides (Unbounded, Bool, Num, Str, Date,
 *                         Timestamp, Spatial) is refused with 14: 1 = 1, 'a' LIKE 'b'. Reckon it yourself, or leave it out
 *    anything else stays, with its operands, items and ends reduced
 * A reduced tree is no longer than its tree, so a buffer of tree_len bytes is never refused by 9; it is accepted again, and
 * reduced to itself. The limits are the planner's: 2 to 7 as wenduulig_to_sql gives them; 1 and 8 do not occur.
 *
 * Records. Length, 4 bytes; kind, 2 bytes; body. Numbers are little-endian; the length counts kind and body.
 *    0 Null, 1 Unbounded (..)   empty
 *    2 Bool        a byte, 0 or 1
 *    3 Num         mantissa m, 8 bytes, two's complement, |m| < 10^15; scale s, a byte, 0 to 9: m / 10^s
 *    4 Str         flags, a byte: 0 plain, 1 ignoring case, 2 accents, 3 both; 0 to 4,096 bytes of a text
 *    5 Date        year, 2 bytes, 1 to 9999; month, a byte; day, a byte: a day that the Gregorian calendar has
 *    6 Timestamp   a date; hour, 0 to 23, minute and second, 0 to 59, a byte each: whole seconds
 *    7 Spatial     SRID, 4 bytes, unsigned; 1 to 4,096 letters, digits, space , ( ) - .
 *    8 Id          a name
 *    9 Monadic     operator, 2 bytes; one record
 *   10 Dyadic      operator, 2 bytes; two records
 *   11 Function    length byte, name; records to the end
 *   12 Array       records to the end
 *   13 Interval    two records
 *  100 settings    precision, a byte, 0 to 15; three times length byte, name: collations for case, accents, both
 *  200 a column    length byte, name; a byte 0 for NULL, or 1 and 0 to 64 bytes of a text. A row is a run of these.
 * A text is well-formed UTF-8 (the Unicode standard's Table 3-7: no overlong form, no surrogate, nothing above U+10FFFF)
 * without the bytes 0x00 to 0x1F and 0x7F. An apostrophe stands in it as one byte, as any other; the SQL text has it
 * doubled, 'O''Ring', and reading takes a doubled one in quotes as one. The limits of 4,096 and 64 count the record's
 * bytes, those of an SQL text and of `out` the bytes as written.
 * A name has 1 to 64 letters, digits, underscores, no digit first, and is in any letter case no keyword of SQLite, as
 * ORDER or GROUP (the 147 words of sqlite.org/lang_keywords.html, release 3.40.0), nor DIV, FALSE or TRUE. Letters are
 * those of ASCII. A column that has such a name needs another one, or a view that gives it one.
 *
 *   number  where        the refusal
 *    1      settings     not exactly one record of kind 100 with a precision of 0 to 15 and three names
 *    2      tree         longer than 32,768 bytes; the controller's: 2,000
 *    3      tree         a record is missing where one is due, a length is below 2 or passes the end around it, or bytes
 *                        are left over
 *    4      tree         a record lies deeper than 32, the root being 1; the controller's: 8
 *    5      tree         a record's kind is above 13, an operator's number above 52, or an operator stands at the wrong
 *                        number of operands
 *    6      tree         a field, a body's size, a name or a text breaks its rule above, as a Str that is no UTF-8
 *    7      tree         an Interval is no direct operand of a temporal operator, a temporal operator other than TAfter,
 *                        TBefore, TDisjoint, TEquals and TIntersects lacks an Interval on a side, or the right side of
 *                        BETWEEN or NOT BETWEEN is no Array of exactly two
 *    8      text         longer than 65,535 bytes; the controller's: 4,000
 *    9      buffer       shorter than the text; in a preview the size is less than the text's length; in reducing shorter than
 *                        the reduced tree
 *   10      text, row    the text is longer than 65,535 bytes or the row than 32,768
 *   11      row          no run of records of kind 200 as above, or two of its names are equal in any letter case
 *   12      text         outside the grammar, or more than 64 brackets one inside another. The grammar: comparisons by
 *                        < > <= >= = <> != of columns, quoted texts and NULL, a column with IS NULL, IS NOT NULL or
 *                        NOT NULL, TRUE, FALSE, NULL, joined by NOT, AND, OR and brackets. A quoted text ends at the
 *                        first apostrophe that is not doubled; what stands in it is a text as above, of any length
 *   13      text, row    a name in the text is absent from the row
 *   14      tree         reducing: once its operands are reduced, an operator of two operands other than And and Or has two
 *                        literals, neither of them Null, and is not one of the five above between instants
 * Of several, lowering gives 1 first, then 2; then 3 to 6, record by record in reading order, a parent first, and of one
 * record the lowest; then 7, 8 and 9. Reducing gives 2 to 7 in the same order, then 14, then 9. Reading gives the lowest.
 *
 * Memory. The caller lends every byte and keeps it: nothing is allocated, freed or kept after the return. A pointer is
 * followed by the number of bytes that it lends. It is not NULL, also where that number is 0. `out` overlaps neither
 * `settings` nor `tree`: a tree is not reduced in its own place. Other parts may overlap; they are only read. The `size` of a
 * preview lends nothing.
 *
 * Threads. There is no state: any number of calls may run at once, as long as no call's `out` overlaps bytes of another
 * call. Each needs less than 128 KiB of stack, the controller's less than 4 KiB besides what memcpy and memset take, which are
 * all that is called of the C library; and every call ends.
 *
 * An example: the text of TAfter(entry, 2024-02-29), and what it says of a row. It prints entry > '2024-02-29' and 1.
 *
 *    #include <stdio.h>
 *    #include "wenduulig.h"
 *    static const uint8_t settings[] = {13, 0, 0, 0, WENDUULIG_SETTINGS, 0, 7, 2, 'C', 'I', 2, 'A', 'I', 3, 'C', 'A', 'I'};
 *    static const uint8_t tree[] = {25, 0, 0, 0, WENDUULIG_DYADIC, 0, WENDUULIG_T_AFTER, 0,    // 25: all after the length
 *                                   7, 0, 0, 0, WENDUULIG_ID, 0, 'e', 'n', 't', 'r', 'y',
 *                                   6, 0, 0, 0, WENDUULIG_DATE, 0, 2024 % 256, 2024 / 256, 2, 29};
 *    static const uint8_t row[] = {19, 0, 0, 0, WENDUULIG_COLUMN, 0, 5, 'e', 'n', 't', 'r', 'y',
 *                                  1, '2', '0', '2', '4', '-', '0', '3', '-', '0', '1'};       // 1: a value, not NULL
 *    int main(void) {
 *        static uint8_t out[WENDUULIG_TEXT_MAX];
 *        int64_t n = wenduulig_to_sql(settings, sizeof settings, tree, sizeof tree, out, sizeof out);
 *        if (n < 0) { printf("refused: %d\n", (int)-n); return 1; }
 *        printf("%.*s\n%d\n", (int)n, (const char *)out, (int)wenduulig_read(out, (size_t)n, row, sizeof row));
 *        return 0;
 *    }
 *
 * The same with no more space than the text needs, and <stdlib.h>; n is then the answer of both calls:
 *
 *        int64_t n = wenduulig_preview_sql(settings, sizeof settings, tree, sizeof tree, SIZE_MAX);
 *        if (n < 0) { printf("refused: %d\n", (int)-n); return 1; }
 *        uint8_t *out = malloc((size_t)n);
 *        if (out) wenduulig_to_sql(settings, sizeof settings, tree, sizeof tree, out, (size_t)n);
 *        free(out);
 *
 * The same of a tree that is not reduced yet:
 *
 *        static uint8_t reduced[WENDUULIG_TREE_MAX];
 *        int64_t m = wenduulig_reduce(tree, sizeof tree, reduced, sizeof reduced);
 *        if (m < 0) { printf("refused: %d\n", (int)-m); return 1; }
 *        int64_t n = wenduulig_to_sql(settings, sizeof settings, reduced, (size_t)m, out, sizeof out);
 */
#ifndef WENDUULIG_H
#define WENDUULIG_H

#include <stddef.h>
#include <stdint.h>

#ifdef __cplusplus
extern "C" {
#endif

/* The limits, in bytes and levels. A buffer of WENDUULIG_TEXT_MAX bytes, and a preview of that size, is never refused by 9; by the
 * controller's functions one of WENDUULIG_CONTROLLER_TEXT_MAX. */
#define WENDUULIG_TREE_MAX 32768
#define WENDUULIG_DEPTH_MAX 32
#define WENDUULIG_TEXT_MAX 65535
#define WENDUULIG_ROW_MAX 32768
#define WENDUULIG_CONTROLLER_TREE_MAX 2000
#define WENDUULIG_CONTROLLER_DEPTH_MAX 8
#define WENDUULIG_CONTROLLER_TEXT_MAX 4000

/* The kinds of records. */
enum wenduulig_kind {
    WENDUULIG_NULL = 0,
    WENDUULIG_UNBOUNDED = 1,
    WENDUULIG_BOOL = 2,
    WENDUULIG_NUM = 3,
    WENDUULIG_STR = 4,
    WENDUULIG_DATE = 5,
    WENDUULIG_TIMESTAMP = 6,
    WENDUULIG_SPATIAL = 7,
    WENDUULIG_ID = 8,
    WENDUULIG_MONADIC = 9,
    WENDUULIG_DYADIC = 10,
    WENDUULIG_FUNCTION = 11,
    WENDUULIG_ARRAY = 12,
    WENDUULIG_INTERVAL = 13,
    WENDUULIG_SETTINGS = 100,
    WENDUULIG_COLUMN = 200
};

/* The operators, in the order of Op in ogc-cql2. Of one operand (kind 9): MINUS, NEG (which is NOT), CASE_I, ACCENT_I,
 * IS_NULL and IS_NOT_NULL. Of two (kind 10): MINUS and all others. */
enum wenduulig_op {
    WENDUULIG_PLUS = 0,
    WENDUULIG_MINUS = 1,
    WENDUULIG_MULT = 2,
    WENDUULIG_DIV = 3,
    WENDUULIG_INT_DIV = 4,
    WENDUULIG_MOD = 5,
    WENDUULIG_EXP = 6,
    WENDUULIG_NEG = 7,
    WENDUULIG_EQ = 8,
    WENDUULIG_NEQ = 9,
    WENDUULIG_LT = 10,
    WENDUULIG_GT = 11,
    WENDUULIG_LTE = 12,
    WENDUULIG_GTE = 13,
    WENDUULIG_AND = 14,
    WENDUULIG_OR = 15,
    WENDUULIG_CASE_I = 16,
    WENDUULIG_ACCENT_I = 17,
    WENDUULIG_S_INTERSECTS = 18,
    WENDUULIG_S_EQUALS = 19,
    WENDUULIG_S_DISJOINT = 20,
    WENDUULIG_S_TOUCHES = 21,
    WENDUULIG_S_WITHIN = 22,
    WENDUULIG_S_OVERLAPS = 23,
    WENDUULIG_S_CROSSES = 24,
    WENDUULIG_S_CONTAINS = 25,
    WENDUULIG_T_AFTER = 26,
    WENDUULIG_T_BEFORE = 27,
    WENDUULIG_T_CONTAINS = 28,
    WENDUULIG_T_DISJOINT = 29,
    WENDUULIG_T_DURING = 30,
    WENDUULIG_T_EQUALS = 31,
    WENDUULIG_T_FINISHED_BY = 32,
    WENDUULIG_T_FINISHES = 33,
    WENDUULIG_T_INTERSECTS = 34,
    WENDUULIG_T_MEETS = 35,
    WENDUULIG_T_MET_BY = 36,
    WENDUULIG_T_OVERLAPPED_BY = 37,
    WENDUULIG_T_OVERLAPS = 38,
    WENDUULIG_T_STARTED_BY = 39,
    WENDUULIG_T_STARTS = 40,
    WENDUULIG_A_EQUALS = 41,
    WENDUULIG_A_CONTAINS = 42,
    WENDUULIG_A_CONTAINED_BY = 43,
    WENDUULIG_A_OVERLAPS = 44,
    WENDUULIG_IS_LIKE = 45,
    WENDUULIG_IS_NOT_LIKE = 46,
    WENDUULIG_IS_BETWEEN = 47,
    WENDUULIG_IS_NOT_BETWEEN = 48,
    WENDUULIG_IS_IN_LIST = 49,
    WENDUULIG_IS_NOT_IN_LIST = 50,
    WENDUULIG_IS_NULL = 51,
    WENDUULIG_IS_NOT_NULL = 52
};

/* What wenduulig_read answers where it does not refuse. */
enum wenduulig_truth {
    WENDUULIG_FALSE = 0,
    WENDUULIG_TRUE = 1,
    WENDUULIG_UNKNOWN = 2 /* SQL's NULL: the row is not selected, nor is it by NOT of the filter */
};

/* The refusals; an answer holds one with a minus sign. */
enum wenduulig_refusal {
    WENDUULIG_BAD_SETTINGS = 1,
    WENDUULIG_TREE_TOO_LONG = 2,
    WENDUULIG_BAD_FRAME = 3,
    WENDUULIG_TOO_DEEP = 4,
    WENDUULIG_BAD_KIND_OR_OPERATOR = 5,
    WENDUULIG_BAD_FIELD = 6,
    WENDUULIG_BAD_OPERAND = 7,
    WENDUULIG_TEXT_TOO_LONG = 8,
    WENDUULIG_BUFFER_TOO_SHORT = 9,
    WENDUULIG_INPUT_TOO_LONG = 10,
    WENDUULIG_BAD_ROW = 11,
    WENDUULIG_BAD_TEXT = 12,
    WENDUULIG_MISSING_COLUMN = 13,
    WENDUULIG_CONSTANT_OPERANDS = 14
};

/* Lowers the filter `tree` under `settings` into `out`, with the text of ogc-cql2.
 * 0 or more: the length in bytes of the SQL text, which stands in the first bytes of `out` as UTF-8 (ASCII but for what is
 * in quotes), with no closing zero byte; the bytes past it are as lent.
 * -1 to -9: a refusal; all of `out` is as lent. */
int64_t wenduulig_to_sql(const uint8_t *settings, size_t settings_len, const uint8_t *tree, size_t tree_len, uint8_t *out,
                         size_t out_len);

/* The same, with each timestamp as a GeoPackage's DATETIME columns hold it: .000Z stands after its seconds; and with the open
 * end of an Interval above every instant: 'A'. For stays that have not ended, and for DATETIME columns. */
int64_t wenduulig_to_geopackage_sql(const uint8_t *settings, size_t settings_len, const uint8_t *tree, size_t tree_len,
                                    uint8_t *out, size_t out_len);

/* What wenduulig_to_sql answers with an `out` of `size` bytes, and nothing is written: 0 or more, the length of the text, or
 * -1 to -9, the refusal. */
int64_t wenduulig_preview_sql(const uint8_t *settings, size_t settings_len, const uint8_t *tree, size_t tree_len, size_t size);

/* The same of wenduulig_to_geopackage_sql. */
int64_t wenduulig_preview_geopackage_sql(const uint8_t *settings, size_t settings_len, const uint8_t *tree, size_t tree_len,
                                         size_t size);

/* The same four for the controller: trees of at most 2,000 bytes and 8 levels, texts of at most 4,000 bytes, and 2, 4 and 8 by
 * these limits. A text is the planner's, byte for byte. */
int64_t wenduulig_controller_to_sql(const uint8_t *settings, size_t settings_len, const uint8_t *tree, size_t tree_len,
                                    uint8_t *out, size_t out_len);
int64_t wenduulig_controller_to_geopackage_sql(const uint8_t *settings, size_t settings_len, const uint8_t *tree,
                                               size_t tree_len, uint8_t *out, size_t out_len);
int64_t wenduulig_controller_preview_sql(const uint8_t *settings, size_t settings_len, const uint8_t *tree, size_t tree_len,
                                         size_t size);
int64_t wenduulig_controller_preview_geopackage_sql(const uint8_t *settings, size_t settings_len, const uint8_t *tree,
                                                    size_t tree_len, size_t size);

/* Reduces the filter `tree` into `out`, by the rules above.
 * 0 or more: the length in bytes of the reduced tree, at least 6, whose record stands in the first bytes of `out`; the bytes
 * past it are as lent. With an `out` of tree_len bytes, or of WENDUULIG_TREE_MAX, 9 does not occur.
 * -2 to -7, -14, -9: a refusal; all of `out` is as lent. */
int64_t wenduulig_reduce(const uint8_t *tree, size_t tree_len, uint8_t *out, size_t out_len);

/* Reads what `text` says of `row`: an enum wenduulig_truth, or -10 to -13 for a refusal.
 * The text need not come from a call that writes; it has no closing zero byte. An empty row (row_len 0) has no columns.
 * Values compare by their bytes, which for UTF-8 is the order of the characters' numbers. */
int32_t wenduulig_read(const uint8_t *text, size_t text_len, const uint8_t *row, size_t row_len);

#ifdef __cplusplus
}
#endif

#endif
