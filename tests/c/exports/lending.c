/* Every function with just enough lent memory, and with one element less of each slice that it is
 * lent. A slice is a block of its own, of just its size, so that a checker of memory sees any step
 * beyond it. */
#include "check.h"
#include <stdio.h>
#include <stdlib.h>

enum { SLICES = 5 }; /* that one call takes at most */

struct slice {
    void *memory;
    size_t elements;
};

struct row {
    const char *name;
    uint64_t (*call)(const struct slice *s);
    uint64_t answer;
    struct {
        size_t elements, size; /* how many, and how many bytes each has */
        const void *holds;     /* NULL for what the call only writes */
        uint64_t less;         /* the answer where one element less is lent */
    } lent[SLICES];
};

/* The calls, each with its slices in their order. */
#define BYTES(k) (uint8_t *)s[k].memory, s[k].elements
#define NUMBERS(k) (uint64_t *)s[k].memory, s[k].elements
#define CALL(function, ...)                                 \
    static uint64_t call_##function(const struct slice *s) \
    {                                                       \
        (void)s;                                            \
        return function(__VA_ARGS__);                       \
    }
CALL(kdr_read, KDR_CLIENT, BYTES(0), NUMBERS(1))
CALL(kdr_option, BYTES(0), 8, 20, 1, NUMBERS(1))
CALL(kdr_write_empty, BYTES(0), KDR_StartUp)
CALL(kdr_write_session, BYTES(0), KDR_SessionParameters, 4, 0, BYTES(1), BYTES(2))
CALL(kdr_write_text, BYTES(0), KDR_ItemPart, BYTES(1))
CALL(kdr_write_statement, BYTES(0), KDR_Execute, 0, BYTES(1))
CALL(kdr_write_coded, BYTES(0), KDR_ErrorResponse, 1, BYTES(1))
CALL(kdr_write_options, BYTES(0), KDR_SetOptions, (uint32_t *)s[1].memory, s[1].elements,
     (size_t *)s[2].memory, s[2].elements, BYTES(3))
CALL(kdr_write_item, BYTES(0), KDR_ItemStart, 1, 0, BYTES(1))
CALL(kdr_write_item_url, BYTES(0), KDR_ItemStart, 1, 0, BYTES(1), BYTES(2))
CALL(kdr_fresh, BYTES(0))
CALL(kdr_step, BYTES(0), KDR_CLIENT, BYTES(1), NUMBERS(2))
CALL(kdr_closed, BYTES(0))
CALL(kdr_turn, BYTES(0))
CALL(kdr_statement_parts, 10235)
CALL(kdr_item_parts, 10236)
CALL(kdr_typed_item_parts, 10233)
CALL(kdr_typed_item_url_parts, 1, 10227)
CALL(kdr_write_statement_part, BYTES(0), 1, BYTES(1), 0)
CALL(kdr_write_item_part, BYTES(0), BYTES(1), 0)
CALL(kdr_write_typed_item_part, BYTES(0), 1, 0, BYTES(1), 0)
CALL(kdr_write_typed_item_url_part, BYTES(0), 1, 0, BYTES(1), BYTES(2), 0)
CALL(kdr_open, NUMBERS(0), KDR_ITEM)
CALL(kdr_join, NUMBERS(0), BYTES(1), KDR_SERVER, BYTES(2), NUMBERS(3))
CALL(kdr_value, 1, 10, BYTES(0), (int64_t *)s[1].memory, s[1].elements, (double *)s[2].memory,
     s[2].elements)
CALL(kdr_compare, 1, 1, 1, 0)
CALL(kdr_basex_string_len, BYTES(0))
CALL(kdr_basex_write_string, BYTES(0), 3, BYTES(1))
CALL(kdr_basex_string_at, BYTES(0), 1, NUMBERS(1))
CALL(kdr_basex_decode, BYTES(0), 1, BYTES(1), 2, NUMBERS(2))
CALL(kdr_basex_read_request, BYTES(0), BYTES(1), NUMBERS(2))
CALL(kdr_basex_write_request, BYTES(0), KDR_BASEX_BIND, BYTES(1), BYTES(2), BYTES(3), BYTES(4))
CALL(kdr_basex_read_response, KDR_BASEX_COMMAND, BYTES(0), BYTES(1), NUMBERS(2))
CALL(kdr_basex_error, KDR_BASEX_COMMAND, NUMBERS(0), NUMBERS(1))
CALL(kdr_basex_item, KDR_BASEX_FULL, BYTES(0), 1, NUMBERS(1))
CALL(kdr_basex_write_item, BYTES(0), 3, KDR_BASEX_FULL, 12, BYTES(1), BYTES(2))
CALL(kdr_basex_write_end, BYTES(0), 3, KDR_BASEX_QUERY, BYTES(1), BYTES(2), 1, BYTES(3))

/* What they are lent to read, or to go on from. */
static const uint8_t START_UP[] = {0, 0, 0, 110, 0, 0, 0, 0};
static const uint8_t PART[] = {0, 0, 1, 104, 0, 0, 0, 6, 0, 0, 0, 0, 1, 'x'};
static const uint8_t OPTIONS[] = {0, 0, 2, 18, 0, 0, 0, 20, 0, 0, 0, 7, 0,   0,
                                  0, 0, 2, 97, 98, 0, 0, 0, 9, 0, 0, 0, 0, 0};
static const uint32_t IDS[] = {7, 9};
static const size_t LENGTHS[] = {2, 0};
static const uint64_t ASSEMBLY[] = {KDR_ITEM, 0, 0, 0, 0, 0, 0};
static const uint8_t STRING[] = {0x99, 'a', 0xFF, 0x00, 0x00};
static const uint8_t BIND[] = {3, 0, 'v', 0, 'a', 'b', 0, 'i', 'n', 't', 0};
static const uint8_t RESPONSE[] = {'G', 'e', 0, 'n', 'o', 0, 1};
static const uint64_t TOLD_OF_IT[] = {2, 2, 0, 0, 1, 0};
static const uint8_t ITEM[] = {0x99, 12, 'u', 0, 't', 0};
static uint8_t fresh[KDR_SESSION_BYTES], over[KDR_SESSION_BYTES];

/* What is written gets 10 where it is too short; what is read gets what the row says. */
#define OUT(n) {n, 1, NULL, KDR_REFUSED + KDR_NO_ROOM}
#define TELL(n) {n, sizeof(uint64_t), NULL, KDR_REFUSED + KDR_NO_ROOM}
#define HOLDS(array, less) {sizeof(array) / sizeof *(array), sizeof *(array), array, less}
#define LETTERS(literal, less) {sizeof(literal) - 1, 1, literal, less}
#define ROW(function, answer, ...) {#function, call_##function, answer, {__VA_ARGS__}}
#define ALONE(function, answer) {#function, call_##function, answer, {{0, 0, NULL, 0}}}
#define LESS(number) (KDR_REFUSED + (number))

static const struct row ROWS[] = {
    ROW(kdr_read, 8, HOLDS(START_UP, LESS(1)), TELL(10)),
    ROW(kdr_option, 1, HOLDS(OPTIONS, 0), TELL(3)),
    ROW(kdr_write_empty, 8, OUT(8)),
    ROW(kdr_write_session, 23, OUT(23), LETTERS("u", 22), LETTERS("db", 22)),
    ROW(kdr_write_text, 14, OUT(14), LETTERS("x", 13)),
    ROW(kdr_write_statement, 15, OUT(15), LETTERS("1", 14)),
    ROW(kdr_write_coded, 18, OUT(18), LETTERS("x", 17)),
    ROW(kdr_write_options, 28, OUT(28), HOLDS(IDS, LESS(8)), HOLDS(LENGTHS, LESS(8)),
        LETTERS("ab", LESS(8))),
    ROW(kdr_write_item, 17, OUT(17), LETTERS("x", 16)),
    ROW(kdr_write_item_url, 23, OUT(23), LETTERS("u", 22), LETTERS("x", 22)),
    ROW(kdr_fresh, 0, OUT(2)),
    ROW(kdr_step, 8, HOLDS(fresh, LESS(10)), HOLDS(START_UP, LESS(1)), TELL(10)),
    ROW(kdr_closed, 1, HOLDS(over, 0)),
    ROW(kdr_turn, KDR_CLIENT, HOLDS(fresh, KDR_NOBODY)),
    ALONE(kdr_statement_parts, 3),
    ALONE(kdr_item_parts, 2),
    ALONE(kdr_typed_item_parts, 2),
    ALONE(kdr_typed_item_url_parts, 2),
    ROW(kdr_write_statement_part, 15, OUT(15), LETTERS("1", 14)),
    ROW(kdr_write_item_part, 14, OUT(14), LETTERS("x", 13)),
    ROW(kdr_write_typed_item_part, 17, OUT(17), LETTERS("x", 16)),
    ROW(kdr_write_typed_item_url_part, 23, OUT(23), LETTERS("u", 22), LETTERS("x", 22)),
    ROW(kdr_open, 0, TELL(7)),
    ROW(kdr_join, 14, HOLDS(ASSEMBLY, LESS(10)), {1, 1, NULL, LESS(12)}, HOLDS(PART, LESS(1)),
        TELL(4)),
    ROW(kdr_value, KDR_INSTANT, LETTERS("1970-01-01T00:00:00Z", LESS(16)), TELL(2), TELL(1)),
    ALONE(kdr_compare, 1),
    ROW(kdr_basex_string_len, 4, LETTERS("a\xFF", 2)),
    ROW(kdr_basex_write_string, 4, OUT(7), LETTERS("a\xFF", 2)),
    ROW(kdr_basex_string_at, 4, HOLDS(STRING, LESS(1)), TELL(1)),
    ROW(kdr_basex_decode, 4, HOLDS(STRING, LESS(1)), OUT(4), TELL(1)),
    ROW(kdr_basex_read_request, 11, HOLDS(BIND, LESS(1)), OUT(6), TELL(5)),
    ROW(kdr_basex_write_request, 10, OUT(10), LETTERS("1", 9), LETTERS("v", 9), LETTERS("2", 9),
        LETTERS("in", 9)),
    ROW(kdr_basex_read_response, 7, HOLDS(RESPONSE, LESS(1)), OUT(4), TELL(6)),
    ROW(kdr_basex_error, 1, HOLDS(TOLD_OF_IT, LESS(10)), TELL(2)),
    ROW(kdr_basex_item, 5, HOLDS(ITEM, LESS(1)), TELL(3)),
    ROW(kdr_basex_write_item, 5, OUT(8), LETTERS("u", 4), LETTERS("t", 4)),
    ROW(kdr_basex_write_end, 5, OUT(8), LETTERS("a", 4), LETTERS("", 5), LETTERS("e", 4)),
};
enum { ROW_COUNT = sizeof ROWS / sizeof *ROWS };

static size_t slices(const struct row *r)
{
    size_t n = 0;
    while (n < SLICES && r->lent[n].size > 0) {
        n++;
    }
    return n;
}

/* A block of just so many elements of what a row lends. */
static struct slice lend_slice(const struct row *r, size_t k, size_t elements)
{
    size_t bytes = elements * r->lent[k].size;
    struct slice s = {malloc(bytes), elements};
    if (r->lent[k].holds == NULL) {
        fill(s.memory, bytes);
    } else {
        memcpy(s.memory, r->lent[k].holds, bytes);
    }
    return s;
}

static bool as_lent(const struct row *r, size_t k, const struct slice *s)
{
    size_t bytes = s->elements * r->lent[k].size;
    return r->lent[k].holds == NULL ? left_alone(s->memory, bytes)
                                    : memcmp(s->memory, r->lent[k].holds, bytes) == 0;
}

/* The call with one element less of the slice `less`, and just enough of the others; of all where
 * no slice has that number. A refusal leaves what was lent, but for the mark of 12. */
static void check_lent(const struct row *r, size_t less)
{
    struct slice s[SLICES];
    const uint64_t expected = less < slices(r) ? r->lent[less].less : r->answer;
    for (size_t k = 0; k < slices(r); k++) {
        s[k] = lend_slice(r, k, r->lent[k].elements - (k == less));
    }
    check(r->call(s) == expected, r->name, (int)less, "answer");
    for (size_t k = 0; k < slices(r); k++) {
        bool kept = kdr_refused(expected) && kdr_refusal(expected) != KDR_BUFFER_OVERRUN;
        check(!kept || as_lent(r, k, &s[k]), r->name, (int)less, "left as it was");
        free(s[k].memory);
    }
}

void check_lending(void)
{
    uint8_t error[] = {0, 0, 0, 100, 0, 0, 0, 9, 0, 0, 0, 1, 0, 0, 0, 0, 0};
    uint64_t fields[KDR_FIELDS];
    kdr_fresh(fresh, sizeof fresh);
    kdr_fresh(over, sizeof over);
    kdr_step(over, sizeof over, KDR_CLIENT, START_UP, sizeof START_UP, fields, KDR_FIELDS);
    kdr_step(over, sizeof over, KDR_SERVER, error, sizeof error, fields, KDR_FIELDS);
    for (size_t i = 0; i < ROW_COUNT; i++) {
        check_lent(&ROWS[i], SLICES);
        for (size_t k = 0; k < slices(&ROWS[i]); k++) {
            if (ROWS[i].lent[k].elements > 0) {
                check_lent(&ROWS[i], k);
            }
        }
    }
}

void print_lending(void)
{
    for (size_t i = 0; i < ROW_COUNT; i++) {
        printf("%s %zu\n", ROWS[i].name, slices(&ROWS[i]));
    }
}
