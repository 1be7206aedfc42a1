/* What the tests of the exports share: checks that are counted, and memory to lend. */
#ifndef CHECK_H
#define CHECK_H

#include "keddorimp.h"
#include <string.h>

/* Counts a check; where it fails, says so and ends the program with status 1. */
#define CHECK(holds) check((holds), __FILE__, __LINE__, #holds)
void check(bool holds, const char *file, int line, const char *text);

/* All memory that a call may write. There is more of each than any call is lent, so that a write
 * behind what is lent is seen; and nothing between them that a compiler might fill. */
struct lent {
    uint8_t out[KDR_MESSAGE_MAX + 16];
    uint8_t session[KDR_SESSION_BYTES + 6];
    uint64_t numbers[KDR_FIELDS + 2];
    uint64_t assembly[KDR_ASSEMBLY_FIELDS + 2];
    int64_t value[KDR_VALUE_NUMBERS + 2];
    double real[2];
};
extern struct lent lent;

/* How many bytes of the output, and how many numbers, the macros below lend: their `call` says
 * `lent.out, room` and `lent.numbers, told`. */
extern size_t room, told;

/* Fills memory with one byte, which no test writes; whether it is still so. Lending fills all. */
void fill(void *from, size_t size);
bool left_alone(const void *from, size_t size);
void lend(void);
#define ALL_LEFT_ALONE left_alone(&lent, sizeof lent)

/* The bytes that a text of hex digits says, spaces aside; how many they are. */
size_t from_hex(uint8_t *bytes, const char *hex);

/* A text and its length, as two arguments. */
#define TEXT(literal) (const uint8_t *)(literal), sizeof(literal) - 1
#define NO_TEXT NULL, 0

/* The call is refused with the number, and every lent byte and number is as it was. */
#define REFUSED(number, call)                    \
    do {                                         \
        lend();                                  \
        CHECK((call) == KDR_REFUSED + (number)); \
        CHECK(ALL_LEFT_ALONE);                   \
    } while (0)

/* The call, which is lent just enough, puts those bytes into the output from `at` on and answers
 * their number; it changes nothing else. With one byte less it is refused with 10. */
#define WRITES_AT(at, hex, call)                                              \
    do {                                                                      \
        static uint8_t expected[sizeof lent.out];                             \
        size_t size = from_hex(expected, hex);                                \
        lend();                                                               \
        room = (at) + size;                                                   \
        CHECK((call) == size);                                                \
        CHECK(left_alone(lent.out, at));                                      \
        CHECK(memcmp(lent.out + (at), expected, size) == 0);                  \
        CHECK(left_alone((const uint8_t *)&lent + room, sizeof lent - room)); \
        room--;                                                               \
        REFUSED(KDR_NO_ROOM, call);                                           \
        room = sizeof lent.out;                                               \
    } while (0)

/* The same in front of the output. */
#define WRITES(hex, call) WRITES_AT(0, hex, call)

/* The numbers in front of those that were lent are these, and those behind are as they were. */
#define TOLD(...)                                                     \
    do {                                                              \
        const uint64_t these[] = {__VA_ARGS__};                       \
        CHECK(memcmp(lent.numbers, these, sizeof these) == 0);        \
        CHECK(left_alone(lent.numbers + sizeof these / sizeof *these, \
                         sizeof lent.numbers - sizeof these));        \
    } while (0)

/* The call, which is lent just enough, answers that count, puts those texts in front of the output
 * and tells those numbers; with one byte less of output, or one number less, it is refused with
 * 10. */
#define BASEX_READS(count, text, call, ...)                          \
    do {                                                             \
        size_t size = sizeof(text) - 1;                              \
        lend();                                                      \
        room = size;                                                 \
        told = sizeof((uint64_t[]){__VA_ARGS__}) / sizeof(uint64_t); \
        CHECK((call) == (count));                                    \
        TOLD(__VA_ARGS__);                                           \
        CHECK(memcmp(lent.out, text, size) == 0);                    \
        CHECK(left_alone(lent.out + size, sizeof lent.out - size));  \
        room = size - 1;                                             \
        REFUSED(KDR_NO_ROOM, call);                                  \
        room = sizeof lent.out;                                      \
        told--;                                                      \
        REFUSED(KDR_NO_ROOM, call);                                  \
        told = KDR_FIELDS;                                           \
    } while (0)

/* Document 01's table, in its order: the header's name, the number, who sends it, its body. */
enum { INSTRUCTIONS = 46 };
struct instruction {
    uint32_t name, number;
    uint8_t side;
    unsigned shape;
};
extern const struct instruction TABLE[INSTRUCTIONS];

/* Puts a message of that instruction with empty texts into the output, as if its body had that
 * shape; the version is 4.0. Answers what the writer answers. */
uint64_t written(uint32_t instruction, unsigned shape);

/* One function for each group of exports. */
void check_messages(void);
void check_sessions(void);
void check_sheet(void);
void check_cutting(void);
void check_joining(void);
void check_values(void);
void check_basex_strings(void);
void check_basex_requests(void);
void check_basex_responses(void);

/* Every function with just enough lent memory and with an element less; and their names, with how
 * many slices each was lent. */
void check_lending(void);
void print_lending(void);

#endif
