/* Calls every exported function through the header, with good input and with input that is refused,
 * and checks the answers and all lent memory. Prints how many checks passed, or the first that
 * failed. This file has document 01's worked examples and what the tests share. */
#include "check.h"
#include <limits.h>
#include <stdio.h>
#include <stdlib.h>

enum { FILLER = 0xA5 };

struct lent lent;
size_t room = sizeof lent.out, told = KDR_FIELDS;
static unsigned long checks;

void check(bool holds, const char *file, int line, const char *text)
{
    if (!holds) {
        printf("%s:%d: failed behind %lu checks: %s\n", file, line, checks, text);
        exit(1);
    }
    checks++;
}

void fill(void *from, size_t size)
{
    memset(from, FILLER, size);
}

bool left_alone(const void *from, size_t size)
{
    const uint8_t *bytes = from;
    size_t n = 0;
    while (n < size && bytes[n] == FILLER) {
        n++;
    }
    return n == size;
}

void lend(void)
{
    fill(&lent, sizeof lent);
}

size_t from_hex(uint8_t *bytes, const char *hex)
{
    size_t n = 0;
    unsigned byte;
    int used;
    while (sscanf(hex, "%2x%n", &byte, &used) == 1) {
        bytes[n++] = (uint8_t)byte;
        hex += used;
    }
    return n;
}

/* "Worked examples", those that are read from a side: the refusal, or 0. */
static const struct example {
    uint8_t side;
    const char *hex;
    unsigned refusal;
} EXAMPLES[] = {
    {KDR_CLIENT, "", 1},
    {KDR_CLIENT, "0000006E 000000", 1},
    {KDR_CLIENT, "0000006E 00000000", 0},
    {KDR_SERVER, "0000006E 00000000", 3},
    {KDR_CLIENT, "0000006E 00000001 78", 7},
    {KDR_CLIENT, "00000065 00000000", 2},
    {KDR_SERVER, "00000168 00002801", 4},
    {KDR_SERVER, "00000168 00002800", 1},
    {KDR_CLIENT, "0000012C 00000007 00 00 00000001 31", 0},
    {KDR_CLIENT, "0000012C 00000007 02 00 00000001 31", 8},
    {KDR_CLIENT, "0000012C 00000007 00 01 00000001 31", 6},
    {KDR_CLIENT, "0000012C 00000007 00 00 00000002 31", 5},
};

static void check_example(const struct example *e)
{
    uint8_t bytes[16];
    size_t n = from_hex(bytes, e->hex);
    uint64_t answer;
    lend();
    answer = kdr_read(e->side, bytes, n, lent.numbers, KDR_FIELDS);
    CHECK(kdr_refused(answer) == (e->refusal != 0));
    CHECK(kdr_refusal(answer) == e->refusal);
    CHECK(e->refusal == 0 ? answer == n : ALL_LEFT_ALONE);
}

static void check_examples(void)
{
    const uint8_t start_up[] = {0, 0, 0, 0x6E, 0, 0, 0, 0};
    const uint8_t execute[] = {0, 0, 1, 0x2C, 0, 0, 0, 7, 0, 0, 0, 0, 0, 1, 0x31};
    const uint8_t bad_escape[] = {0xFF, 0x41, 0x00};
    const uint8_t strung[] = {0x61, 0xFF, 0x00, 0xFF, 0xFF, 0x00};
    for (size_t i = 0; i < sizeof EXAMPLES / sizeof *EXAMPLES; i++) {
        check_example(&EXAMPLES[i]);
    }
    /* "StartUp, 8 read" */
    lend();
    CHECK(kdr_read(KDR_CLIENT, start_up, sizeof start_up, lent.numbers, KDR_FIELDS) == 8);
    TOLD(KDR_StartUp, KDR_SHAPE_EMPTY, 0, 0, 0, 0, 0, 0, 0, 0);
    /* "Execute, XML, text "1"" */
    lend();
    CHECK(kdr_read(KDR_CLIENT, execute, sizeof execute, lent.numbers, KDR_FIELDS) == 15);
    TOLD(KDR_Execute, KDR_SHAPE_STATEMENT, 0, 0, 14, 1, 0, 0, 0, 0);
    /* "BaseX write 61 00 FF: 61 FF 00 FF FF 00" */
    lend();
    CHECK(kdr_basex_write_string(lent.out, 6, 0, TEXT("\x61\x00\xFF")) == 6);
    CHECK(memcmp(lent.out, strung, 6) == 0);
    /* "BaseX read FF 41 00: 13"; "BaseX read FF: 1", which is not marked, and runs here */
    REFUSED(KDR_BAD_ESCAPE, kdr_basex_string_at(bad_escape, 3, 0, lent.numbers, 1));
    REFUSED(KDR_MORE_BYTES, kdr_basex_string_at(bad_escape, 1, 0, lent.numbers, 1));
}

/* "Refusal numbers", given when. */
static const char *const WORDS[] = {
    "more bytes are needed",
    "unknown instruction, or BaseX first byte",
    "instruction of the other side",
    "body length above 10,240",
    "the body ends inside a field",
    "string format byte not 0",
    "bytes left over",
    "value not allowed",
    "no conversation goes on with this message; a part or an end that no open gathering takes",
    "lent output shorter than the bytes to be put there",
    "value has no encoding (body above 10,240; BaseX command start)",
    "item or statement longer than its gathering buffer",
    "FF followed by a byte other than 00 or FF",
    "no such part of a cut",
    /* document 02 */
    "another class, a type not named, or text not of its form",
    "value out of range, a missing zone, more digits than named, or a double with an exponent, "
    "INF or NaN",
};
enum { REFUSALS = sizeof WORDS / sizeof *WORDS };

/* The refusals' numbers, and the answer convention at its edges. */
static void check_answers(void)
{
    CHECK(KDR_MORE_BYTES == 1 && KDR_UNKNOWN_INSTRUCTION == 2 && KDR_OTHER_SIDE == 3);
    CHECK(KDR_BODY_TOO_LONG == 4 && KDR_FIELD_CUT == 5 && KDR_STRING_FORMAT == 6);
    CHECK(KDR_BYTES_LEFT_OVER == 7 && KDR_VALUE_NOT_ALLOWED == 8 && KDR_OUT_OF_ORDER == 9);
    CHECK(KDR_NO_ROOM == 10 && KDR_NO_ENCODING == 11 && KDR_BUFFER_OVERRUN == 12);
    CHECK(KDR_BAD_ESCAPE == 13 && KDR_NO_SUCH_PART == 14);
    CHECK(KDR_NOT_OF_FORM == 15 && KDR_OUT_OF_RANGE == 16 && REFUSALS == 16);
    CHECK(!kdr_refused(0) && !kdr_refused(KDR_REFUSED - 1));
    CHECK(kdr_refusal(0) == 0 && kdr_refusal(KDR_REFUSED - 1) == 0);
    CHECK(kdr_refused(KDR_REFUSED + KDR_MORE_BYTES));
    CHECK(kdr_refusal(KDR_REFUSED + KDR_MORE_BYTES) == 1);
    CHECK(kdr_refusal(KDR_REFUSED + KDR_OUT_OF_RANGE) == 16);
}

/* The documents' words, and the version as numbers and as a text. */
static void check_words(void)
{
    char version[16];
    for (unsigned number = 1; number <= REFUSALS; number++) {
        CHECK(strcmp(kdr_refusal_text(number), WORDS[number - 1]) == 0);
    }
    CHECK(strcmp(kdr_refusal_text(0), "there is no such refusal") == 0);
    CHECK(strcmp(kdr_refusal_text(REFUSALS + 1), "there is no such refusal") == 0);
    CHECK(strcmp(kdr_refusal_text(UINT_MAX), "there is no such refusal") == 0);
    snprintf(version, sizeof version, "%d.%d.%d", KDR_VERSION_MAJOR, KDR_VERSION_MINOR,
             KDR_VERSION_PATCH);
    CHECK(strcmp(version, KDR_VERSION) == 0);
}

/* With an argument, only prints which functions are lent how many slices here. */
int main(int argc, char **argv)
{
    (void)argv;
    if (argc > 1) {
        print_lending();
        return 0;
    }
    check_answers();
    check_words();
    check_examples();
    check_messages();
    check_sessions();
    check_sheet();
    check_cutting();
    check_joining();
    check_values();
    check_basex_strings();
    check_basex_requests();
    check_basex_responses();
    check_lending();
    printf("%lu checks passed\n", checks);
    return 0;
}
