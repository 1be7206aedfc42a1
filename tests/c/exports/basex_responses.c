/* BaseX responses, their errors, and their items one by one. */
#include "check.h"

/* The response, with other bytes behind it, has those texts and is told so; 1 where its last byte
 * is missing, whatever the room. */
#define RESPONDS(kind, hex, text, ...)                                                \
    do {                                                                              \
        uint8_t bytes[64] = {0};                                                      \
        size_t n = from_hex(bytes, hex);                                              \
        BASEX_READS(n, text,                                                          \
                    kdr_basex_read_response(kind, bytes, n + 1, lent.out, room,       \
                                            lent.numbers, told),                      \
                    __VA_ARGS__);                                                     \
        REFUSED(KDR_MORE_BYTES,                                                       \
                kdr_basex_read_response(kind, bytes, n - 1, NULL, 0, lent.numbers,    \
                                        KDR_BASEX_RESPONSE_FIELDS));                  \
    } while (0)

/* The response is refused so, whatever the room and however few numbers are lent. */
#define RESPONSE_REFUSED(number, kind, hex)                                                \
    do {                                                                                   \
        uint8_t bytes[64];                                                                 \
        size_t n = from_hex(bytes, hex);                                                   \
        REFUSED(number, kdr_basex_read_response(kind, bytes, n, NULL, 0, lent.numbers,     \
                                                KDR_BASEX_RESPONSE_FIELDS));               \
        REFUSED(number, kdr_basex_read_response(kind, bytes, n, lent.out, room, NULL, 0)); \
    } while (0)

/* One response of each make: two strings, one string, a string and an error, items. */
static void check_reading_responses(void)
{
    RESPONDS(KDR_BASEX_COMMAND, "47656E65 00 78 00 00", "Genex", [KDR_BASEX_RESPONSE_LENGTH_1] = 4,
             [KDR_BASEX_RESPONSE_LENGTH_2] = 1, [KDR_BASEX_RESPONSE_ERROR] = 0);
    RESPONDS('I', "47656E65 00 6E6F 00 01", "Geneno", 4, 2, 0, 0, 1, 0);
    RESPONDS(KDR_BASEX_CREATE, "6E6F 00 01", "no", 2, 0, 0, 0, 1, 0);
    RESPONDS(KDR_BASEX_QUERY, "31 00 00", "1", 1, 0, 0, 0, 0, 0);
    RESPONDS(KDR_BASEX_CLOSE, "00 01 6E6F 00", "no", 0, 0, 0, 0, 1, 2);
    RESPONDS(KDR_BASEX_RESULTS, "34 31 00 0C FFFF 00 00 00", "1\xFF", 0, 0, 2, 2, 0, 0);
    RESPONDS(KDR_BASEX_FULL, "0C 75 00 74 00 0B 3C3E 00 00 01 65 00", "ut<>e",
             [KDR_BASEX_RESPONSE_ITEMS] = 2, [KDR_BASEX_RESPONSE_LISTED] = 4,
             [KDR_BASEX_RESPONSE_STATUS] = 1, [KDR_BASEX_RESPONSE_ERROR] = 1);
    RESPONSE_REFUSED(KDR_MORE_BYTES, 0x01, "");
    RESPONSE_REFUSED(KDR_UNKNOWN_INSTRUCTION, 0x01, "FF41");
    RESPONSE_REFUSED(KDR_UNKNOWN_INSTRUCTION, 0xFF, "00");
    RESPONSE_REFUSED(KDR_VALUE_NOT_ALLOWED, KDR_BASEX_RESULTS, "54");
    RESPONSE_REFUSED(KDR_VALUE_NOT_ALLOWED, KDR_BASEX_QUERY, "00 02");
    RESPONSE_REFUSED(KDR_BAD_ESCAPE, KDR_BASEX_QUERY, "FF41");
}

/* Where the error of a response stands in its texts, which were read in an output as long as the
 * bytes: told with just two numbers lent, 10 with one; where the status is 0, nothing is told. */
static void check_error_of(uint8_t kind, const char *hex, const char *error)
{
    uint64_t response[KDR_BASEX_RESPONSE_FIELDS], *place = lent.numbers;
    uint8_t bytes[64], out[64];
    size_t n = from_hex(bytes, hex);
    CHECK(kdr_basex_read_response(kind, bytes, n, out, n, response, 6) == n);
    lend();
    if (error == NULL) {
        CHECK(kdr_basex_error(kind, response, 6, place, KDR_BASEX_ERROR_FIELDS) == 0);
        CHECK(kdr_basex_error(kind, response, 6, NULL, 0) == 0);
        CHECK(ALL_LEFT_ALONE);
    } else {
        CHECK(kdr_basex_error(kind, response, 6, place, KDR_BASEX_ERROR_FIELDS) == 1);
        CHECK(left_alone(place + 2, sizeof lent.numbers - 2 * sizeof *place));
        CHECK(place[KDR_BASEX_ERROR_LENGTH] == strlen(error));
        CHECK(memcmp(out + place[KDR_BASEX_ERROR_START], error, strlen(error)) == 0);
        REFUSED(KDR_NO_ROOM, kdr_basex_error(kind, response, 6, place, 1));
    }
    REFUSED(KDR_NO_ROOM, kdr_basex_error(kind, response, 5, place, 2));
}

/* Each kind, with both statuses: the same texts ahead of the status, and the error where the kind
 * has it. */
static void check_errors(void)
{
    const uint8_t one_text[] = {KDR_BASEX_CREATE, KDR_BASEX_ADD, KDR_BASEX_PUT,
                                KDR_BASEX_PUTBINARY};
    const uint8_t queries[] = {KDR_BASEX_QUERY,   KDR_BASEX_CLOSE,   KDR_BASEX_BIND,
                               KDR_BASEX_EXECUTE, KDR_BASEX_INFO,    KDR_BASEX_OPTIONS,
                               KDR_BASEX_CONTEXT, KDR_BASEX_UPDATING};
    for (unsigned kind = KDR_BASEX_COMMAND; kind <= 0xFE; kind++) {
        check_error_of((uint8_t)kind, "FF0061 00 6E6F 00 00", NULL);
        check_error_of((uint8_t)kind, "FF0061 00 6E6F 00 01", "no");
    }
    for (size_t i = 0; i < sizeof one_text; i++) {
        check_error_of(one_text[i], "6E6F 00 00", NULL);
        check_error_of(one_text[i], "6E6F 00 01", "no");
    }
    for (size_t i = 0; i < sizeof queries; i++) {
        check_error_of(queries[i], "616263 00 00", NULL);
        check_error_of(queries[i], "616263 00 01 6E6F 00", "no");
    }
    check_error_of(KDR_BASEX_RESULTS, "34 31 00 0C 3C3E 00 00 00", NULL);
    check_error_of(KDR_BASEX_RESULTS, "34 31 00 0C 3C3E 00 00 01 6E6F 00", "no");
    check_error_of(KDR_BASEX_RESULTS, "00 01 6E6F 00", "no"); /* what is left behind the items */
    check_error_of(KDR_BASEX_FULL, "0C 75 00 74 00 00 00", NULL);
    check_error_of(KDR_BASEX_FULL, "0C 75 00 74 00 00 01 6E6F 00", "no");
    check_error_of(KDR_BASEX_FULL, "00 01 00", ""); /* an error may be empty */
}

/* Each refusal, and which is ahead of which: 10 for the response's numbers, 2, 8, 10. */
static void check_error_refusals(void)
{
    uint64_t response[] = {4, 2, 0, 0, 2, 0}, *place = lent.numbers;
    unsigned known = 0;
    REFUSED(KDR_NO_ROOM, kdr_basex_error(0x01, response, 5, place, 2));
    REFUSED(KDR_NO_ROOM, kdr_basex_error(0x01, NULL, 0, NULL, 0));
    REFUSED(KDR_UNKNOWN_INSTRUCTION, kdr_basex_error(0x01, response, 6, place, 1));
    REFUSED(KDR_VALUE_NOT_ALLOWED, kdr_basex_error(KDR_BASEX_COMMAND, response, 6, place, 1));
    response[KDR_BASEX_RESPONSE_STATUS] = UINT64_MAX;
    REFUSED(KDR_VALUE_NOT_ALLOWED, kdr_basex_error(KDR_BASEX_QUERY, response, 6, place, 2));
    response[KDR_BASEX_RESPONSE_STATUS] = 1;
    REFUSED(KDR_NO_ROOM, kdr_basex_error(KDR_BASEX_COMMAND, response, 6, place, 1));
    REFUSED(KDR_NO_ROOM, kdr_basex_error(KDR_BASEX_COMMAND, response, 6, NULL, 0));
    for (unsigned kind = 0; kind <= 0xFF; kind++) {
        uint64_t answer = kdr_basex_error((uint8_t)kind, response, 6, place, 2);
        known += answer == 1;
        CHECK(answer == 1 || answer == KDR_REFUSED + KDR_UNKNOWN_INSTRUCTION);
    }
    CHECK(known == 14 + (0xFE - 0x20 + 1));
    /* numbers that no response has get an answer too */
    response[KDR_BASEX_RESPONSE_LENGTH_1] = response[KDR_BASEX_RESPONSE_LENGTH_2] = UINT64_MAX;
    lend();
    CHECK(kdr_basex_error(KDR_BASEX_COMMAND, response, 6, place, 2) == 1);
    TOLD([KDR_BASEX_ERROR_START] = UINT64_MAX, [KDR_BASEX_ERROR_LENGTH] = UINT64_MAX);
}

/* The items of a response, one by one, as FULL and as RESULTS understand the same bytes. */
static void check_items(void)
{
    const uint8_t full = KDR_BASEX_FULL, results = KDR_BASEX_RESULTS;
    uint8_t bytes[16], bad[] = {7, 0xFF, 0x41}, empty_uri[] = {12, 0, 't', 0};
    const size_t n = from_hex(bytes, "0C 7576 00 74 00 0B 3C612F3E 00 00");
    uint64_t *t = lent.numbers;
    lend();
    CHECK(kdr_basex_item(full, bytes, n, 0, t, KDR_BASEX_ITEM_FIELDS) == 6);
    TOLD([KDR_BASEX_ITEM_ID] = 12, [KDR_BASEX_ITEM_URI] = 2, [KDR_BASEX_ITEM_TEXT] = 1);
    CHECK(kdr_basex_item(full, bytes, n, 6, t, KDR_BASEX_ITEM_FIELDS) == 6);
    TOLD(11, 0, 4);
    CHECK(kdr_basex_item(full, empty_uri, 4, 0, t, KDR_BASEX_ITEM_FIELDS) == 4);
    TOLD(12, 0, 1);
    lend();
    CHECK(kdr_basex_item(full, bytes, n, 12, t, KDR_BASEX_ITEM_FIELDS) == 0);
    CHECK(kdr_basex_item(full, bytes, n, 12, NULL, 0) == 0);
    CHECK(ALL_LEFT_ALONE);
    CHECK(kdr_basex_item(results, bytes, n, 0, t, KDR_BASEX_ITEM_FIELDS) == 4);
    TOLD(12, 0, 2);
    REFUSED(KDR_NO_ROOM, kdr_basex_item(full, bytes, n, 0, t, KDR_BASEX_ITEM_FIELDS - 1));
    REFUSED(KDR_MORE_BYTES, kdr_basex_item(full, bytes, 5, 0, t, 3));
    REFUSED(KDR_MORE_BYTES, kdr_basex_item(full, bytes, n, SIZE_MAX, NULL, 0));
    REFUSED(KDR_VALUE_NOT_ALLOWED, kdr_basex_item(full, bytes, n, 1, t, 2));
    REFUSED(KDR_BAD_ESCAPE, kdr_basex_item(results, bad, 3, 0, t, 2)); /* its end is missing too */
    REFUSED(KDR_UNKNOWN_INSTRUCTION, kdr_basex_item(0x01, bytes, n, n - 1, t, 2));
    REFUSED(KDR_VALUE_NOT_ALLOWED, kdr_basex_item(KDR_BASEX_QUERY, bytes, n, n - 1, t, 2));
    REFUSED(KDR_MORE_BYTES, kdr_basex_item(0x01, bytes, n, n, t, 2));
    REFUSED(KDR_MORE_BYTES, kdr_basex_item(KDR_BASEX_QUERY, NULL, 0, 0, t, 3));
}

static void check_writing_items(void)
{
    uint8_t *out = lent.out;
    WRITES("34 3100",
           kdr_basex_write_item(out, room, 0, KDR_BASEX_RESULTS, 52, NO_TEXT, TEXT("1")));
    WRITES_AT(5, "0C 7500 FF0000",
              kdr_basex_write_item(out, room, 5, KDR_BASEX_FULL, 12, TEXT("u"), TEXT("\0")));
    REFUSED(KDR_UNKNOWN_INSTRUCTION, kdr_basex_write_item(out, 0, 0, 1, 6, TEXT("u"), NO_TEXT));
    REFUSED(KDR_VALUE_NOT_ALLOWED, kdr_basex_write_item(out, 0, 0, 5, 52, NO_TEXT, NO_TEXT));
    REFUSED(KDR_VALUE_NOT_ALLOWED, kdr_basex_write_item(out, 0, 0, 4, 16, NO_TEXT, NO_TEXT));
    REFUSED(KDR_VALUE_NOT_ALLOWED, kdr_basex_write_item(out, 0, 0, 4, 12, TEXT("u"), NO_TEXT));
    REFUSED(KDR_VALUE_NOT_ALLOWED, kdr_basex_write_item(out, 0, 0, 31, 13, TEXT("u"), NO_TEXT));
    REFUSED(KDR_NO_ROOM, kdr_basex_write_item(out, room, SIZE_MAX, 4, 52, NO_TEXT, NO_TEXT));
}

static void check_writing_ends(void)
{
    uint8_t *out = lent.out;
    WRITES("6100 6200 01", kdr_basex_write_end(out, room, 0, KDR_BASEX_COMMAND, TEXT("a"),
                                               TEXT("b"), 1, NO_TEXT));
    WRITES("6100 01 6500",
           kdr_basex_write_end(out, room, 0, KDR_BASEX_INFO, TEXT("a"), NO_TEXT, 1, TEXT("e")));
    WRITES_AT(4, "00 01 6500",
              kdr_basex_write_end(out, room, 4, KDR_BASEX_FULL, NO_TEXT, NO_TEXT, 1, TEXT("e")));
    REFUSED(KDR_UNKNOWN_INSTRUCTION,
            kdr_basex_write_end(out, 0, 0, 1, NO_TEXT, NO_TEXT, 2, NO_TEXT));
    REFUSED(KDR_VALUE_NOT_ALLOWED,
            kdr_basex_write_end(out, 0, 0, 5, NO_TEXT, NO_TEXT, 2, NO_TEXT));
    REFUSED(KDR_VALUE_NOT_ALLOWED,
            kdr_basex_write_end(out, 0, 0, 5, NO_TEXT, TEXT("b"), 0, NO_TEXT));
    REFUSED(KDR_VALUE_NOT_ALLOWED,
            kdr_basex_write_end(out, 0, 0, 4, TEXT("a"), NO_TEXT, 0, NO_TEXT));
    REFUSED(KDR_VALUE_NOT_ALLOWED,
            kdr_basex_write_end(out, 0, 0, 5, NO_TEXT, NO_TEXT, 0, TEXT("e")));
    REFUSED(KDR_VALUE_NOT_ALLOWED,
            kdr_basex_write_end(out, 0, 0, 8, NO_TEXT, NO_TEXT, 1, TEXT("e")));
    REFUSED(KDR_NO_ROOM,
            kdr_basex_write_end(out, room, SIZE_MAX, 5, NO_TEXT, NO_TEXT, 0, NO_TEXT));
}

void check_basex_responses(void)
{
    check_reading_responses();
    check_errors();
    check_error_refusals();
    check_items();
    check_writing_items();
    check_writing_ends();
}
