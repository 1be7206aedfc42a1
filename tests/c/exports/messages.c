/* Reading and writing messages: kdr_read, kdr_option and the eight writers. */
#include "check.h"
#include <stdlib.h>

const struct instruction TABLE[INSTRUCTIONS] = {
    {KDR_StartUp, 110, KDR_CLIENT, KDR_SHAPE_EMPTY},
    {KDR_Begin, 210, KDR_CLIENT, KDR_SHAPE_EMPTY},
    {KDR_Commit, 220, KDR_CLIENT, KDR_SHAPE_EMPTY},
    {KDR_Rollback, 225, KDR_CLIENT, KDR_SHAPE_EMPTY},
    {KDR_LongQueryEnd, 302, KDR_CLIENT, KDR_SHAPE_EMPTY},
    {KDR_GetNextItem, 310, KDR_CLIENT, KDR_SHAPE_EMPTY},
    {KDR_BulkLoadEnd, 420, KDR_CLIENT, KDR_SHAPE_EMPTY},
    {KDR_ShowTime, 451, KDR_CLIENT, KDR_SHAPE_EMPTY},
    {KDR_Close, 500, KDR_CLIENT, KDR_SHAPE_EMPTY},
    {KDR_ResetOptions, 550, KDR_CLIENT, KDR_SHAPE_EMPTY},
    {KDR_SessionParameters, 120, KDR_CLIENT, KDR_SHAPE_SESSION},
    {KDR_AuthenticationParameters, 130, KDR_CLIENT, KDR_SHAPE_TEXT},
    {KDR_BulkLoadPortion, 410, KDR_CLIENT, KDR_SHAPE_TEXT},
    {KDR_Execute, 300, KDR_CLIENT, KDR_SHAPE_STATEMENT},
    {KDR_ExecuteLong, 301, KDR_CLIENT, KDR_SHAPE_STATEMENT},
    {KDR_BulkLoadError, 400, KDR_CLIENT, KDR_SHAPE_CODED},
    {KDR_SetOptions, 530, KDR_CLIENT, KDR_SHAPE_OPTIONS},
    {KDR_SendSessionParameters, 140, KDR_SERVER, KDR_SHAPE_EMPTY},
    {KDR_SendAuthParameters, 150, KDR_SERVER, KDR_SHAPE_EMPTY},
    {KDR_AuthenticationOk, 160, KDR_SERVER, KDR_SHAPE_EMPTY},
    {KDR_BeginOk, 230, KDR_SERVER, KDR_SHAPE_EMPTY},
    {KDR_CommitOk, 250, KDR_SERVER, KDR_SHAPE_EMPTY},
    {KDR_RollbackOk, 255, KDR_SERVER, KDR_SHAPE_EMPTY},
    {KDR_QuerySucceeded, 320, KDR_SERVER, KDR_SHAPE_EMPTY},
    {KDR_UpdateSucceeded, 340, KDR_SERVER, KDR_SHAPE_EMPTY},
    {KDR_ItemEnd, 370, KDR_SERVER, KDR_SHAPE_EMPTY},
    {KDR_ResultEnd, 375, KDR_SERVER, KDR_SHAPE_EMPTY},
    {KDR_BulkLoadFromStream, 431, KDR_SERVER, KDR_SHAPE_EMPTY},
    {KDR_BulkLoadSucceeded, 440, KDR_SERVER, KDR_SHAPE_EMPTY},
    {KDR_CloseOk, 510, KDR_SERVER, KDR_SHAPE_EMPTY},
    {KDR_RollbackBeforeClose, 520, KDR_SERVER, KDR_SHAPE_EMPTY},
    {KDR_SetOptionsOk, 540, KDR_SERVER, KDR_SHAPE_EMPTY},
    {KDR_ResetOptionsOk, 560, KDR_SERVER, KDR_SHAPE_EMPTY},
    {KDR_ErrorResponse, 100, KDR_SERVER, KDR_SHAPE_CODED},
    {KDR_AuthenticationFailed, 170, KDR_SERVER, KDR_SHAPE_CODED},
    {KDR_BeginFailed, 240, KDR_SERVER, KDR_SHAPE_CODED},
    {KDR_CommitFailed, 260, KDR_SERVER, KDR_SHAPE_CODED},
    {KDR_RollbackFailed, 265, KDR_SERVER, KDR_SHAPE_CODED},
    {KDR_DebugInfo, 325, KDR_SERVER, KDR_SHAPE_CODED},
    {KDR_QueryFailed, 330, KDR_SERVER, KDR_SHAPE_CODED},
    {KDR_UpdateFailed, 350, KDR_SERVER, KDR_SHAPE_CODED},
    {KDR_BulkLoadFailed, 450, KDR_SERVER, KDR_SHAPE_CODED},
    {KDR_ItemPart, 360, KDR_SERVER, KDR_SHAPE_TEXT},
    {KDR_BulkLoadFileName, 430, KDR_SERVER, KDR_SHAPE_TEXT},
    {KDR_LastQueryTime, 452, KDR_SERVER, KDR_SHAPE_TEXT},
    {KDR_ItemStart, 355, KDR_SERVER, KDR_SHAPE_ITEM},
};

uint64_t written(uint32_t instruction, unsigned shape)
{
    uint8_t *out = lent.out;
    switch (shape) {
    case KDR_SHAPE_EMPTY:
        return kdr_write_empty(out, room, instruction);
    case KDR_SHAPE_SESSION:
        return kdr_write_session(out, room, instruction, 4, 0, NO_TEXT, NO_TEXT);
    case KDR_SHAPE_TEXT:
        return kdr_write_text(out, room, instruction, NO_TEXT);
    case KDR_SHAPE_STATEMENT:
        return kdr_write_statement(out, room, instruction, 0, NO_TEXT);
    case KDR_SHAPE_CODED:
        return kdr_write_coded(out, room, instruction, 0, NO_TEXT);
    case KDR_SHAPE_OPTIONS:
        return kdr_write_options(out, room, instruction, NULL, 0, NULL, 0, NO_TEXT);
    default:
        return kdr_write_item(out, room, instruction, 1, 0, NO_TEXT);
    }
}

/* A row's message is written by the writer of its shape alone, and read from its side alone. */
static void check_row(const struct instruction *r)
{
    uint8_t other = r->side == KDR_CLIENT ? KDR_SERVER : KDR_CLIENT;
    uint64_t n;
    CHECK(r->name == r->number);
    for (unsigned shape = KDR_SHAPE_EMPTY; shape <= KDR_SHAPE_ITEM; shape++) {
        if (shape != r->shape) {
            REFUSED(KDR_VALUE_NOT_ALLOWED, written(r->number, shape));
        }
    }
    lend();
    n = written(r->number, r->shape);
    CHECK(!kdr_refused(n));
    CHECK(kdr_read(other, lent.out, n, lent.numbers, KDR_FIELDS) == KDR_REFUSED + KDR_OTHER_SIDE);
    CHECK(left_alone(lent.numbers, sizeof lent.numbers));
    CHECK(kdr_read(r->side, lent.out, n, lent.numbers, KDR_FIELDS) == n);
    CHECK(lent.numbers[KDR_INSTRUCTION] == r->number);
    CHECK(lent.numbers[KDR_SHAPE] == r->shape);
}

/* There are 46 instructions, and all other numbers up to 600 are none. */
static void check_table(void)
{
    unsigned known = 0;
    for (size_t i = 0; i < INSTRUCTIONS; i++) {
        check_row(&TABLE[i]);
    }
    for (uint32_t number = 0; number <= 600; number++) {
        known += kdr_refusal(kdr_write_empty(lent.out, 0, number)) != KDR_UNKNOWN_INSTRUCTION;
    }
    CHECK(INSTRUCTIONS == 46 && known == 46);
}

/* The message, with other bytes behind it, has these ten numbers; 1 where its last byte is missing,
 * and 10 where too few numbers are lent. */
#define READS(side, hex, ...)                                                               \
    do {                                                                                    \
        uint8_t input[64] = {0};                                                            \
        size_t size = from_hex(input, hex);                                                 \
        lend();                                                                             \
        CHECK(kdr_read(side, input, sizeof input, lent.numbers, KDR_FIELDS) == size);       \
        TOLD(__VA_ARGS__);                                                                  \
        REFUSED(KDR_MORE_BYTES, kdr_read(side, input, size - 1, lent.numbers, KDR_FIELDS)); \
        REFUSED(KDR_NO_ROOM, kdr_read(side, input, size, lent.numbers, KDR_FIELDS - 1));    \
        REFUSED(KDR_NO_ROOM, kdr_read(side, input, size, NULL, 0));                         \
    } while (0)

/* Each shape: the bytes that are written, and where its fields stand when they are read. */
static void check_shapes(void)
{
    const char *message = "00000172 00000000";
    WRITES(message, kdr_write_empty(lent.out, room, KDR_ItemEnd));
    READS(KDR_SERVER, message, 370, KDR_SHAPE_EMPTY, 0, 0, 0, 0, 0, 0, 0, 0);
    message = "00000078 00000015 04 00 00 00000004 67616C65 00 00000005 62616E6473";
    WRITES(message, kdr_write_session(lent.out, room, KDR_SessionParameters, 4, 0, TEXT("gale"),
                                      TEXT("bands")));
    READS(KDR_CLIENT, message, 120, KDR_SHAPE_SESSION, 4, 0, 15, 4, 24, 5, 0, 0);
    message = "00000168 00000007 00 00000002 3C3E";
    WRITES(message, kdr_write_text(lent.out, room, KDR_ItemPart, TEXT("<>")));
    READS(KDR_SERVER, message, 360, KDR_SHAPE_TEXT, 0, 0, 13, 2, 0, 0, 0, 0);
    message = "0000012D 00000007 01 00 00000001 31";
    WRITES(message, kdr_write_statement(lent.out, room, KDR_ExecuteLong, 1, TEXT("1")));
    READS(KDR_CLIENT, message, 301, KDR_SHAPE_STATEMENT, [KDR_FORMAT] = 1, 0, 14, 1, 0, 0, 0, 0);
    message = "00000064 0000000A FFFFFFFE 00 00000001 78";
    WRITES(message, kdr_write_coded(lent.out, room, KDR_ErrorResponse, 0xFFFFFFFE, TEXT("x")));
    READS(KDR_SERVER, message, 100, KDR_SHAPE_CODED, [KDR_CODE] = 0xFFFFFFFE, 0, 17, 1, 0, 0, 0, 0);
    message = "00000163 00000009 08 3D 00 00 00000001 78";
    WRITES(message, kdr_write_item(lent.out, room, KDR_ItemStart, 8, 61, TEXT("x")));
    READS(KDR_SERVER, message, 355, KDR_SHAPE_ITEM, 8, 61, 16, 1, 0, 0, 0, 0);
    message = "00000163 00000010 01 00 01 00 00000002 7576 00 00000001 78";
    WRITES(message, kdr_write_item_url(lent.out, room, KDR_ItemStart, 1, 0, TEXT("uv"), TEXT("x")));
    READS(KDR_SERVER, message, 355, KDR_SHAPE_ITEM, 1, 0, 23, 1, 16, 2, 0, 1);
}

/* The names by what they are point at the numbers that hold them. */
static void check_names(void)
{
    uint8_t bytes[64];
    size_t n = from_hex(bytes, "00000163 00000010 03 0E 01 00 00000002 7576 00 00000001 78");
    CHECK(kdr_read(KDR_SERVER, bytes, n, lent.numbers, KDR_FIELDS) == n);
    CHECK(lent.numbers[KDR_CLASS] == 3 && lent.numbers[KDR_TYPE] == 14);
    CHECK(lent.numbers[KDR_HAS_URL] == 1 && lent.numbers[KDR_URL_LENGTH] == 2);
    CHECK(memcmp(bytes + lent.numbers[KDR_URL_START], "uv", 2) == 0);
    CHECK(bytes[lent.numbers[KDR_START_1]] == 'x' && lent.numbers[KDR_LENGTH_1] == 1);
    n = from_hex(bytes, "00000078 0000000E 03 00 00 00000001 75 00 00000001 64");
    CHECK(kdr_read(KDR_CLIENT, bytes, n, lent.numbers, KDR_FIELDS) == n);
    CHECK(lent.numbers[KDR_MAJOR] == 3 && lent.numbers[KDR_MINOR] == 0);
    CHECK(bytes[lent.numbers[KDR_START_2]] == 'd' && lent.numbers[KDR_LENGTH_2] == 1);
}

/* A side that is none is 8 ahead of all; a refusal of the bytes is ahead of 10. */
static void check_read_refusals(void)
{
    uint8_t bytes[16];
    size_t n = from_hex(bytes, "0000006E 00000000");
    for (unsigned side = 0; side <= 255; side++) {
        if (side != KDR_CLIENT && side != KDR_SERVER) {
            REFUSED(KDR_VALUE_NOT_ALLOWED, kdr_read((uint8_t)side, bytes, n, lent.numbers, told));
        }
    }
    REFUSED(KDR_VALUE_NOT_ALLOWED, kdr_read(3, NULL, 0, NULL, 0));
    REFUSED(KDR_MORE_BYTES, kdr_read(KDR_CLIENT, NULL, 0, NULL, 0));
    bytes[3] = 0x65;
    REFUSED(KDR_UNKNOWN_INSTRUCTION, kdr_read(KDR_CLIENT, bytes, n, NULL, 0));
}

/* The longest text of each shape, with which a body has 10,240 bytes, and 11 for one byte more. */
static void check_longest(void)
{
    static uint8_t text[KDR_BODY_MAX];
    uint8_t *out = lent.out;
    const uint64_t full = KDR_MESSAGE_MAX;
    CHECK(kdr_write_session(out, room, 120, 1, 0, text, 5000, text, 5228) == full);
    REFUSED(KDR_NO_ENCODING, kdr_write_session(out, room, 120, 1, 0, text, 5000, text, 5229));
    CHECK(kdr_write_text(out, room, 410, text, 10235) == full);
    REFUSED(KDR_NO_ENCODING, kdr_write_text(out, room, 410, text, 10236));
    CHECK(kdr_write_statement(out, room, 300, 0, text, 10234) == full);
    REFUSED(KDR_NO_ENCODING, kdr_write_statement(out, room, 300, 0, text, 10235));
    CHECK(kdr_write_coded(out, room, 400, 0, text, 10231) == full);
    REFUSED(KDR_NO_ENCODING, kdr_write_coded(out, room, 400, 0, text, 10232));
    CHECK(kdr_write_item(out, room, 355, 1, 0, text, 10232) == full);
    REFUSED(KDR_NO_ENCODING, kdr_write_item(out, room, 355, 1, 0, text, 10233));
    CHECK(kdr_write_item_url(out, room, 355, 1, 0, text, 27, text, 10200) == full);
    REFUSED(KDR_NO_ENCODING, kdr_write_item_url(out, room, 355, 1, 0, text, 28, text, 10200));
}

/* A caller that hands -1 on as a length gets 11 and nothing is written, whatever the room: 11 is
 * ahead of 10, and a length is held against 10,240 before anything is added to it. Options are 8
 * where their lengths do not add up to it, and 11 where they do. Of the text not even the one byte
 * that is there is read. */
static void check_no_length(void)
{
    const uint32_t ids[] = {7};
    const size_t one[] = {1}, none[] = {SIZE_MAX};
    uint8_t *text = malloc(1), *out = lent.out;
    for (size_t n = 0; n <= room; n += room) {
        REFUSED(KDR_NO_ENCODING, kdr_write_text(out, n, 360, text, SIZE_MAX));
        REFUSED(KDR_NO_ENCODING, kdr_write_statement(out, n, 300, 0, text, SIZE_MAX));
        REFUSED(KDR_NO_ENCODING, kdr_write_coded(out, n, 100, 1, text, SIZE_MAX));
        REFUSED(KDR_NO_ENCODING, kdr_write_item(out, n, 355, 1, 0, text, SIZE_MAX));
        REFUSED(KDR_NO_ENCODING, kdr_write_item_url(out, n, 355, 1, 0, text, SIZE_MAX, text, 1));
        REFUSED(KDR_NO_ENCODING, kdr_write_item_url(out, n, 355, 1, 0, text, 1, text, SIZE_MAX));
        REFUSED(KDR_NO_ENCODING, kdr_write_session(out, n, 120, 4, 0, text, SIZE_MAX, text, 1));
        REFUSED(KDR_NO_ENCODING, kdr_write_session(out, n, 120, 4, 0, text, 1, text, SIZE_MAX));
        REFUSED(KDR_VALUE_NOT_ALLOWED,
                kdr_write_options(out, n, 530, ids, 1, one, 1, text, SIZE_MAX));
        REFUSED(KDR_NO_ENCODING, kdr_write_options(out, n, 530, ids, 1, none, 1, text, SIZE_MAX));
    }
    free(text);
}

/* 2 ahead of 8, 8 ahead of 11, 11 ahead of 10, for each writer that check_row does not cover so. */
static void check_write_refusals(void)
{
    static uint8_t text[KDR_BODY_MAX];
    uint8_t *out = lent.out;
    REFUSED(KDR_UNKNOWN_INSTRUCTION, kdr_write_empty(out, 0, 101));
    REFUSED(KDR_UNKNOWN_INSTRUCTION, kdr_write_session(out, 0, 101, 5, 0, NO_TEXT, NO_TEXT));
    REFUSED(KDR_UNKNOWN_INSTRUCTION, kdr_write_text(out, 0, 101, NO_TEXT));
    REFUSED(KDR_UNKNOWN_INSTRUCTION, kdr_write_statement(out, 0, 101, 2, NO_TEXT));
    REFUSED(KDR_UNKNOWN_INSTRUCTION, kdr_write_coded(out, 0, 101, 0, NO_TEXT));
    REFUSED(KDR_UNKNOWN_INSTRUCTION, kdr_write_item(out, 0, 101, 9, 0, NO_TEXT));
    REFUSED(KDR_UNKNOWN_INSTRUCTION, kdr_write_item_url(out, 0, 101, 9, 0, NO_TEXT, NO_TEXT));
    REFUSED(KDR_VALUE_NOT_ALLOWED, kdr_write_session(out, 0, 120, 5, 0, text, 10240, NO_TEXT));
    REFUSED(KDR_VALUE_NOT_ALLOWED, kdr_write_session(out, 0, 120, 4, 1, text, 10240, NO_TEXT));
    REFUSED(KDR_VALUE_NOT_ALLOWED, kdr_write_statement(out, 0, 300, 2, text, 10240));
    REFUSED(KDR_VALUE_NOT_ALLOWED, kdr_write_item(out, 0, 355, 0, 0, text, 10240));
    REFUSED(KDR_VALUE_NOT_ALLOWED, kdr_write_item(out, 0, 355, 9, 0, text, 10240));
    REFUSED(KDR_VALUE_NOT_ALLOWED, kdr_write_item(out, 0, 355, 1, 7, text, 10240));
    REFUSED(KDR_VALUE_NOT_ALLOWED, kdr_write_item_url(out, 0, 355, 1, 33, NO_TEXT, text, 10240));
    REFUSED(KDR_VALUE_NOT_ALLOWED, kdr_write_item_url(out, 0, 360, 1, 0, NO_TEXT, NO_TEXT));
    REFUSED(KDR_NO_ENCODING, kdr_write_text(out, 0, 410, text, 10236));
}

/* Two options, one of them empty: written, read, and handed out one by one. */
static void check_options(void)
{
    const uint32_t ids[] = {7, 0xFFFFFFFF};
    const size_t lengths[] = {2, 0};
    const char *message = "00000212 00000014 00000007 00 00000002 6162 FFFFFFFF 00 00000000";
    static uint8_t values[KDR_BODY_MAX];
    const size_t full[] = {10231}, too_long[] = {10232};
    uint8_t bytes[64], *out = lent.out;
    size_t n = from_hex(bytes, message);
    CHECK(kdr_write_options(out, room, 530, ids, 1, full, 1, values, 10231) == KDR_MESSAGE_MAX);
    REFUSED(KDR_NO_ENCODING, kdr_write_options(out, 0, 530, ids, 1, too_long, 1, values, 10232));
    WRITES(message, kdr_write_options(out, room, 530, ids, 2, lengths, 2, TEXT("ab")));
    READS(KDR_CLIENT, message, 530, KDR_SHAPE_OPTIONS, [KDR_START_1] = 8, [KDR_LENGTH_1] = 20,
          [KDR_COUNT] = 2, [KDR_HAS_URL] = 0);
    REFUSED(KDR_UNKNOWN_INSTRUCTION, kdr_write_options(out, room, 101, ids, 1, NULL, 0, NO_TEXT));
    REFUSED(KDR_VALUE_NOT_ALLOWED,
            kdr_write_options(out, room, 530, ids, 1, lengths, 2, TEXT("ab")));
    REFUSED(KDR_VALUE_NOT_ALLOWED,
            kdr_write_options(out, room, 530, ids, 2, lengths, 2, TEXT("abc")));
    lend();
    CHECK(kdr_option(bytes, n, 8, 20, 0, lent.numbers, KDR_OPTION_FIELDS) == 1);
    TOLD([KDR_OPTION_ID] = 7, [KDR_OPTION_START] = 17, [KDR_OPTION_LENGTH] = 2);
    CHECK(memcmp(bytes + lent.numbers[KDR_OPTION_START], "ab", 2) == 0);
    lend();
    CHECK(kdr_option(bytes, n, 8, 20, 1, lent.numbers, KDR_OPTION_FIELDS) == 1);
    TOLD(0xFFFFFFFF, 28, 0);
    lend();
    CHECK(kdr_option(bytes, n, 8, 20, 2, lent.numbers, KDR_OPTION_FIELDS) == 0);
    REFUSED(KDR_NO_ROOM, kdr_option(bytes, n, 8, 20, 0, lent.numbers, KDR_OPTION_FIELDS - 1));
    CHECK(kdr_option(bytes, n, 9, 19, 0, lent.numbers, KDR_OPTION_FIELDS) == 0);
    CHECK(kdr_option(bytes, n, SIZE_MAX, SIZE_MAX, 0, lent.numbers, KDR_OPTION_FIELDS) == 0);
    CHECK(kdr_option(NULL, 0, 0, 0, SIZE_MAX, NULL, 0) == 0);
    CHECK(ALL_LEFT_ALONE);
}

void check_messages(void)
{
    check_table();
    check_shapes();
    check_names();
    check_read_refusals();
    check_longest();
    check_no_length();
    check_write_refusals();
    check_options();
}
