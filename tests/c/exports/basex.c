/* BaseX strings and requests. */
#include "check.h"

static void check_writing_strings(void)
{
    uint8_t *out = lent.out;
    CHECK(kdr_basex_string_len(NO_TEXT) == 1);
    CHECK(kdr_basex_string_len(TEXT("a\0\xFFz")) == 7);
    WRITES("00", kdr_basex_write_string(out, room, 0, NO_TEXT));
    WRITES_AT(3, "61 FF00 FFFF 7A 00", kdr_basex_write_string(out, room, 3, TEXT("a\0\xFFz")));
    REFUSED(KDR_NO_ROOM, kdr_basex_write_string(out, 8, 8, NO_TEXT));
    REFUSED(KDR_NO_ROOM, kdr_basex_write_string(out, 8, SIZE_MAX, TEXT("a")));
    REFUSED(KDR_NO_ROOM, kdr_basex_write_string(NULL, 0, 0, NO_TEXT));
}

static void check_reading_strings(void)
{
    uint8_t bytes[16], *out = lent.out;
    uint64_t *t = lent.numbers;
    size_t n = from_hex(bytes, "01 61 FF00 FFFF 00 99");
    lend();
    CHECK(kdr_basex_string_at(bytes, n, 1, t, KDR_BASEX_STRING_FIELDS) == 6);
    TOLD([KDR_BASEX_STRING_LENGTH] = 3);
    CHECK(left_alone(lent.out, sizeof lent.out));
    REFUSED(KDR_NO_ROOM, kdr_basex_string_at(bytes, n, 1, t, KDR_BASEX_STRING_FIELDS - 1));
    REFUSED(KDR_MORE_BYTES, kdr_basex_string_at(bytes, 6, 1, t, 1));
    REFUSED(KDR_MORE_BYTES, kdr_basex_string_at(bytes, n, n, t, 1));
    REFUSED(KDR_MORE_BYTES, kdr_basex_string_at(NULL, 0, SIZE_MAX, NULL, 0));
    lend();
    CHECK(kdr_basex_decode(bytes, n, 1, out, 5, 2, t, 1) == 6);
    TOLD([KDR_BASEX_STRING_LENGTH] = 3);
    CHECK(left_alone(out, 2) && memcmp(out + 2, "a\0\xFF", 3) == 0);
    CHECK(left_alone(out + 5, sizeof lent.out - 5));
    REFUSED(KDR_NO_ROOM, kdr_basex_decode(bytes, n, 1, out, 4, 2, t, 1));
    REFUSED(KDR_NO_ROOM, kdr_basex_decode(bytes, n, 1, out, 5, SIZE_MAX, t, 1));
    REFUSED(KDR_NO_ROOM, kdr_basex_decode(bytes, n, 1, out, 5, 2, t, 0));
    REFUSED(KDR_MORE_BYTES, kdr_basex_decode(bytes, 6, 1, out, 0, 0, t, 1));
    bytes[3] = 0x41; /* the byte behind FF; 13 is ahead of 1, and of 10 for either reason */
    REFUSED(KDR_BAD_ESCAPE, kdr_basex_string_at(bytes, 4, 1, NULL, 0));
    REFUSED(KDR_BAD_ESCAPE, kdr_basex_decode(bytes, 4, 1, out, 0, 0, NULL, 0));
    REFUSED(KDR_BAD_ESCAPE, kdr_basex_decode(bytes, 4, 1, out, room, 0, t, 0));
}

void check_basex_strings(void)
{
    check_writing_strings();
    check_reading_strings();
}

/* The kinds by document 01, and how many strings each has. */
static const struct {
    uint8_t name, number;
    size_t strings;
} KINDS[] = {
    {KDR_BASEX_QUERY, 0x00, 1},    {KDR_BASEX_CLOSE, 0x02, 1},     {KDR_BASEX_BIND, 0x03, 4},
    {KDR_BASEX_RESULTS, 0x04, 1},  {KDR_BASEX_EXECUTE, 0x05, 1},   {KDR_BASEX_INFO, 0x06, 1},
    {KDR_BASEX_OPTIONS, 0x07, 1},  {KDR_BASEX_CREATE, 0x08, 2},    {KDR_BASEX_ADD, 0x09, 2},
    {KDR_BASEX_PUT, 0x0C, 2},      {KDR_BASEX_PUTBINARY, 0x0D, 2}, {KDR_BASEX_CONTEXT, 0x0E, 3},
    {KDR_BASEX_UPDATING, 0x1E, 1}, {KDR_BASEX_FULL, 0x1F, 1},
};

/* Every kind has its number of strings, and no first byte but these and 0x20 to 0xFE is one. */
static void check_kinds(void)
{
    unsigned known = 0;
    for (size_t i = 0; i < sizeof KINDS / sizeof *KINDS; i++) {
        uint8_t request[8] = {KINDS[i].number};
        CHECK(KINDS[i].name == KINDS[i].number);
        CHECK(kdr_basex_read_request(request, 8, lent.out, 0, lent.numbers, 5) ==
              1 + KINDS[i].strings);
        CHECK(lent.numbers[KDR_BASEX_REQUEST_KIND] == KINDS[i].number);
        REFUSED(KDR_NO_ROOM, kdr_basex_read_request(request, 8, lent.out, 0, lent.numbers, 4));
    }
    for (unsigned byte = 0; byte <= 255; byte++) {
        uint8_t request[1] = {(uint8_t)byte};
        uint64_t answer = kdr_basex_read_request(request, 1, lent.out, 0, lent.numbers, 5);
        known += kdr_refusal(answer) == KDR_MORE_BYTES;
    }
    CHECK(known == sizeof KINDS / sizeof *KINDS + (0xFE - 0x20 + 1));
}

static void check_reading_requests(void)
{
    uint8_t bind[16], command[8], bad[] = {KDR_BASEX_EXECUTE, 0xFF, 0x41}, *out = lent.out;
    uint64_t *t = lent.numbers;
    from_hex(bind, "03 00 7600 6162 00 696E7400 9999");
    from_hex(command, "494E464F 00 9999");
    BASEX_READS(11, "vabint", kdr_basex_read_request(bind, 13, out, room, t, told),
                [KDR_BASEX_REQUEST_KIND] = KDR_BASEX_BIND, [KDR_BASEX_REQUEST_LENGTH_1] = 0,
                [KDR_BASEX_REQUEST_LENGTH_2] = 1, [KDR_BASEX_REQUEST_LENGTH_3] = 2,
                [KDR_BASEX_REQUEST_LENGTH_4] = 3);
    REFUSED(KDR_NO_ROOM,
            kdr_basex_read_request(bind, 13, out, room, t, KDR_BASEX_REQUEST_FIELDS - 1));
    BASEX_READS(5, "INFO", kdr_basex_read_request(command, 7, out, room, t, told),
                [KDR_BASEX_REQUEST_KIND] = KDR_BASEX_COMMAND, [KDR_BASEX_REQUEST_LENGTH_1] = 4,
                [KDR_BASEX_REQUEST_LENGTH_4] = 0);
    REFUSED(KDR_MORE_BYTES, kdr_basex_read_request(NULL, 0, NULL, 0, NULL, 0));
    REFUSED(KDR_MORE_BYTES, kdr_basex_read_request(bind, 9, out, room, t, 4));
    REFUSED(KDR_BAD_ESCAPE, kdr_basex_read_request(bad, 3, out, 0, t, 4));
    bad[0] = 0x01; /* starts no request */
    REFUSED(KDR_UNKNOWN_INSTRUCTION, kdr_basex_read_request(bad, 3, out, 0, t, 4));
}

static void check_writing_requests(void)
{
    uint8_t *out = lent.out;
    WRITES("03 3100 7600 00 696E7400",
           kdr_basex_write_request(out, room, KDR_BASEX_BIND, TEXT("1"), TEXT("v"), NO_TEXT,
                                   TEXT("int")));
    WRITES("494E464F 00", kdr_basex_write_request(out, room, KDR_BASEX_COMMAND, TEXT("INFO"),
                                                  NO_TEXT, NO_TEXT, NO_TEXT));
    REFUSED(KDR_UNKNOWN_INSTRUCTION,
            kdr_basex_write_request(out, 0, 1, TEXT("a"), TEXT("b"), NO_TEXT, NO_TEXT));
    REFUSED(KDR_VALUE_NOT_ALLOWED, kdr_basex_write_request(out, 0, KDR_BASEX_COMMAND, NO_TEXT,
                                                           TEXT("b"), NO_TEXT, NO_TEXT));
    REFUSED(KDR_VALUE_NOT_ALLOWED, kdr_basex_write_request(out, 0, KDR_BASEX_CONTEXT, NO_TEXT,
                                                           NO_TEXT, NO_TEXT, TEXT("d")));
    REFUSED(KDR_NO_ENCODING, kdr_basex_write_request(out, 0, KDR_BASEX_COMMAND, NO_TEXT, NO_TEXT,
                                                     NO_TEXT, NO_TEXT));
    REFUSED(KDR_NO_ENCODING,
            kdr_basex_write_request(out, 0, 0xFE, TEXT("\x1F"), NO_TEXT, NO_TEXT, NO_TEXT));
}

void check_basex_requests(void)
{
    check_kinds();
    check_reading_requests();
    check_writing_requests();
}
