/* Cutting and joining. */
#include "check.h"

enum { LONG = 20469 }; /* two full parts of a statement, and one byte */
static uint8_t text[LONG];

/* A text whose bytes differ, so that a part from the wrong place is seen. */
static void make_text(void)
{
    for (size_t i = 0; i < LONG; i++) {
        text[i] = (uint8_t)(i * 7 + i / 251);
    }
}

/* How many parts, at the edges of document 01's lengths. */
static void check_counts(void)
{
    CHECK(kdr_statement_parts(0) == 1 && kdr_statement_parts(10234) == 1);
    CHECK(kdr_statement_parts(10235) == 3 && kdr_statement_parts(LONG) == 4);
    CHECK(kdr_item_parts(0) == 1 && kdr_item_parts(10235) == 1 && kdr_item_parts(10236) == 2);
    CHECK(kdr_typed_item_parts(0) == 1 && kdr_typed_item_parts(10232) == 1);
    CHECK(kdr_typed_item_parts(10233) == 2 && kdr_typed_item_parts(20467) == 2);
    CHECK(kdr_typed_item_parts(20468) == 3);
    CHECK(kdr_typed_item_url_parts(10226, 1) == 1 && kdr_typed_item_url_parts(10227, 1) == 2);
    CHECK(kdr_typed_item_url_parts(0, 10227) == 1 && kdr_typed_item_url_parts(1, 10227) == 2);
    REFUSED(KDR_NO_ENCODING, kdr_typed_item_url_parts(0, 10228));
    REFUSED(KDR_NO_ENCODING, kdr_typed_item_url_parts(0, SIZE_MAX));
    CHECK(!kdr_refused(kdr_statement_parts(SIZE_MAX)) && !kdr_refused(kdr_item_parts(SIZE_MAX)));
}

/* The part that was written is that instruction's, with the text from `from` on: it is read so. */
static void check_part(uint64_t answer, uint8_t side, uint32_t instruction, size_t from, size_t n)
{
    static uint8_t bytes[KDR_MESSAGE_MAX];
    CHECK(!kdr_refused(answer));
    CHECK(left_alone((const uint8_t *)&lent + answer, sizeof lent - answer));
    memcpy(bytes, lent.out, answer);
    CHECK(kdr_read(side, bytes, answer, lent.numbers, KDR_FIELDS) == answer);
    CHECK(lent.numbers[KDR_INSTRUCTION] == instruction);
    CHECK(lent.numbers[KDR_LENGTH_1] == n);
    CHECK(memcmp(bytes + lent.numbers[KDR_START_1], text + from, n) == 0);
}

static void check_statement_cut(void)
{
    uint8_t *out = lent.out;
    WRITES("0000012C 00000007 01 00 00000001 31",
           kdr_write_statement_part(out, room, 1, TEXT("1"), 0));
    WRITES("0000012E 00000000", kdr_write_statement_part(out, room, 1, text, LONG, 3));
    lend();
    check_part(kdr_write_statement_part(out, room, 1, text, LONG, 0), KDR_CLIENT, 301, 0, 10234);
    lend();
    check_part(kdr_write_statement_part(out, room, 1, text, LONG, 2), KDR_CLIENT, 301, 20468, 1);
    REFUSED(KDR_VALUE_NOT_ALLOWED, kdr_write_statement_part(out, 0, 2, text, LONG, 4));
    REFUSED(KDR_NO_SUCH_PART, kdr_write_statement_part(out, 0, 1, text, LONG, 4));
    REFUSED(KDR_NO_SUCH_PART, kdr_write_statement_part(out, room, 1, NO_TEXT, SIZE_MAX));
    REFUSED(KDR_NO_ROOM, kdr_write_statement_part(out, 10247, 1, text, LONG, 0));
    REFUSED(KDR_NO_ROOM, kdr_write_statement_part(NULL, 0, 1, NO_TEXT, 0));
}

static void check_item_cuts(void)
{
    uint8_t *out = lent.out;
    WRITES("00000168 00000006 00 00000001 78", kdr_write_item_part(out, room, TEXT("x"), 0));
    lend();
    check_part(kdr_write_item_part(out, room, text, 10236, 1), KDR_SERVER, 360, 10235, 1);
    REFUSED(KDR_NO_SUCH_PART, kdr_write_item_part(out, 0, text, 10236, 2));
    REFUSED(KDR_NO_ROOM, kdr_write_item_part(out, 13, text, 10236, 1));
    WRITES("00000163 00000009 01 20 00 00 00000001 78",
           kdr_write_typed_item_part(out, room, 1, 32, TEXT("x"), 0));
    lend();
    check_part(kdr_write_typed_item_part(out, room, 1, 32, text, 10240, 1), KDR_SERVER, 360, 10232,
               8);
    REFUSED(KDR_VALUE_NOT_ALLOWED, kdr_write_typed_item_part(out, 0, 0, 32, text, 10240, 2));
    REFUSED(KDR_VALUE_NOT_ALLOWED, kdr_write_typed_item_part(out, 0, 1, 33, text, 10240, 2));
    REFUSED(KDR_NO_SUCH_PART, kdr_write_typed_item_part(out, 0, 1, 32, text, 10240, 2));
    REFUSED(KDR_NO_ROOM, kdr_write_typed_item_part(out, 20, 1, 32, text, 10240, 1));
}

static void check_url_cut(void)
{
    uint8_t *out = lent.out;
    WRITES("00000163 0000000F 01 20 01 00 00000001 75 00 00000001 78",
           kdr_write_typed_item_url_part(out, room, 1, 32, TEXT("u"), TEXT("x"), 0));
    lend();
    check_part(kdr_write_typed_item_url_part(out, room, 1, 32, TEXT("u"), text, 10228, 1),
               KDR_SERVER, 360, 10226, 2);
    REFUSED(KDR_VALUE_NOT_ALLOWED,
            kdr_write_typed_item_url_part(out, 0, 9, 32, text, LONG, NO_TEXT, 1));
    REFUSED(KDR_NO_ENCODING, kdr_write_typed_item_url_part(out, 0, 1, 32, text, 10228, NO_TEXT, 1));
    REFUSED(KDR_NO_SUCH_PART,
            kdr_write_typed_item_url_part(out, 0, 1, 32, text, 10227, NO_TEXT, 1));
    REFUSED(KDR_NO_ROOM,
            kdr_write_typed_item_url_part(out, 10247, 1, 32, text, 10227, NO_TEXT, 0));
}

void check_cutting(void)
{
    make_text();
    check_counts();
    check_statement_cut();
    check_item_cuts();
    check_url_cut();
}

/* The gathering buffer, and bytes behind it that are not lent. */
static struct {
    uint8_t lent[LONG], behind[8];
} buffer;

/* Opens, with the buffer filled. */
static void gather(uint64_t what)
{
    lend();
    fill(&buffer, sizeof buffer);
    CHECK(kdr_open(lent.assembly, KDR_ASSEMBLY_FIELDS, what) == 0);
    CHECK(lent.assembly[KDR_ASSEMBLY_WHAT] == what && lent.assembly[KDR_ASSEMBLY_BEGUN] == 0);
    CHECK(lent.assembly[KDR_ASSEMBLY_HELD] == 0 && lent.assembly[KDR_ASSEMBLY_SPOILT] == 0);
    CHECK(left_alone(lent.assembly + KDR_ASSEMBLY_FIELDS, 2 * sizeof *lent.assembly));
}

/* Joins what stands in front of the output, in a buffer of so many bytes. */
static uint64_t join(uint64_t answer, uint8_t side, size_t buffer_len)
{
    static uint8_t bytes[KDR_MESSAGE_MAX];
    CHECK(!kdr_refused(answer));
    memcpy(bytes, lent.out, answer);
    return kdr_join(lent.assembly, KDR_ASSEMBLY_FIELDS, buffer.lent, buffer_len, side, bytes,
                    answer, lent.numbers, KDR_TOLD_FIELDS);
}

/* A statement that is cut is joined again, in a buffer of just its length. */
static void check_statement_joined(void)
{
    uint8_t *out = lent.out;
    uint64_t n;
    gather(KDR_STATEMENT);
    for (size_t k = 0; k < 3; k++) {
        n = kdr_write_statement_part(out, room, 1, text, LONG, k);
        CHECK(join(n, KDR_CLIENT, LONG) == n);
        TOLD(KDR_NOTHING, 0, 0, 0);
        CHECK(lent.assembly[KDR_ASSEMBLY_BEGUN] == 1 && lent.assembly[KDR_ASSEMBLY_FORMAT] == 1);
    }
    CHECK(lent.assembly[KDR_ASSEMBLY_HELD] == LONG);
    CHECK(join(kdr_write_empty(out, room, KDR_LongQueryEnd), KDR_CLIENT, LONG) == 8);
    TOLD([KDR_TOLD_WHAT] = KDR_STATEMENT, [KDR_TOLD_LENGTH] = LONG, [KDR_TOLD_FORMAT] = 1, 0);
    CHECK(memcmp(buffer.lent, text, LONG) == 0 && left_alone(buffer.behind, sizeof buffer.behind));
    CHECK(lent.assembly[KDR_ASSEMBLY_WHAT] == KDR_NOTHING);
    gather(KDR_STATEMENT);
    CHECK(join(kdr_write_statement(out, room, 300, 0, TEXT("1")), KDR_CLIENT, 1) == 15);
    TOLD(KDR_STATEMENT, 1, 0, 0);
}

/* Items, up to 3.0 with an empty part among them, and of 4.0 with a URL, which is not gathered. */
static void check_items_joined(void)
{
    uint8_t *out = lent.out;
    gather(KDR_ITEM);
    CHECK(join(kdr_write_text(out, room, 360, TEXT("ab")), KDR_SERVER, 3) == 15);
    CHECK(join(kdr_write_text(out, room, 360, NO_TEXT), KDR_SERVER, 3) == 13);
    CHECK(join(kdr_write_text(out, room, 360, TEXT("c")), KDR_SERVER, 3) == 14);
    CHECK(join(kdr_write_empty(out, room, KDR_ResultEnd), KDR_SERVER, 3) == 8);
    TOLD(KDR_ITEM, 3, 0, 0);
    CHECK(memcmp(buffer.lent, "abc", 3) == 0 && left_alone(buffer.lent + 3, sizeof buffer - 3));
    gather(KDR_TYPED_ITEM);
    CHECK(join(kdr_write_item_url(out, room, 355, 2, 14, TEXT("u"), TEXT("a")), KDR_SERVER, 2) ==
          23);
    CHECK(lent.assembly[KDR_ASSEMBLY_CLASS] == 2 && lent.assembly[KDR_ASSEMBLY_TYPE] == 14);
    CHECK(join(kdr_write_text(out, room, 360, TEXT("b")), KDR_SERVER, 2) == 14);
    CHECK(join(kdr_write_empty(out, room, KDR_ItemEnd), KDR_SERVER, 2) == 8);
    TOLD(KDR_TYPED_ITEM, 2, [KDR_TOLD_CLASS] = 2, [KDR_TOLD_TYPE] = 14);
    CHECK(memcmp(buffer.lent, "ab", 2) == 0);
}

/* "A part that would overrun gets 12 and spoils the gathering": the one refusal that marks. */
static void check_overrun(void)
{
    uint8_t *out = lent.out;
    gather(KDR_ITEM);
    CHECK(join(kdr_write_text(out, room, 360, TEXT("ab")), KDR_SERVER, 3) == 15);
    CHECK(join(kdr_write_text(out, room, 360, TEXT("cd")), KDR_SERVER, 3) == KDR_REFUSED + 12);
    TOLD(KDR_NOTHING, 0, 0, 0);
    CHECK(lent.assembly[KDR_ASSEMBLY_SPOILT] == 1 && lent.assembly[KDR_ASSEMBLY_HELD] == 2);
    CHECK(memcmp(buffer.lent, "ab", 2) == 0 && left_alone(buffer.lent + 2, sizeof buffer - 2));
    CHECK(join(kdr_write_text(out, room, 360, TEXT("e")), KDR_SERVER, 3) == KDR_REFUSED + 12);
    CHECK(join(kdr_write_empty(out, room, KDR_ItemEnd), KDR_SERVER, 3) == KDR_REFUSED + 12);
    gather(KDR_ITEM);
}

/* A buffer shorter than what is held is overrun by a part without a byte, and by the end. */
static void check_shorter_buffer(void)
{
    uint8_t *out = lent.out;
    for (int end = 0; end <= 1; end++) {
        gather(KDR_ITEM);
        CHECK(join(kdr_write_text(out, room, 360, TEXT("ab")), KDR_SERVER, 2) == 15);
        CHECK(join(end ? kdr_write_empty(out, room, KDR_ItemEnd)
                       : kdr_write_text(out, room, 360, NO_TEXT),
                   KDR_SERVER, 1) == KDR_REFUSED + KDR_BUFFER_OVERRUN);
        CHECK(lent.assembly[KDR_ASSEMBLY_SPOILT] == 1 && lent.assembly[KDR_ASSEMBLY_HELD] == 2);
        CHECK(memcmp(buffer.lent, "ab", 2) == 0 && left_alone(buffer.lent + 2, sizeof buffer - 2));
    }
}

/* Each number that no assembly has, by the highest that one has; what is held may be any. */
static void check_assembly_numbers(void)
{
    const uint64_t highest[] = {3, 1, UINT64_MAX, 1, 255, 255, 255};
    uint8_t part[16];
    const size_t n = from_hex(part, "00000168 00000006 00 00000001 78");
    for (size_t k = 0; k < KDR_ASSEMBLY_FIELDS; k++) {
        uint64_t a[KDR_ASSEMBLY_FIELDS] = {0}, t[KDR_TOLD_FIELDS];
        a[k] = highest[k];
        CHECK(kdr_join(a, 7, NULL, 0, KDR_SERVER, part, n, t, 4) == KDR_REFUSED + KDR_OUT_OF_ORDER);
        a[k]++;
        CHECK(kdr_join(a, 7, NULL, 0, KDR_SERVER, part, n, t, 4) ==
              KDR_REFUSED + (k == KDR_ASSEMBLY_HELD ? KDR_OUT_OF_ORDER : KDR_VALUE_NOT_ALLOWED));
    }
}

/* The call on a fresh opening is refused, and leaves everything. */
#define JOIN_REFUSED(number, what, call)                 \
    do {                                                 \
        struct lent before;                              \
        gather(what);                                    \
        before = lent;                                   \
        CHECK((call) == KDR_REFUSED + (number));         \
        CHECK(memcmp(&before, &lent, sizeof lent) == 0); \
        CHECK(left_alone(&buffer, sizeof buffer));       \
    } while (0)

static void check_join_refusals(void)
{
    uint64_t *a = lent.assembly, *t = lent.numbers;
    uint8_t part[16], end[8], bad[16], *b = buffer.lent;
    const size_t n = from_hex(part, "00000168 00000006 00 00000001 78");
    from_hex(end, "00000172 00000000");
    from_hex(bad, "00000168 00000006 01 00000001 78");
    JOIN_REFUSED(KDR_NO_ROOM, KDR_ITEM, kdr_join(a, 6, b, 1, 0, part, 0, t, 4));
    JOIN_REFUSED(KDR_NO_ROOM, KDR_ITEM, kdr_join(a, 7, b, 1, 0, part, 0, t, KDR_TOLD_FIELDS - 1));
    JOIN_REFUSED(KDR_NO_ROOM, KDR_ITEM, kdr_join(NULL, 0, NULL, 0, 0, NULL, 0, NULL, 0));
    JOIN_REFUSED(KDR_VALUE_NOT_ALLOWED, KDR_ITEM, kdr_join(a, 7, b, 1, 3, part, n, t, 4));
    JOIN_REFUSED(KDR_OTHER_SIDE, KDR_ITEM, kdr_join(a, 7, b, 1, KDR_CLIENT, part, n, t, 4));
    JOIN_REFUSED(KDR_MORE_BYTES, KDR_ITEM, kdr_join(a, 7, b, 1, KDR_SERVER, part, n - 1, t, 4));
    JOIN_REFUSED(KDR_STRING_FORMAT, KDR_ITEM, kdr_join(a, 7, b, 1, KDR_SERVER, bad, n, t, 4));
    JOIN_REFUSED(KDR_OUT_OF_ORDER, KDR_ITEM, kdr_join(a, 7, b, 1, KDR_SERVER, end, 8, t, 4));
    JOIN_REFUSED(KDR_OUT_OF_ORDER, KDR_TYPED_ITEM, kdr_join(a, 7, b, 1, KDR_SERVER, part, n, t, 4));
    JOIN_REFUSED(KDR_OUT_OF_ORDER, KDR_STATEMENT, kdr_join(a, 7, b, 1, KDR_SERVER, part, n, t, 4));
    /* numbers that no assembly has: the filler */
    REFUSED(KDR_VALUE_NOT_ALLOWED, kdr_join(a, 7, b, 1, KDR_SERVER, part, n, t, 4));
    REFUSED(KDR_NO_ROOM, kdr_open(a, KDR_ASSEMBLY_FIELDS - 1, KDR_ITEM));
    REFUSED(KDR_NO_ROOM, kdr_open(NULL, 0, KDR_NOTHING));
    REFUSED(KDR_VALUE_NOT_ALLOWED, kdr_open(a, KDR_ASSEMBLY_FIELDS, KDR_NOTHING));
    REFUSED(KDR_VALUE_NOT_ALLOWED, kdr_open(a, KDR_ASSEMBLY_FIELDS, 4));
    /* zeros are an assembly in which nothing is open */
    memset(a, 0, sizeof lent.assembly);
    CHECK(kdr_join(a, 7, b, 1, KDR_SERVER, part, n, t, 4) == KDR_REFUSED + KDR_OUT_OF_ORDER);
}

void check_joining(void)
{
    make_text();
    check_statement_joined();
    check_items_joined();
    check_overrun();
    check_shorter_buffer();
    check_assembly_numbers();
    check_join_refusals();
}
