/* Typed values, and which of two instants is earlier. */
#include "check.h"

/* The types that are named here. */
enum {
    DATE_TIME = 10, DOUBLE = 22, INTEGER = 24, BOOLEAN = 25, NEGATIVE = 51, LONG = 52, BYTE = 55,
    UNSIGNED_LONG = 57, UNSIGNED_BYTE = 60, POSITIVE = 61
};

/* A text, and what it is: the kind, the numbers and the double that are told; or the refusal. */
static const struct row {
    uint8_t type;
    const char *text;
    unsigned kind, refusal;
    int64_t first, second;
    double real;
} ROWS[] = {
#define WHOLE(type, text, n) {type, text, KDR_WHOLE, 0, n, 0, 0.0}
#define INSTANT(text, seconds, nanoseconds) \
    {DATE_TIME, text, KDR_INSTANT, 0, seconds, nanoseconds, 0.0}
#define TRUTH(text, yes) {BOOLEAN, text, KDR_BOOLEAN, 0, yes, 0, 0.0}
#define REAL(text, x) {DOUBLE, text, KDR_DOUBLE, 0, 0, 0, x}
#define NONE(number, type, text) {type, text, 0, number, 0, 0, 0.0}
    WHOLE(INTEGER, "42", 42),
    WHOLE(INTEGER, "-9223372036854775808", INT64_MIN),
    WHOLE(INTEGER, "+000000000000000000009223372036854775807", INT64_MAX),
    WHOLE(UNSIGNED_LONG, "9223372036854775807", INT64_MAX),
    WHOLE(LONG, "-0", 0),
    WHOLE(BYTE, "-128", -128),
    WHOLE(UNSIGNED_BYTE, "+255", 255),
    WHOLE(NEGATIVE, "-1", -1),
    NONE(16, INTEGER, "9223372036854775808"),
    NONE(16, INTEGER, "-9223372036854775809"),
    NONE(16, UNSIGNED_LONG, "18446744073709551615"),
    NONE(16, BYTE, "128"),
    NONE(16, UNSIGNED_BYTE, "-1"),
    NONE(16, NEGATIVE, "0"),
    NONE(16, POSITIVE, "0"),
    NONE(15, INTEGER, ""),
    NONE(15, INTEGER, "+"),
    NONE(15, INTEGER, "4 2"),
    NONE(15, INTEGER, "42\n"),
    NONE(15, INTEGER, "42."),
    INSTANT("1970-01-01T00:00:00Z", 0, 0),
    INSTANT("1969-12-31T23:59:59.5Z", -1, 500000000),
    INSTANT("2024-05-01T09:00:00+02:00", 1714546800, 0),
    INSTANT("2024-05-01T08:30:00.123456789-00:00", 1714552200, 123456789),
    INSTANT("2000-02-29T24:00:00Z", 951868800, 0),
    INSTANT("0001-01-01T00:00:00+14:00", -62135647200, 0),
    INSTANT("9999-12-31T24:00:00Z", 253402300800, 0),
    NONE(16, DATE_TIME, "2024-05-01T09:00:00"),
    NONE(16, DATE_TIME, "2024-05-01T09:00:00.0000000000Z"),
    NONE(16, DATE_TIME, "0000-02-29T00:00:00Z"),
    NONE(16, DATE_TIME, "-0001-01-01T00:00:00Z"),
    NONE(16, DATE_TIME, "10000-01-01T00:00:00Z"),
    NONE(15, DATE_TIME, "0000-02-30T00:00:00Z"),
    NONE(15, DATE_TIME, "2023-02-29T00:00:00Z"),
    NONE(15, DATE_TIME, "2024-05-01T09:00:00+14:01"),
    NONE(15, DATE_TIME, "2024-05-01T24:00:01Z"),
    NONE(15, DATE_TIME, " 2024-05-01T09:00:00Z"),
    NONE(15, DATE_TIME, "2024-05-01"),
    TRUTH("true", 1),
    TRUTH("1", 1),
    TRUTH("false", 0),
    TRUTH("0", 0),
    NONE(15, BOOLEAN, "True"),
    NONE(15, BOOLEAN, "2"),
    REAL("0.1", 0.1),
    REAL("-.5", -0.5),
    REAL("3570.", 3570.0),
    REAL("-0", -0.0),
    REAL("999999999999999", 999999999999999.0),
    REAL("0.00000000000001", 1e-14),
    NONE(16, DOUBLE, "1000000000000000"),
    NONE(16, DOUBLE, "1E5"),
    NONE(16, DOUBLE, "-INF"),
    NONE(16, DOUBLE, "NaN"),
    NONE(15, DOUBLE, "+INF"),
    NONE(15, DOUBLE, "1E"),
    NONE(15, DOUBLE, "."),
};

/* Document 02's types, and no others: of "1" each makes a value, or is out of range, and an instant
 * is not of that form. */
static void check_types(void)
{
    for (unsigned type = 0; type <= 255; type++) {
        bool below_1 = type == 50 || type == NEGATIVE;
        bool has = type == DOUBLE || type == INTEGER || type == BOOLEAN ||
                   (50 <= type && type <= POSITIVE);
        uint64_t answer = kdr_value(1, (uint8_t)type, TEXT("1"), lent.value, 2, lent.real, 1);
        CHECK(kdr_refusal(answer) == (!has ? KDR_NOT_OF_FORM : below_1 ? KDR_OUT_OF_RANGE : 0));
    }
}

/* The call with as many numbers and doubles. */
static uint64_t value(const struct row *r, uint8_t item_class, size_t numbers, size_t reals)
{
    return kdr_value(item_class, r->type, (const uint8_t *)r->text, strlen(r->text), lent.value,
                     numbers, lent.real, reals);
}

/* All three numbers are told, and nothing else is changed. */
static void check_told(const struct row *r)
{
    lend();
    CHECK(value(r, 1, KDR_VALUE_NUMBERS, 1) == r->kind);
    CHECK(lent.value[0] == r->first && lent.value[1] == r->second);
    CHECK(memcmp(&lent.real[0], &r->real, sizeof r->real) == 0);
    fill(lent.value, KDR_VALUE_NUMBERS * sizeof *lent.value);
    fill(lent.real, sizeof *lent.real);
    CHECK(ALL_LEFT_ALONE);
}

static void check_rows(void)
{
    for (size_t i = 0; i < sizeof ROWS / sizeof *ROWS; i++) {
        const struct row *r = &ROWS[i];
        if (r->refusal == 0) {
            check_told(r);
        } else {
            REFUSED(r->refusal, value(r, 1, KDR_VALUE_NUMBERS, 1));
        }
        /* another class goes ahead of all, and too little memory comes last */
        REFUSED(KDR_NOT_OF_FORM, value(r, 0, KDR_VALUE_NUMBERS, 1));
        REFUSED(KDR_NOT_OF_FORM, value(r, 2, 0, 0));
        const unsigned few = r->refusal == 0 ? KDR_NO_ROOM : r->refusal;
        REFUSED(few, value(r, 1, KDR_VALUE_NUMBERS - 1, 1));
        REFUSED(few, value(r, 1, KDR_VALUE_NUMBERS, 0));
    }
    REFUSED(KDR_NOT_OF_FORM, kdr_value(1, INTEGER, NULL, 0, NULL, 0, NULL, 0));
    REFUSED(KDR_NOT_OF_FORM, kdr_value(1, INTEGER, NO_TEXT, lent.value, 4, lent.real, 2));
}

/* Instants from the earliest on; no two are the same. */
static const struct {
    int64_t seconds;
    uint32_t nanoseconds;
} INSTANTS[] = {
    {INT64_MIN, 0}, {INT64_MIN, 1}, {-1, 0},         {-1, 500000000},         {-1, 999999999},
    {0, 0},         {0, 1},         {1, 0},          {1714546800, 0},         {1714546800, 1},
    {INT64_MAX, 0}, {INT64_MAX, 1}, {INT64_MAX, 999999999}, {INT64_MAX, UINT32_MAX},
};

static void check_compare(void)
{
    const size_t count = sizeof INSTANTS / sizeof *INSTANTS;
    for (size_t a = 0; a < count; a++) {
        for (size_t b = 0; b < count; b++) {
            CHECK(kdr_compare(INSTANTS[a].seconds, INSTANTS[a].nanoseconds, INSTANTS[b].seconds,
                              INSTANTS[b].nanoseconds) == (a > b) - (a < b));
        }
    }
}

/* The one that is written with the later hour is the earlier one. */
static void check_zones(void)
{
    int64_t a[KDR_VALUE_NUMBERS], b[KDR_VALUE_NUMBERS];
    double real;
    CHECK(kdr_value(1, DATE_TIME, TEXT("2024-05-01T09:00:00+02:00"), a, 2, &real, 1) ==
          KDR_INSTANT);
    CHECK(kdr_value(1, DATE_TIME, TEXT("2024-05-01T08:30:00Z"), b, 2, &real, 1) == KDR_INSTANT);
    CHECK(kdr_compare(a[KDR_VALUE_SECONDS], (uint32_t)a[KDR_VALUE_NANOSECONDS],
                      b[KDR_VALUE_SECONDS], (uint32_t)b[KDR_VALUE_NANOSECONDS]) == -1);
}

/* The types' numbers, the places of a value's, and what is told of which kind. */
static void check_places(void)
{
    CHECK(KDR_TYPE_dateTime == 10 && KDR_TYPE_double == 22);
    CHECK(KDR_TYPE_integer == 24 && KDR_TYPE_boolean == 25);
    CHECK(KDR_TYPE_nonPositiveInteger == 50 && KDR_TYPE_negativeInteger == 51);
    CHECK(KDR_TYPE_long == 52 && KDR_TYPE_int == 53 && KDR_TYPE_short == 54);
    CHECK(KDR_TYPE_byte == 55 && KDR_TYPE_nonNegativeInteger == 56);
    CHECK(KDR_TYPE_unsignedLong == 57 && KDR_TYPE_unsignedInt == 58);
    CHECK(KDR_TYPE_unsignedShort == 59 && KDR_TYPE_unsignedByte == 60);
    CHECK(KDR_TYPE_positiveInteger == 61);
    CHECK(KDR_WHOLE == 1 && KDR_INSTANT == 2 && KDR_BOOLEAN == 3 && KDR_DOUBLE == 4);
    CHECK(KDR_VALUE_WHOLE == 0 && KDR_VALUE_SECONDS == 0 && KDR_VALUE_BOOLEAN == 0);
    CHECK(KDR_VALUE_NANOSECONDS == 1 && KDR_VALUE_NUMBERS == 2);
}

void check_values(void)
{
    check_places();
    check_types();
    check_rows();
    check_compare();
    check_zones();
}
