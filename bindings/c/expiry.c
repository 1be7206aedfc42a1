/* An example: reads the items that a Sedna server of 4.0 sends, and says which are over.
 *
 *     expiry INSTANT <MESSAGES     INSTANT: a dateTime with a zone (2024-05-01T08:30:00Z);
 *                                  $(date -u +%FT%TZ) is now
 *
 * The messages are those of deliveries: ItemStart, ItemPart, ItemEnd and ResultEnd, and DebugInfo,
 * which is skipped. Standard output has a line for each item, with its value; an instant is over
 * where it is not later than INSTANT. An item without a value has its class, type and refusal
 * there, and the next is read; a message that is refused ends the program, with 1 where the bytes
 * end inside a message or an item. The status is 0 where every item has a value; 1 where something
 * was refused; 2 where INSTANT is none, and where reading or printing fails.
 */
#define _POSIX_C_SOURCE 200809L

#include "keddorimp.h"
#include <errno.h>
#include <inttypes.h>
#include <stdio.h>
#include <stdlib.h>
#include <string.h>
#include <unistd.h>

enum { ATOMIC = 1 }; /* the class whose items have values */

/* A value as the library tells it: what it is, or its refusal; two numbers; a double. */
struct value {
    uint64_t answer;
    int64_t numbers[KDR_VALUE_NUMBERS];
    double real;
};

/* What has come and is not taken yet: every message fits. */
static uint8_t held[KDR_MESSAGE_MAX];
static size_t held_len;

/* What is gathered. */
static uint64_t assembly[KDR_ASSEMBLY_FIELDS];
static uint8_t item[65536]; /* an item that is longer is refused with 12 */

static void give_up(const char *what)
{
    perror(what);
    exit(2);
}

/* Ends the program where something that was printed is not written. */
static void flush(void)
{
    if (fflush(stdout) != 0 || ferror(stdout)) {
        give_up("standard output");
    }
}

static void print_refusal(uint64_t answer)
{
    printf("refused %u: %s\n", kdr_refusal(answer), kdr_refusal_text(kdr_refusal(answer)));
}

static void refuse(uint64_t answer)
{
    print_refusal(answer);
    flush();
    exit(1);
}

/* Waits for more bytes where the refusal is 1; any other ends the program, since no bytes to come
 * would mend it. Whether some came: none do behind the last item. What was printed so far is seen
 * before the wait. */
static bool read_more(uint64_t refusal)
{
    ssize_t n;
    if (kdr_refusal(refusal) != KDR_MORE_BYTES) {
        refuse(refusal);
    }
    flush();
    do {
        n = read(0, held + held_len, sizeof held - held_len);
    } while (n == -1 && errno == EINTR);
    if (n == -1) {
        give_up("standard input");
    }
    if (n == 0 && (held_len > 0 || assembly[KDR_ASSEMBLY_BEGUN])) {
        refuse(refusal);
    }
    held_len += (size_t)n;
    return n > 0;
}

static struct value value_of(uint8_t item_class, uint8_t item_type, const void *text, size_t size)
{
    struct value v;
    v.answer = kdr_value(item_class, item_type, text, size, v.numbers, KDR_VALUE_NUMBERS,
                         &v.real, 1);
    return v;
}

/* Whether an instant is over at `now`: by when the two are, whatever their zones. */
static bool is_over(const struct value *v, const struct value *now)
{
    return kdr_compare(v->numbers[KDR_VALUE_SECONDS], (uint32_t)v->numbers[KDR_VALUE_NANOSECONDS],
                       now->numbers[KDR_VALUE_SECONDS],
                       (uint32_t)now->numbers[KDR_VALUE_NANOSECONDS]) <= 0;
}

/* The line of a value. */
static void print_value(const struct value *v, const struct value *now)
{
    switch (v->answer) {
    case KDR_WHOLE:
        printf("whole number %" PRId64 "\n", v->numbers[KDR_VALUE_WHOLE]);
        break;
    case KDR_INSTANT:
        printf("instant, %" PRId64 " s and %" PRId64 " ns: %s\n", v->numbers[KDR_VALUE_SECONDS],
               v->numbers[KDR_VALUE_NANOSECONDS], is_over(v, now) ? "over" : "to come");
        break;
    case KDR_BOOLEAN:
        puts(v->numbers[KDR_VALUE_BOOLEAN] == 1 ? "yes" : "no");
        break;
    case KDR_DOUBLE:
        printf("double %.17g\n", v->real);
        break;
    }
}

/* Whether a message is offered to joining. DebugInfo, which may come anywhere in a delivery, is
 * not, nor is a ResultEnd that comes alone, without an item. */
static bool is_offered(uint64_t instruction)
{
    return instruction != KDR_DebugInfo &&
           (instruction != KDR_ResultEnd || assembly[KDR_ASSEMBLY_BEGUN]);
}

/* Joins the message in front, or skips one that is not offered to joining, and drops it; `told`
 * says whether an item is whole. The answer is joining's, or reading's. */
static uint64_t take(uint64_t *told)
{
    uint64_t fields[KDR_FIELDS];
    uint64_t answer = kdr_read(KDR_SERVER, held, held_len, fields, KDR_FIELDS);
    told[KDR_TOLD_WHAT] = KDR_NOTHING;
    if (!kdr_refused(answer) && is_offered(fields[KDR_INSTRUCTION])) {
        answer = kdr_join(assembly, KDR_ASSEMBLY_FIELDS, item, sizeof item, KDR_SERVER, held,
                          held_len, told, KDR_TOLD_FIELDS);
    }
    if (!kdr_refused(answer)) {
        held_len -= answer;
        memmove(held, held + answer, held_len);
    }
    return answer;
}

/* Prints the value of an item that is whole; whether it has one. */
static bool print_item(const uint64_t *told, const struct value *now)
{
    uint8_t item_class = (uint8_t)told[KDR_TOLD_CLASS], item_type = (uint8_t)told[KDR_TOLD_TYPE];
    struct value v = value_of(item_class, item_type, item, told[KDR_TOLD_LENGTH]);
    if (kdr_refused(v.answer)) {
        printf("item of class %u, type %u: ", item_class, item_type);
        print_refusal(v.answer);
        return false;
    }
    print_value(&v, now);
    return true;
}

/* Takes messages to the end of the input; whether each item has a value. */
static bool read_items(const struct value *now)
{
    uint64_t told[KDR_TOLD_FIELDS], answer;
    bool all = true;
    kdr_open(assembly, KDR_ASSEMBLY_FIELDS, KDR_TYPED_ITEM);
    do {
        answer = take(told);
        if (told[KDR_TOLD_WHAT] == KDR_TYPED_ITEM) {
            all = print_item(told, now) && all;
            kdr_open(assembly, KDR_ASSEMBLY_FIELDS, KDR_TYPED_ITEM);
        }
    } while (!kdr_refused(answer) || read_more(answer));
    return all;
}

int main(int argc, char **argv)
{
    struct value now;
    bool all;
    if (argc != 2) {
        fputs("expiry INSTANT <MESSAGES\n", stderr);
        return 2;
    }
    now = value_of(ATOMIC, KDR_TYPE_dateTime, argv[1], strlen(argv[1]));
    if (kdr_refused(now.answer)) {
        fprintf(stderr, "%s: refused %u: %s\n", argv[1], kdr_refusal(now.answer),
                kdr_refusal_text(kdr_refusal(now.answer)));
        return 2;
    }
    all = read_items(&now);
    flush();
    return all ? 0 : 1;
}
