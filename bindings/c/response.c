/* An example: reads a BaseX response as its bytes come, and prints what it says.
 *
 *     response KIND <BYTES     KIND: the first byte of the request, two hex digits (04: RESULTS)
 *
 * Items are printed one by one, as soon as each is whole, and dropped; the response may be of any
 * length. Everything else is held until it is whole: an item, or a response without items, has to
 * fit into the buffer. Bytes behind the response are not looked at. The status is 0 for a whole
 * response, also one that tells of an error; 1 for a refusal, which is 1 where the bytes end inside
 * the response; 2 where reading or printing fails, where the buffer is too small, and where KIND
 * is none.
 */
#define _POSIX_C_SOURCE 200809L

#include "keddorimp.h"
#include <ctype.h>
#include <errno.h>
#include <stdio.h>
#include <stdlib.h>
#include <string.h>
#include <unistd.h>

enum { ROOM = 65536 };

/* What has come and is not taken yet. */
static uint8_t held[ROOM];
static size_t held_len;
/* The texts of what is taken: decoded they are never longer than the bytes that they stand in. */
static uint8_t out[ROOM];

static void give_up(const char *what)
{
    perror(what);
    exit(2);
}

/* Ends the program where something that was printed is not written, by now or when the output was
 * flushed by itself. */
static void flush(void)
{
    if (fflush(stdout) != 0 || ferror(stdout)) {
        give_up("standard output");
    }
}

static void refuse(uint64_t answer)
{
    unsigned number = kdr_refusal(answer);
    printf("refused %u: %s\n", number, kdr_refusal_text(number));
    flush();
    exit(1);
}

/* Waits for more bytes where the refusal is 1; any other ends the program, since no bytes to come
 * would mend it. What was printed so far is seen before the wait. */
static void read_more(uint64_t refusal)
{
    ssize_t n;
    if (kdr_refusal(refusal) != KDR_MORE_BYTES) {
        refuse(refusal);
    }
    if (held_len == ROOM) {
        errno = EMSGSIZE;
        give_up("buffer");
    }
    flush();
    do {
        n = read(0, held + held_len, ROOM - held_len);
    } while (n == -1 && errno == EINTR);
    if (n == -1) {
        give_up("standard input");
    }
    if (n == 0) {
        refuse(refusal);
    }
    held_len += (size_t)n;
}

/* Drops what was taken from the front. */
static void drop(size_t taken)
{
    held_len -= taken;
    memmove(held, held + taken, held_len);
}

static void print_text(const char *name, const uint8_t *text, size_t size)
{
    printf("%s, %zu bytes: ", name, size);
    for (size_t i = 0; i < size; i++) {
        putchar(isprint(text[i]) ? text[i] : '.');
    }
    putchar('\n');
}

/* Prints the item at `at`, which was judged, so that no decoding is refused. Behind its id it has a
 * string, or two, of which the first is its URI. */
static void print_item(size_t at, size_t size, uint64_t id)
{
    uint64_t told[KDR_BASEX_STRING_FIELDS];
    size_t behind = at + size;
    at++;
    printf("item %u\n", (unsigned)id);
    while (at < behind) {
        at += kdr_basex_decode(held, held_len, at, out, ROOM, 0, told, KDR_BASEX_STRING_FIELDS);
        print_text(at < behind ? "  URI" : "  text", out, told[KDR_BASEX_STRING_LENGTH]);
    }
}

/* Takes items up to the 00 behind the last, which is left in front. Each is judged where the one
 * before it ended; bytes are dropped once there is no whole item among them. */
static void take_items(uint8_t kind)
{
    uint64_t told[KDR_BASEX_ITEM_FIELDS], answer = 1;
    size_t at = 0;
    while (answer != 0) {
        answer = kdr_basex_item(kind, held, held_len, at, told, KDR_BASEX_ITEM_FIELDS);
        if (!kdr_refused(answer)) {
            if (answer != 0) {
                print_item(at, answer, told[KDR_BASEX_ITEM_ID]);
            }
            at += answer;
        } else {
            drop(at);
            at = 0;
            read_more(answer);
        }
    }
    drop(at);
}

/* Prints a response without items, or what is left of one behind them. Texts that it does not have
 * are empty, and where it has an error, the texts end where that starts. */
static void print_response(uint8_t kind, const uint64_t *told)
{
    uint64_t place[KDR_BASEX_ERROR_FIELDS];
    size_t first = told[KDR_BASEX_RESPONSE_LENGTH_1];
    size_t both = first + told[KDR_BASEX_RESPONSE_LENGTH_2];
    bool failed = kdr_basex_error(kind, told, KDR_BASEX_RESPONSE_FIELDS, place,
                                  KDR_BASEX_ERROR_FIELDS) == 1;
    size_t texts = failed ? place[KDR_BASEX_ERROR_START] : both;
    if (0 < first && first <= texts) {
        print_text("text", out, first);
    }
    if (first < both && both <= texts) {
        print_text("second text", out + first, both - first);
    }
    if (failed) {
        print_text("error", out + texts, place[KDR_BASEX_ERROR_LENGTH]);
    } else {
        puts("no error");
    }
}

/* Whether a text is two hex digits. (strtoul alone would take 0x04, -4 and 04xyz too.) */
static bool is_byte(const char *text)
{
    return strlen(text) == 2 && isxdigit((unsigned char)text[0]) &&
           isxdigit((unsigned char)text[1]);
}

int main(int argc, char **argv)
{
    uint64_t told[KDR_BASEX_RESPONSE_FIELDS], answer;
    uint8_t kind;
    if (argc != 2 || !is_byte(argv[1])) {
        fputs("response KIND <BYTES\n", stderr);
        return 2;
    }
    kind = (uint8_t)strtoul(argv[1], NULL, 16);
    if (kind == KDR_BASEX_RESULTS || kind == KDR_BASEX_FULL) {
        take_items(kind);
    }
    while (kdr_refused(answer = kdr_basex_read_response(kind, held, held_len, out, ROOM, told,
                                                        KDR_BASEX_RESPONSE_FIELDS))) {
        read_more(answer);
    }
    print_response(kind, told);
    flush();
    return 0;
}
