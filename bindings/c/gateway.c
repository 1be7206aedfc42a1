/* An example: a gateway between a Sedna client and a server, on two connected sockets.
 *
 *     gateway     with the client at descriptor 3 and the server at 4
 *
 * Both are connected, blocking sockets, and inherited: a shell cannot open an accepted socket with
 * 3<>, so a program that has the two starts the gateway, as tests/c/gateway/play.c does. A write
 * waits for its reader; where the beginning of a message has come ahead of its turn, the rest of it
 * is waited for; and there is no time limit.
 *
 * A message is forwarded once the session, and joining, have accepted it, and never otherwise. The
 * first refusal but 1 stops the gateway: what was refused is not acted on, not forwarded and not
 * offered again. Standard output has a line for each message: the side, the instruction, and how
 * many bytes it has, or its refusal; and a line for each finished item. The last line is `closed`
 * or `open`. The status is 0 where the conversation is over, 1 where a refusal stopped it, 3 where
 * a stream ended between two messages, and 2, without a last line, where reading or writing failed.
 * Bytes behind the message that ends the conversation are not looked at.
 */
#define _POSIX_C_SOURCE 200809L

#include "keddorimp.h"
#include <ctype.h>
#include <errno.h>
#include <poll.h>
#include <signal.h>
#include <stdio.h>
#include <stdlib.h>
#include <string.h>
#include <unistd.h>

enum status { CLOSED, REFUSED, FAILED, ENDED, WAITING, TAKEN }; /* the last two: it goes on */

/* A side, and what it has sent and no step has taken yet. Every message fits, so what is refused
 * with 1 leaves room for more bytes. */
struct stream {
    uint8_t side;
    int socket;
    bool ended; /* no more bytes come from it */
    size_t held;
    uint8_t bytes[KDR_MESSAGE_MAX];
};

/* The two sides, and all else that is lent to the library. */
struct gateway {
    struct stream client, server;
    uint8_t session[KDR_SESSION_BYTES];
    uint64_t fields[KDR_FIELDS];
    uint64_t major; /* the version, which decides what an item is made of */
    uint64_t assembly[KDR_ASSEMBLY_FIELDS];
    uint64_t told[KDR_TOLD_FIELDS];
    uint8_t item[1 << 20]; /* an item that is longer is refused with 12 */
};

static void give_up(const char *what)
{
    perror(what);
    exit(FAILED);
}

/* Reads once from a stream that has something to be read: bytes, its end or its error. */
static void receive(struct stream *s)
{
    ssize_t n;
    do {
        n = read(s->socket, s->bytes + s->held, sizeof s->bytes - s->held);
    } while (n == -1 && errno == EINTR);
    if (n == -1) {
        give_up("read");
    }
    s->ended = n == 0;
    s->held += (size_t)n;
}

/* Reads what has come from either side; where `wait`, waits until something has. A stream that has
 * nothing is left alone: a client that waits for the server sends nothing, and a read would wait
 * with it. */
static void receive_both(struct gateway *g, bool wait)
{
    struct stream *both[2] = {&g->client, &g->server};
    struct pollfd ready[2];
    int count;
    for (int i = 0; i < 2; i++) {
        bool more = !both[i]->ended && both[i]->held < sizeof both[i]->bytes;
        ready[i] = (struct pollfd){.fd = more ? both[i]->socket : -1, .events = POLLIN};
    }
    do {
        count = poll(ready, 2, wait ? -1 : 0);
    } while (count == -1 && errno == EINTR);
    if (count == -1) {
        give_up("poll");
    }
    for (int i = 0; i < 2; i++) {
        if (ready[i].fd != -1 && ready[i].revents != 0) {
            receive(both[i]);
        }
    }
}

/* Sends so many bytes from the front of a stream to the other side. */
static void forward(const struct stream *from, const struct stream *to, size_t size)
{
    size_t sent = 0;
    while (sent < size) {
        ssize_t n = write(to->socket, from->bytes + sent, size - sent);
        if (n == -1 && errno != EINTR) {
            give_up("write");
        }
        sent += n > 0 ? (size_t)n : 0;
    }
}

/* The line of the message in front of a stream; `-` where its instruction is not there yet. */
static void tell(const struct stream *s, uint64_t answer)
{
    const uint8_t *b = s->bytes;
    fputs(s->side == KDR_CLIENT ? "C " : "S ", stdout);
    if (s->held < 4) {
        fputs("- ", stdout);
    } else {
        printf("%u ", (unsigned)b[0] << 24 | (unsigned)b[1] << 16 | (unsigned)b[2] << 8 | b[3]);
    }
    if (kdr_refused(answer)) {
        printf("refused %u: %s\n", kdr_refusal(answer), kdr_refusal_text(kdr_refusal(answer)));
    } else {
        printf("%u\n", (unsigned)answer);
    }
}

/* The line of a finished item; up to 3.0 its class and type are 0. */
static void tell_item(const uint8_t *item, const uint64_t *told)
{
    printf("  item, class %u, type %u, %u bytes: ", (unsigned)told[KDR_TOLD_CLASS],
           (unsigned)told[KDR_TOLD_TYPE], (unsigned)told[KDR_TOLD_LENGTH]);
    for (size_t i = 0; i < told[KDR_TOLD_LENGTH]; i++) {
        putchar(isprint(item[i]) ? item[i] : '.');
    }
    putchar('\n');
}

/* Joins a message that the session took, where it belongs to an item. The answer is 0 or joining's;
 * the session has seen to the order of the parts, so the one refusal left is 12. */
static uint64_t join(struct gateway *g, const struct stream *s)
{
    switch (g->fields[KDR_INSTRUCTION]) {
    case KDR_SessionParameters:
        g->major = g->fields[KDR_MAJOR];
        return 0;
    case KDR_QuerySucceeded: case KDR_GetNextItem:
        /* a delivery begins; what an earlier one left unfinished is dropped */
        return kdr_open(g->assembly, KDR_ASSEMBLY_FIELDS, g->major < 4 ? KDR_ITEM : KDR_TYPED_ITEM);
    case KDR_ItemStart: case KDR_ItemPart: case KDR_ItemEnd: case KDR_ResultEnd:
        if (g->fields[KDR_INSTRUCTION] == KDR_ResultEnd && !g->assembly[KDR_ASSEMBLY_BEGUN]) {
            return 0; /* ResultEnd alone: no item, and joining refuses an end before any part */
        }
        return kdr_join(g->assembly, KDR_ASSEMBLY_FIELDS, g->item, sizeof g->item,
                        s->side, s->bytes, s->held, g->told, KDR_TOLD_FIELDS);
    default:
        return 0;
    }
}

/* Offers the message in front of a stream to the session; one that is accepted, and joined where it
 * belongs to an item, is forwarded, told and dropped. */
static enum status offer(struct gateway *g, struct stream *from, const struct stream *to)
{
    uint64_t answer = kdr_step(g->session, KDR_SESSION_BYTES, from->side, from->bytes, from->held,
                               g->fields, KDR_FIELDS);
    uint64_t joined;
    if (kdr_refusal(answer) == KDR_MORE_BYTES && (!from->ended || from->held == 0)) {
        return from->ended ? ENDED : WAITING;
    }
    g->told[KDR_TOLD_WHAT] = KDR_NOTHING;
    joined = kdr_refused(answer) ? answer : join(g, from);
    if (kdr_refused(joined)) {
        tell(from, joined);
        return REFUSED;
    }
    forward(from, to, answer);
    tell(from, answer);
    if (g->told[KDR_TOLD_WHAT] != KDR_NOTHING) {
        tell_item(g->item, g->told);
    }
    from->held -= answer;
    memmove(from->bytes, from->bytes + answer, from->held);
    return TAKEN;
}

/* Takes the next message. What a side has sent while the other has the turn came ahead of its turn:
 * it was sent before the message that passes the turn on was forwarded. So that is offered first;
 * the session takes ErrorResponse of the server there, and refuses all else. Were the side at turn
 * asked first, its GetNextItem would be taken, and a stray ItemPart that had come before it would
 * be joined to the next item. What is not whole yet is waited for, for the same reason. (A stray
 * that comes between the look, relay's, and the write, or is still on its way then, cannot be told
 * from an answer.) */
static enum status take(struct gateway *g, uint8_t turn)
{
    struct stream *due = turn == KDR_CLIENT ? &g->client : &g->server;
    struct stream *other = turn == KDR_CLIENT ? &g->server : &g->client;
    if (other->held > 0) {
        return offer(g, other, due);
    }
    if (other == &g->server && other->ended) {
        return ENDED; /* no conversation ends without a message of the server */
    }
    return offer(g, due, other);
}

/* Takes messages until the conversation is over or nothing more can be taken. Ahead of each it
 * looks: what has come is read, and what came ahead of its turn by then is seen. */
static enum status relay(struct gateway *g)
{
    enum status status = TAKEN;
    kdr_fresh(g->session, KDR_SESSION_BYTES);
    while (status == TAKEN || status == WAITING) {
        uint8_t turn = kdr_turn(g->session, KDR_SESSION_BYTES);
        if (turn == KDR_NOBODY) {
            return CLOSED;
        }
        receive_both(g, status == WAITING);
        status = take(g, turn);
    }
    return status;
}

int main(void)
{
    static struct gateway g; /* zeros are an assembly in which nothing is open */
    enum status status;
    g.client.side = KDR_CLIENT;
    g.client.socket = 3;
    g.server.side = KDR_SERVER;
    g.server.socket = 4;
    signal(SIGPIPE, SIG_IGN); /* a write that fails says so */
    setvbuf(stdout, NULL, _IOLBF, BUFSIZ);
    status = relay(&g);
    puts(status == CLOSED ? "closed" : "open");
    if (fflush(stdout) != 0 || ferror(stdout)) {
        give_up("report");
    }
    return (int)status;
}
