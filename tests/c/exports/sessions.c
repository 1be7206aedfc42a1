/* The session: kdr_fresh, kdr_step, kdr_closed and kdr_turn. */
#include "check.h"

/* A record that is lent, and behind it bytes that are not. */
static void fresh(void)
{
    lend();
    CHECK(kdr_fresh(lent.session, KDR_SESSION_BYTES) == 0);
    CHECK(left_alone(lent.session + KDR_SESSION_BYTES, sizeof lent.session - KDR_SESSION_BYTES));
    CHECK(kdr_closed(lent.session, KDR_SESSION_BYTES) == 0);
}

/* Steps with a message of an empty body; how it is refused, or 0. A refusal leaves record and
 * numbers. */
static unsigned step(uint8_t side, uint32_t instruction)
{
    struct lent before;
    uint8_t bytes[8];
    uint64_t answer;
    kdr_write_empty(bytes, sizeof bytes, instruction);
    before = lent;
    answer = kdr_step(lent.session, KDR_SESSION_BYTES, side, bytes, sizeof bytes, lent.numbers,
                      KDR_FIELDS);
    CHECK(kdr_refused(answer) || (answer == 8 && lent.numbers[KDR_INSTRUCTION] == instruction));
    CHECK(!kdr_refused(answer) || memcmp(&before, &lent, sizeof lent) == 0);
    return kdr_refusal(answer);
}

/* "StartUp; then ErrorResponse (end)": the shortest whole conversation, and 9 behind it. */
static void check_shortest(void)
{
    uint8_t error[32];
    size_t n = from_hex(error, "00000064 0000000A 00000001 00 00000001 78");
    fresh();
    CHECK(step(KDR_CLIENT, KDR_Begin) == KDR_OUT_OF_ORDER);
    CHECK(step(KDR_CLIENT, KDR_StartUp) == 0);
    CHECK(kdr_closed(lent.session, KDR_SESSION_BYTES) == 0);
    CHECK(step(KDR_CLIENT, KDR_StartUp) == KDR_OUT_OF_ORDER);
    fill(lent.numbers, sizeof lent.numbers);
    CHECK(kdr_step(lent.session, KDR_SESSION_BYTES, KDR_SERVER, error, sizeof error, lent.numbers,
                   KDR_FIELDS) == n);
    TOLD(KDR_ErrorResponse, KDR_SHAPE_CODED, 1, 0, 17, 1, 0, 0, 0, 0);
    CHECK(kdr_closed(lent.session, KDR_SESSION_BYTES) == 1);
    CHECK(step(KDR_CLIENT, KDR_StartUp) == KDR_OUT_OF_ORDER);
    CHECK(step(KDR_SERVER, KDR_CloseOk) == KDR_OUT_OF_ORDER);
    CHECK(kdr_closed(lent.session, KDR_SESSION_BYTES) == 1);
}

/* Up to AuthenticationOk, in the version that SessionParameters names. */
static void start(uint8_t major)
{
    uint8_t bytes[32];
    uint64_t n = kdr_write_session(bytes, sizeof bytes, 120, major, 0, TEXT("u"), TEXT("d"));
    fresh();
    CHECK(step(KDR_CLIENT, KDR_StartUp) == 0);
    CHECK(step(KDR_SERVER, KDR_SendSessionParameters) == 0);
    CHECK(kdr_step(lent.session, 2, KDR_CLIENT, bytes, n, lent.numbers, KDR_FIELDS) == n);
    CHECK(lent.numbers[KDR_MAJOR] == major);
    CHECK(step(KDR_SERVER, KDR_SendAuthParameters) == 0);
    n = kdr_write_text(bytes, sizeof bytes, KDR_AuthenticationParameters, TEXT("p"));
    CHECK(kdr_step(lent.session, 2, KDR_CLIENT, bytes, n, lent.numbers, KDR_FIELDS) == n);
    CHECK(step(KDR_SERVER, KDR_AuthenticationOk) == 0);
}

/* Options "from 3.0". */
static void check_version(uint8_t major, unsigned refusal)
{
    start(major);
    CHECK(step(KDR_CLIENT, KDR_ResetOptions) == refusal);
    if (refusal == 0) {
        CHECK(step(KDR_SERVER, KDR_ResetOptionsOk) == 0);
    }
    CHECK(step(KDR_CLIENT, KDR_Close) == 0);
    CHECK(step(KDR_SERVER, KDR_CloseOk) == 0);
    CHECK(kdr_closed(lent.session, KDR_SESSION_BYTES) == 1);
}

/* A message of each body that a conversation has, with short texts. */
static uint64_t put(uint8_t *bytes, uint32_t instruction)
{
    const size_t n = 32;
    switch (instruction) {
    case KDR_SessionParameters:
        return kdr_write_session(bytes, n, instruction, 4, 0, TEXT("u"), TEXT("d"));
    case KDR_Execute: case KDR_ExecuteLong:
        return kdr_write_statement(bytes, n, instruction, 0, TEXT("1"));
    case KDR_AuthenticationParameters: case KDR_ItemPart: case KDR_BulkLoadFileName:
    case KDR_BulkLoadPortion: case KDR_LastQueryTime:
        return kdr_write_text(bytes, n, instruction, TEXT("x"));
    case KDR_ItemStart:
        return kdr_write_item(bytes, n, instruction, 1, 0, TEXT("x"));
    case KDR_SetOptions:
        return kdr_write_options(bytes, n, instruction, NULL, 0, NULL, 0, NO_TEXT);
    case KDR_DebugInfo: case KDR_ErrorResponse: case KDR_BeginFailed: case KDR_QueryFailed:
    case KDR_BulkLoadError: case KDR_BulkLoadFailed:
        return kdr_write_coded(bytes, n, instruction, 1, TEXT("x"));
    default:
        return kdr_write_empty(bytes, n, instruction);
    }
}

/* A conversation of 4.0: who sends what, and whose turn it is then. */
static const struct {
    uint8_t side;
    uint32_t instruction;
    uint8_t turn;
} TURNS[] = {
    {KDR_CLIENT, KDR_StartUp, KDR_SERVER},
    {KDR_SERVER, KDR_SendSessionParameters, KDR_CLIENT},
    {KDR_CLIENT, KDR_SessionParameters, KDR_SERVER},
    {KDR_SERVER, KDR_SendAuthParameters, KDR_CLIENT},
    {KDR_CLIENT, KDR_AuthenticationParameters, KDR_SERVER},
    {KDR_SERVER, KDR_AuthenticationOk, KDR_CLIENT},
    /* side exchanges and transactions */
    {KDR_CLIENT, KDR_ShowTime, KDR_SERVER},
    {KDR_SERVER, KDR_LastQueryTime, KDR_CLIENT},
    {KDR_CLIENT, KDR_SetOptions, KDR_SERVER},
    {KDR_SERVER, KDR_SetOptionsOk, KDR_CLIENT},
    {KDR_CLIENT, KDR_Begin, KDR_SERVER},
    {KDR_SERVER, KDR_BeginFailed, KDR_CLIENT},
    {KDR_CLIENT, KDR_Begin, KDR_SERVER},
    {KDR_SERVER, KDR_BeginOk, KDR_CLIENT},
    /* a long statement is the client's until its end; DebugInfo leaves the turn where it was */
    {KDR_CLIENT, KDR_ExecuteLong, KDR_CLIENT},
    {KDR_CLIENT, KDR_ExecuteLong, KDR_CLIENT},
    {KDR_CLIENT, KDR_LongQueryEnd, KDR_SERVER},
    {KDR_SERVER, KDR_DebugInfo, KDR_SERVER},
    {KDR_SERVER, KDR_UpdateSucceeded, KDR_CLIENT},
    {KDR_CLIENT, KDR_Execute, KDR_SERVER},
    {KDR_SERVER, KDR_QueryFailed, KDR_CLIENT},
    /* a delivery is the server's until ItemEnd or ResultEnd */
    {KDR_CLIENT, KDR_Execute, KDR_SERVER},
    {KDR_SERVER, KDR_QuerySucceeded, KDR_SERVER},
    {KDR_SERVER, KDR_DebugInfo, KDR_SERVER},
    {KDR_SERVER, KDR_ItemStart, KDR_SERVER},
    {KDR_SERVER, KDR_DebugInfo, KDR_SERVER},
    {KDR_SERVER, KDR_ItemPart, KDR_SERVER},
    {KDR_SERVER, KDR_ItemEnd, KDR_CLIENT},
    {KDR_CLIENT, KDR_GetNextItem, KDR_SERVER},
    {KDR_SERVER, KDR_ItemStart, KDR_SERVER},
    {KDR_SERVER, KDR_ResultEnd, KDR_CLIENT},
    {KDR_CLIENT, KDR_GetNextItem, KDR_SERVER},
    {KDR_SERVER, KDR_DebugInfo, KDR_SERVER},
    {KDR_SERVER, KDR_ResultEnd, KDR_CLIENT},
    /* a file is the client's until its end; then another, asked for by the server */
    {KDR_CLIENT, KDR_Execute, KDR_SERVER},
    {KDR_SERVER, KDR_BulkLoadFileName, KDR_CLIENT},
    {KDR_CLIENT, KDR_BulkLoadPortion, KDR_CLIENT},
    {KDR_CLIENT, KDR_BulkLoadPortion, KDR_CLIENT},
    {KDR_CLIENT, KDR_BulkLoadEnd, KDR_SERVER},
    {KDR_SERVER, KDR_BulkLoadFileName, KDR_CLIENT},
    {KDR_CLIENT, KDR_BulkLoadEnd, KDR_SERVER},
    {KDR_SERVER, KDR_BulkLoadSucceeded, KDR_CLIENT},
    /* or until BulkLoadError, which gives the turn away half way through */
    {KDR_CLIENT, KDR_Execute, KDR_SERVER},
    {KDR_SERVER, KDR_BulkLoadFromStream, KDR_CLIENT},
    {KDR_CLIENT, KDR_BulkLoadPortion, KDR_CLIENT},
    {KDR_CLIENT, KDR_BulkLoadError, KDR_SERVER},
    {KDR_SERVER, KDR_BulkLoadFailed, KDR_CLIENT},
    /* at the server's turn ErrorResponse ends the exchange */
    {KDR_CLIENT, KDR_Commit, KDR_SERVER},
    {KDR_SERVER, KDR_ErrorResponse, KDR_CLIENT},
    {KDR_CLIENT, KDR_Close, KDR_SERVER},
    {KDR_SERVER, KDR_RollbackBeforeClose, KDR_NOBODY},
};
enum { TURN_COUNT = sizeof TURNS / sizeof *TURNS };

/* Offers a message to a session; how it is refused, or 0. */
static unsigned offer(uint8_t *session, uint8_t side, uint32_t instruction)
{
    uint8_t bytes[32];
    uint64_t n = put(bytes, instruction);
    CHECK(!kdr_refused(n));
    return kdr_refusal(kdr_step(session, 2, side, bytes, n, lent.numbers, KDR_FIELDS));
}

/* At each place: whose turn it is, and what ErrorResponse does there. Ahead of StartUp it is 9; at
 * the client's turn it ends the conversation; at the end all is 9. */
static void check_place(uint8_t turn, bool begun)
{
    uint8_t other[KDR_SESSION_BYTES];
    memcpy(other, lent.session, sizeof other);
    CHECK(kdr_turn(lent.session, KDR_SESSION_BYTES) == turn);
    CHECK(kdr_turn(lent.session, KDR_SESSION_BYTES - 1) == KDR_NOBODY);
    CHECK((kdr_closed(lent.session, KDR_SESSION_BYTES) == 1) == (turn == KDR_NOBODY));
    if (turn != KDR_SERVER) {
        unsigned refusal = offer(other, KDR_SERVER, KDR_ErrorResponse);
        CHECK(refusal == (begun && turn == KDR_CLIENT ? 0 : KDR_OUT_OF_ORDER));
        CHECK(refusal != 0 || kdr_turn(other, KDR_SESSION_BYTES) == KDR_NOBODY);
    }
}

/* Every message of the conversation is the side's whose turn it is, and sent by the other it would
 * be refused; a refusal leaves the turn. */
static void check_turns(void)
{
    fresh();
    check_place(KDR_CLIENT, false);
    CHECK(kdr_turn(NULL, 0) == KDR_NOBODY);
    for (size_t i = 0; i < TURN_COUNT; i++) {
        uint8_t turn = kdr_turn(lent.session, KDR_SESSION_BYTES);
        uint32_t early = TURNS[i].side == KDR_CLIENT ? KDR_ItemPart : KDR_Commit;
        uint8_t ahead = TURNS[i].side == KDR_CLIENT ? KDR_SERVER : KDR_CLIENT;
        CHECK(turn == TURNS[i].side);
        CHECK(offer(lent.session, ahead, early) == KDR_OUT_OF_ORDER);
        CHECK(kdr_turn(lent.session, KDR_SESSION_BYTES) == turn);
        CHECK(offer(lent.session, TURNS[i].side, TURNS[i].instruction) == 0);
        check_place(TURNS[i].turn, true);
    }
}

/* Accepted by the session that is lent, and refused by it with 9. */
#define TAKEN(side, instruction) CHECK(offer(lent.session, side, instruction) == 0)
#define NINE(side, instruction) CHECK(offer(lent.session, side, instruction) == KDR_OUT_OF_ORDER)

/* "BulkLoadError may stand after any number of portions instead of BulkLoadEnd", in the first file
 * and in a further one. Behind it comes BulkLoadFailed, or ErrorResponse, and the transaction goes
 * on. */
static void check_lost_file(uint8_t major, bool further, unsigned portions, uint32_t answer)
{
    start(major);
    TAKEN(KDR_CLIENT, KDR_Begin);
    TAKEN(KDR_SERVER, KDR_BeginOk);
    TAKEN(KDR_CLIENT, KDR_Execute);
    TAKEN(KDR_SERVER, KDR_BulkLoadFileName);
    if (further) {
        TAKEN(KDR_CLIENT, KDR_BulkLoadEnd);
        TAKEN(KDR_SERVER, KDR_BulkLoadFileName);
    }
    for (unsigned i = 0; i < portions; i++) {
        TAKEN(KDR_CLIENT, KDR_BulkLoadPortion);
    }
    TAKEN(KDR_CLIENT, KDR_BulkLoadError);
    CHECK(kdr_turn(lent.session, KDR_SESSION_BYTES) == KDR_SERVER);
    NINE(KDR_CLIENT, KDR_BulkLoadPortion);
    NINE(KDR_CLIENT, KDR_BulkLoadEnd);
    NINE(KDR_CLIENT, KDR_BulkLoadError);
    NINE(KDR_SERVER, KDR_BulkLoadSucceeded);
    NINE(KDR_SERVER, KDR_BulkLoadFileName);
    NINE(KDR_SERVER, KDR_BulkLoadFromStream);
    TAKEN(KDR_SERVER, answer);
    NINE(KDR_CLIENT, KDR_BulkLoadPortion);
    TAKEN(KDR_CLIENT, KDR_Commit);
}

static void check_lost_files(void)
{
    for (uint8_t major = 1; major <= 4; major++) {
        for (unsigned portions = 0; portions <= 2; portions++) {
            for (unsigned further = 0; further <= (major >= 2); further++) {
                check_lost_file(major, further, portions, KDR_BulkLoadFailed);
                check_lost_file(major, further, portions, KDR_ErrorResponse);
            }
        }
    }
}

/* A first byte that no session has: nobody's turn, though it is not closed, and all is 9. */
static void check_no_session(void)
{
    for (unsigned first = 31; first <= 255; first++) {
        uint8_t session[KDR_SESSION_BYTES] = {(uint8_t)first, 4};
        CHECK(kdr_turn(session, KDR_SESSION_BYTES) == KDR_NOBODY);
        CHECK(kdr_closed(session, KDR_SESSION_BYTES) == 0);
        for (size_t i = 0; i < TURN_COUNT; i++) {
            CHECK(offer(session, TURNS[i].side, TURNS[i].instruction) == KDR_OUT_OF_ORDER);
        }
    }
}

/* A fresh session is offered this, and is as fresh behind it. */
#define STEP_REFUSED(number, session_len, side, bytes, len, fields_len)                          \
    do {                                                                                         \
        struct lent before;                                                                      \
        fresh();                                                                                 \
        before = lent;                                                                           \
        CHECK(kdr_step(lent.session, session_len, side, bytes, len, lent.numbers, fields_len) == \
              KDR_REFUSED + (number));                                                           \
        CHECK(memcmp(&before, &lent, sizeof lent) == 0);                                         \
    } while (0)

static void check_step_refusals(void)
{
    uint8_t start_up[8], bad[16];
    size_t n = from_hex(bad, "0000006E 00000001 78");
    from_hex(start_up, "0000006E 00000000");
    STEP_REFUSED(KDR_NO_ROOM, 1, 0, NULL, 0, 0);
    STEP_REFUSED(KDR_NO_ROOM, 0, KDR_CLIENT, start_up, 8, KDR_FIELDS);
    STEP_REFUSED(KDR_VALUE_NOT_ALLOWED, 2, 0, start_up, 8, KDR_FIELDS);
    STEP_REFUSED(KDR_VALUE_NOT_ALLOWED, 2, 3, NULL, 0, 0);
    STEP_REFUSED(KDR_MORE_BYTES, 2, KDR_CLIENT, start_up, 7, KDR_FIELDS);
    STEP_REFUSED(KDR_MORE_BYTES, 2, KDR_CLIENT, NULL, 0, 0);
    STEP_REFUSED(KDR_OTHER_SIDE, 2, KDR_SERVER, start_up, 8, KDR_FIELDS);
    STEP_REFUSED(KDR_BYTES_LEFT_OVER, 2, KDR_CLIENT, bad, n, KDR_FIELDS);
    STEP_REFUSED(KDR_NO_ROOM, 2, KDR_CLIENT, start_up, 8, KDR_FIELDS - 1);
    bad[3] = KDR_Begin; /* which is out of order too: 7 is ahead of 9 .. */
    STEP_REFUSED(KDR_BYTES_LEFT_OVER, 2, KDR_CLIENT, bad, n, KDR_FIELDS);
    bad[7] = 0; /* .. and 9 ahead of 10 */
    STEP_REFUSED(KDR_OUT_OF_ORDER, 2, KDR_CLIENT, bad, n, 0);
    REFUSED(KDR_NO_ROOM, kdr_fresh(lent.session, KDR_SESSION_BYTES - 1));
    REFUSED(KDR_NO_ROOM, kdr_fresh(NULL, 0));
    CHECK(kdr_closed(lent.session, 1) == 0);
    CHECK(kdr_closed(NULL, 0) == 0);
}

void check_sessions(void)
{
    check_shortest();
    check_version(2, KDR_OUT_OF_ORDER);
    check_version(3, 0);
    check_turns();
    check_lost_files();
    check_no_session();
    check_step_refusals();
}
