/* Keddorimp for C and C++: the Sedna client/server protocol, 1.0 to 4.0, and the BaseX protocol.
 *
 * The functions stand in four archives for x86-64, which `bindings/archive NAME` writes to
 * target/staticlib/libNAME.a:
 *
 *     sedna_c   reading and writing messages; the session
 *     parts_c   cutting and joining
 *     value_c   typed values of items, and the order of instants
 *     basex_c   BaseX strings, requests and responses
 *
 * `bindings/c/build NAME SOURCE..` builds a program over them.
 *
 * What is proved is the contract that each function has in the crate of that name, and again in the
 * one that makes the archive (sedna_archive for sedna_c). That this header declares the functions as
 * they are is not proved: it is written by hand, and tests/c/run calls each of them through it.
 * "Document 01" is the paper whose numbers and words these are; typed values, with refusals 15 and
 * 16, are request 1 of "document 02", and a file that ends with BulkLoadError after some of its
 * portions is request 2.
 *
 * Lent memory. A slice passes as a pointer to its first element and the number of its elements, one
 * argument behind the other. The proofs rest on what a caller in C has to see to: so many elements
 * are there and aligned for their type, and memory that a call may write (any pointer without
 * `const`) overlaps nothing else that the same call is lent. Where the number is 0 the pointer may
 * be NULL, which the tests try and no proof speaks of. A length that no memory has is the caller's
 * error; what is promised of a text of (size_t)-1 bytes stands at the calls that write a message.
 *
 * Threads. The library keeps nothing between two calls and allocates nothing. So calls that are
 * lent different memory may run at once, on any threads; calls that are lent the same memory, one
 * of them to write it, need the caller's lock.
 *
 * Answers. An answer below 2^63 is a count (of bytes read or written, or of parts), one above it is
 * a refusal, its number on top of 2^63. Where a call has neither bytes nor parts to count, it is 0
 * or 1, as its comment says (kdr_fresh, kdr_open, kdr_option, kdr_basex_error), or says what the
 * value is (kdr_value); kdr_closed, kdr_turn and kdr_compare answer a plain number, and refuse
 * nothing. A refusal leaves every lent byte and number as it was, with one exception
 * (KDR_BUFFER_OVERRUN, at kdr_join). What is told beside the answer goes to the front of lent
 * numbers. The comments name the refusals in the order in which they are judged: a call that
 * deserves two gets the first.
 */
#ifndef KEDDORIMP_H
#define KEDDORIMP_H

#include <stdbool.h>
#include <stddef.h>
#include <stdint.h>

#ifdef __cplusplus
extern "C" {
#endif

/* The archives take a length in 64 bits: a line that does not compile where size_t has fewer. */
typedef char kdr_a_length_has_64_bits[sizeof(size_t) == 8 ? 1 : -1];

/* The version of this header and of the archives that it was written for. */
#define KDR_VERSION_MAJOR 0
#define KDR_VERSION_MINOR 3
#define KDR_VERSION_PATCH 0
#define KDR_VERSION "0.3.0"

/* ---- Refusals ---- */

/* Document 01's "Refusal numbers", and document 02's, which join them; kdr_refusal_text has their
 * words. */
enum kdr_refusal_number {
    KDR_MORE_BYTES = 1,
    KDR_UNKNOWN_INSTRUCTION = 2,
    KDR_OTHER_SIDE = 3,
    KDR_BODY_TOO_LONG = 4,
    KDR_FIELD_CUT = 5,
    KDR_STRING_FORMAT = 6,
    KDR_BYTES_LEFT_OVER = 7,
    KDR_VALUE_NOT_ALLOWED = 8,
    KDR_OUT_OF_ORDER = 9,
    KDR_NO_ROOM = 10,
    KDR_NO_ENCODING = 11,
    KDR_BUFFER_OVERRUN = 12,
    KDR_BAD_ESCAPE = 13,
    KDR_NO_SUCH_PART = 14,
    KDR_NOT_OF_FORM = 15,
    KDR_OUT_OF_RANGE = 16
};

/* What a refusal's number stands on top of. No memory has half as many bytes, so no count gets
 * there. */
#define KDR_REFUSED ((uint64_t)1 << 63)

/* Whether an answer is a refusal. */
static inline bool kdr_refused(uint64_t answer)
{
    return answer >= KDR_REFUSED;
}

/* The number of the refusal, and 0 for an answer that is none. */
static inline unsigned kdr_refusal(uint64_t answer)
{
    return kdr_refused(answer) ? (unsigned)(answer - KDR_REFUSED) : 0;
}

/* The documents' words for the number of a refusal; any other number has none, and is told so. */
static inline const char *kdr_refusal_text(unsigned number)
{
    switch (number) {
    case KDR_MORE_BYTES: return "more bytes are needed";
    case KDR_UNKNOWN_INSTRUCTION: return "unknown instruction, or BaseX first byte";
    case KDR_OTHER_SIDE: return "instruction of the other side";
    case KDR_BODY_TOO_LONG: return "body length above 10,240";
    case KDR_FIELD_CUT: return "the body ends inside a field";
    case KDR_STRING_FORMAT: return "string format byte not 0";
    case KDR_BYTES_LEFT_OVER: return "bytes left over";
    case KDR_VALUE_NOT_ALLOWED: return "value not allowed";
    case KDR_OUT_OF_ORDER: return "no conversation goes on with this message; a part or an end "
                                  "that no open gathering takes";
    case KDR_NO_ROOM: return "lent output shorter than the bytes to be put there";
    case KDR_NO_ENCODING: return "value has no encoding (body above 10,240; BaseX command start)";
    case KDR_BUFFER_OVERRUN: return "item or statement longer than its gathering buffer";
    case KDR_BAD_ESCAPE: return "FF followed by a byte other than 00 or FF";
    case KDR_NO_SUCH_PART: return "no such part of a cut";
    case KDR_NOT_OF_FORM: return "another class, a type not named, or text not of its form";
    case KDR_OUT_OF_RANGE: return "value out of range, a missing zone, more digits than named, or "
                                  "a double with an exponent, INF or NaN";
    default: return "there is no such refusal";
    }
}

/* ---- Sedna messages ---- */

/* Who sent a message, and whose turn it is. */
enum kdr_side {
    KDR_NOBODY = 0, /* of a turn alone: nobody's */
    KDR_CLIENT = 1,
    KDR_SERVER = 2
};

/* Document 01's 46 instructions, in the rows of its table and spelled as it spells them, so that a
 * name can be looked up there. */
enum kdr_instruction {
    /* client, empty */
    KDR_StartUp = 110,
    KDR_Begin = 210,
    KDR_Commit = 220,
    KDR_Rollback = 225,
    KDR_LongQueryEnd = 302,
    KDR_GetNextItem = 310,
    KDR_BulkLoadEnd = 420,
    KDR_ShowTime = 451,
    KDR_Close = 500,
    KDR_ResetOptions = 550,
    /* client, major byte, minor byte, user, database */
    KDR_SessionParameters = 120,
    /* client, one string */
    KDR_AuthenticationParameters = 130,
    KDR_BulkLoadPortion = 410,
    /* client, format byte (0 or 1), text */
    KDR_Execute = 300,
    KDR_ExecuteLong = 301,
    /* client, int code, string */
    KDR_BulkLoadError = 400,
    /* client, any number of: int id, string */
    KDR_SetOptions = 530,
    /* server, empty */
    KDR_SendSessionParameters = 140,
    KDR_SendAuthParameters = 150,
    KDR_AuthenticationOk = 160,
    KDR_BeginOk = 230,
    KDR_CommitOk = 250,
    KDR_RollbackOk = 255,
    KDR_QuerySucceeded = 320,
    KDR_UpdateSucceeded = 340,
    KDR_ItemEnd = 370,
    KDR_ResultEnd = 375,
    KDR_BulkLoadFromStream = 431,
    KDR_BulkLoadSucceeded = 440,
    KDR_CloseOk = 510,
    KDR_RollbackBeforeClose = 520,
    KDR_SetOptionsOk = 540,
    KDR_ResetOptionsOk = 560,
    /* server, int code, string */
    KDR_ErrorResponse = 100,
    KDR_AuthenticationFailed = 170,
    KDR_BeginFailed = 240,
    KDR_CommitFailed = 260,
    KDR_RollbackFailed = 265,
    KDR_DebugInfo = 325,
    KDR_QueryFailed = 330,
    KDR_UpdateFailed = 350,
    KDR_BulkLoadFailed = 450,
    /* server, one string */
    KDR_ItemPart = 360,
    KDR_BulkLoadFileName = 430,
    KDR_LastQueryTime = 452,
    /* server, class, type, URL flag, [URL], part */
    KDR_ItemStart = 355
};

/* What a body is made of. */
enum kdr_shape {
    KDR_SHAPE_EMPTY = 0,
    KDR_SHAPE_SESSION = 1,   /* major byte, minor byte, user, database */
    KDR_SHAPE_TEXT = 2,      /* one string */
    KDR_SHAPE_STATEMENT = 3, /* format byte, text */
    KDR_SHAPE_CODED = 4,     /* int code, string */
    KDR_SHAPE_OPTIONS = 5,   /* any number of: int id, string */
    KDR_SHAPE_ITEM = 6       /* class, type, URL flag, [URL], part */
};

/* The longest body, and the longest message: a buffer of so many bytes holds any. */
enum {
    KDR_BODY_MAX = 10240,
    KDR_MESSAGE_MAX = 8 + KDR_BODY_MAX
};

/* The ten numbers of a message that was read. A start counts from the first of the bytes that it
 * was read from; numbers that a shape does not use are 0. By shape they are:
 *
 *                 NUMBER_1  NUMBER_2  START_1, LENGTH_1        START_2, LENGTH_2  COUNT    HAS_URL
 *     EMPTY
 *     SESSION     major     minor     user                     database
 *     TEXT                            text
 *     STATEMENT   format              text
 *     CODED       code                text
 *     OPTIONS                         the body (kdr_option)                       options
 *     ITEM        class     type      part                     URL                         0 or 1
 */
enum kdr_field {
    KDR_INSTRUCTION = 0,
    KDR_SHAPE = 1,
    KDR_NUMBER_1 = 2,
    KDR_NUMBER_2 = 3,
    KDR_START_1 = 4,
    KDR_LENGTH_1 = 5,
    KDR_START_2 = 6,
    KDR_LENGTH_2 = 7,
    KDR_COUNT = 8,
    KDR_HAS_URL = 9,
    KDR_FIELDS = 10, /* how many there are */

    /* the same by what they are */
    KDR_MAJOR = KDR_NUMBER_1,
    KDR_MINOR = KDR_NUMBER_2,
    KDR_FORMAT = KDR_NUMBER_1,
    KDR_CODE = KDR_NUMBER_1,
    KDR_CLASS = KDR_NUMBER_1,
    KDR_TYPE = KDR_NUMBER_2,
    KDR_URL_START = KDR_START_2,
    KDR_URL_LENGTH = KDR_LENGTH_2
};

/* ---- Reading and writing messages (sedna_c) ---- */

/* Reads the message at the front of `bytes`, which `side` sent. The answer is how many bytes it
 * has; what stands behind it is not looked at, and nothing is copied: `fields` gets the ten
 * numbers. Refused: 8 for a side that is none; then 1 to 8 in document 01's order; last 10 where
 * fewer than ten numbers are lent. */
uint64_t kdr_read(uint8_t side, const uint8_t *bytes, size_t bytes_len,
                  uint64_t *fields, size_t fields_len);

/* What kdr_option tells of an option. */
enum kdr_option_field {
    KDR_OPTION_ID = 0,
    KDR_OPTION_START = 1,  /* where its value stands in `bytes`, */
    KDR_OPTION_LENGTH = 2, /* and how long it is */
    KDR_OPTION_FIELDS = 3
};

/* The option number k, from 0, of a SetOptions that was read from `bytes`: `start` and `length` are
 * its fields START_1 and LENGTH_1. The answer is 1, and `fields` gets three numbers; it is 0 where
 * there is no such option. Refused: 10 where there is one and fewer than three numbers are lent.
 * Each call walks from the first option. */
uint64_t kdr_option(const uint8_t *bytes, size_t bytes_len, size_t start, size_t length, size_t k,
                    uint64_t *fields, size_t fields_len);

/* Writing puts a message in front of `out`; the answer is how many bytes it has. One function for
 * each shape of body, and the instruction has to be one of that shape. Refused, for each of them: 2
 * for an instruction that document 01 does not have; 8 for one of another shape, and for a value
 * that is not allowed; 11 for a body above 10,240 bytes; 10 for an output that is too short. A text
 * of (size_t)-1 bytes, though no memory has so many, gets 11 (options 8, where their lengths do not
 * add up to it), and no byte of it is read; the tests try that, and no proof speaks of it. */

/* StartUp and the other 25 that have no body; only 2, 8 and 10 are left. */
uint64_t kdr_write_empty(uint8_t *out, size_t out_len, uint32_t instruction);

/* SessionParameters. Versions 1.0, 2.0, 3.0 and 4.0 are allowed. */
uint64_t kdr_write_session(uint8_t *out, size_t out_len, uint32_t instruction,
                           uint8_t major, uint8_t minor,
                           const uint8_t *user, size_t user_len,
                           const uint8_t *database, size_t database_len);

/* AuthenticationParameters, BulkLoadPortion, ItemPart, BulkLoadFileName and LastQueryTime. */
uint64_t kdr_write_text(uint8_t *out, size_t out_len, uint32_t instruction,
                        const uint8_t *text, size_t text_len);

/* Execute and ExecuteLong. Formats 0 and 1 are allowed. */
uint64_t kdr_write_statement(uint8_t *out, size_t out_len, uint32_t instruction, uint8_t format,
                             const uint8_t *text, size_t text_len);

/* BulkLoadError, ErrorResponse, DebugInfo and the messages that say that something failed. */
uint64_t kdr_write_coded(uint8_t *out, size_t out_len, uint32_t instruction, uint32_t code,
                         const uint8_t *text, size_t text_len);

/* SetOptions. Option k has ids[k] and the next lengths[k] bytes of `values`. Lists that do not
 * belong together (another number of lengths than of ids, lengths that do not add up to the values)
 * are a value that is not allowed: 8. */
uint64_t kdr_write_options(uint8_t *out, size_t out_len, uint32_t instruction,
                           const uint32_t *ids, size_t ids_len,
                           const size_t *lengths, size_t lengths_len,
                           const uint8_t *values, size_t values_len);

/* ItemStart without a URL. Classes 1 to 8 and types 0-6, 10-32 and 41-61 are allowed. (The names
 * are longer than document 01's because `class` is a word of C++.) */
uint64_t kdr_write_item(uint8_t *out, size_t out_len, uint32_t instruction,
                        uint8_t item_class, uint8_t item_type,
                        const uint8_t *part, size_t part_len);

/* ItemStart with a URL, which may be empty. */
uint64_t kdr_write_item_url(uint8_t *out, size_t out_len, uint32_t instruction,
                            uint8_t item_class, uint8_t item_type,
                            const uint8_t *url, size_t url_len,
                            const uint8_t *part, size_t part_len);

/* ---- The session (sedna_c) ---- */

/* The bytes of a session. The caller keeps them from step to step and may copy them; they belong to
 * the library, and mean something only to the four functions here. They do not outlive a version:
 * what 0.2.0 left means something else to 0.3.0. */
enum {
    KDR_SESSION_BYTES = 2
};

/* Puts a fresh session into the first two bytes; the answer is 0. Refused: 10 for fewer bytes. */
uint64_t kdr_fresh(uint8_t *session, size_t session_len);

/* Offers the message at the front of `bytes`, which `side` sent, to the session. Where the
 * conversation goes on with it, the answer and `fields` are those of kdr_read, and the session is
 * the one behind that message. Refused: 10 where fewer than two bytes of a session are lent; 8 for
 * a side that is none; then 1 to 8 as in reading; 9 where no conversation goes on with the message;
 * last 10 where fewer than ten numbers are lent, and then the session is not stepped either.
 *
 * In a file BulkLoadError is accepted after any number of portions (up to 0.2.0 only in place of
 * all of them); behind it only BulkLoadFailed or ErrorResponse is. */
uint64_t kdr_step(uint8_t *session, size_t session_len, uint8_t side,
                  const uint8_t *bytes, size_t bytes_len, uint64_t *fields, size_t fields_len);

/* 1 where the conversation is over, else 0; 0 also where fewer than two bytes are lent. */
uint8_t kdr_closed(const uint8_t *session, size_t session_len);

/* Whose turn it is: KDR_CLIENT or KDR_SERVER; KDR_NOBODY where the conversation is over. It is
 * KDR_NOBODY also where fewer than two bytes are lent, and where no session has the first of them;
 * kdr_closed is 0 there. The side at turn is the one to wait for. What the other has sent came
 * ahead of its turn: the session takes ErrorResponse of the server at the client's turn (after
 * StartUp), which ends the conversation, and refuses all else. On live streams offer that first,
 * and take nothing from the side at turn before it is judged: at a 1 wait for the rest, at any
 * other refusal stop. Offered again later, it may be taken for the answer to what was asked after
 * it was sent (bindings/c/gateway.c). */
uint8_t kdr_turn(const uint8_t *session, size_t session_len);

/* ---- Cutting (parts_c) ---- */

/* The first four tell how many messages a text of n bytes is cut into. An item's end, ItemEnd or
 * ResultEnd, is no part, and does not count. */

/* A statement. LongQueryEnd counts: 10,234 bytes give one message, 10,235 give three. */
uint64_t kdr_statement_parts(size_t n);

/* An item up to 3.0. */
uint64_t kdr_item_parts(size_t n);

/* An item of 4.0 without a URL. */
uint64_t kdr_typed_item_parts(size_t n);

/* An item of 4.0 with a URL of url_len bytes. Refused: 11 where that is above 10,227, since the URL
 * then leaves no room. The other three are never refused. */
uint64_t kdr_typed_item_url_parts(size_t n, size_t url_len);

/* The others put part k, from 0, of the cut in front of `out`; the answer is how many bytes the
 * message has. Refused, for each of them: 8 for a value that is not allowed, whatever the part; 11
 * for a URL that leaves no room, whatever the part; 14 for a part beyond the last; 10 for an output
 * that is too short. KDR_MESSAGE_MAX bytes of output are always enough. */

/* A statement: Execute, or ExecuteLong parts and LongQueryEnd. */
uint64_t kdr_write_statement_part(uint8_t *out, size_t out_len, uint8_t format,
                                  const uint8_t *text, size_t text_len, size_t k);

/* An item up to 3.0: ItemParts, at least one. */
uint64_t kdr_write_item_part(uint8_t *out, size_t out_len,
                             const uint8_t *text, size_t text_len, size_t k);

/* An item of 4.0 without a URL: ItemStart, then ItemParts. */
uint64_t kdr_write_typed_item_part(uint8_t *out, size_t out_len,
                                   uint8_t item_class, uint8_t item_type,
                                   const uint8_t *text, size_t text_len, size_t k);

/* The same with a URL, which goes into ItemStart. */
uint64_t kdr_write_typed_item_url_part(uint8_t *out, size_t out_len,
                                       uint8_t item_class, uint8_t item_type,
                                       const uint8_t *url, size_t url_len,
                                       const uint8_t *text, size_t text_len, size_t k);

/* ---- Joining (parts_c) ---- */

/* What is gathered. */
enum kdr_gathering {
    KDR_NOTHING = 0,
    KDR_STATEMENT = 1,
    KDR_ITEM = 2,      /* up to 3.0 */
    KDR_TYPED_ITEM = 3 /* of 4.0 */
};

/* The seven numbers of an assembly. The caller keeps them from message to message, beside the
 * buffer that is gathered in, and leaves both alone; to look is allowed. Seven zeros are an
 * assembly in which nothing is open. */
enum kdr_assembly_field {
    KDR_ASSEMBLY_WHAT = 0,   /* what is open, KDR_NOTHING to KDR_TYPED_ITEM */
    KDR_ASSEMBLY_BEGUN = 1,  /* 1 once a part was taken, until the end is; a refused part is not */
    KDR_ASSEMBLY_HELD = 2,   /* how many bytes the front of the buffer holds */
    KDR_ASSEMBLY_SPOILT = 3, /* 1 once the buffer was overrun */
    KDR_ASSEMBLY_FORMAT = 4,
    KDR_ASSEMBLY_CLASS = 5,
    KDR_ASSEMBLY_TYPE = 6,
    KDR_ASSEMBLY_FIELDS = 7
};

/* What kdr_join tells of a message that it took. */
enum kdr_told {
    KDR_TOLD_WHAT = 0,   /* KDR_NOTHING for a part, and the others are 0; else what is finished: */
    KDR_TOLD_LENGTH = 1, /* the first so many bytes of the buffer */
    KDR_TOLD_FORMAT = 2, /* of a statement, its first part's; */
    KDR_TOLD_CLASS = 2,  /* or of an item of 4.0, */
    KDR_TOLD_TYPE = 3,   /* with its type; what is not named is 0 */
    KDR_TOLD_FIELDS = 4
};

/* Puts a fresh opening into the first seven numbers; the answer is 0. What they held is dropped,
 * and they need not have held anything. `what` is KDR_STATEMENT, KDR_ITEM or KDR_TYPED_ITEM.
 * Refused: 10 where fewer than seven are lent; 8 for another `what`. */
uint64_t kdr_open(uint64_t *assembly, size_t assembly_len, uint64_t what);

/* Reads the message at the front of `bytes`, which `side` sent, and joins it to what is gathered.
 * The answer is how many bytes the message has, and `told` gets four numbers. An accepted end (for
 * a statement LongQueryEnd, or Execute, which is the sole part too; for an item ItemEnd or
 * ResultEnd) closes the assembly; the text is then in front of the buffer, and an item's URL is not
 * part of it. Refused: 10 where fewer than seven numbers or fewer than four to be told are lent; 8
 * for numbers that no assembly has (what is open above 3, begun or spoilt above 1, format, class or
 * type above 255); 8 for a side that is none; then 1 to 8 as in reading; 9 for a message that the
 * gathering does not take, an end before any part among them (so ResultEnd behind no item is 9); 12
 * for a part that overruns the buffer, which is then marked in the seven numbers: further parts and
 * the end get 12 as well, ahead of 9, until it is opened anew. A buffer that is shorter than what
 * is held is overrun by every part and by the end. */
uint64_t kdr_join(uint64_t *assembly, size_t assembly_len, uint8_t *buffer, size_t buffer_len,
                  uint8_t side, const uint8_t *bytes, size_t bytes_len,
                  uint64_t *told, size_t told_len);

/* ---- Typed values (value_c) ---- */

/* Sedna's numbers of the types that have a value, and no other type has one. The names are XML
 * Schema's, spelled as it spells them. */
enum kdr_item_type {
    KDR_TYPE_dateTime = 10,
    KDR_TYPE_double = 22,
    KDR_TYPE_integer = 24,
    KDR_TYPE_boolean = 25,
    KDR_TYPE_nonPositiveInteger = 50,
    KDR_TYPE_negativeInteger = 51,
    KDR_TYPE_long = 52,
    KDR_TYPE_int = 53,
    KDR_TYPE_short = 54,
    KDR_TYPE_byte = 55,
    KDR_TYPE_nonNegativeInteger = 56,
    KDR_TYPE_unsignedLong = 57,
    KDR_TYPE_unsignedInt = 58,
    KDR_TYPE_unsignedShort = 59,
    KDR_TYPE_unsignedByte = 60,
    KDR_TYPE_positiveInteger = 61
};

/* What a value is. */
enum kdr_value_kind {
    KDR_WHOLE = 1,
    KDR_INSTANT = 2,
    KDR_BOOLEAN = 3,
    KDR_DOUBLE = 4
};

/* The two numbers of a value; of a double both are 0. */
enum kdr_value_number {
    KDR_VALUE_WHOLE = 0,       /* the whole number; */
    KDR_VALUE_SECONDS = 0,     /* or of an instant, seconds from 1970-01-01T00:00:00Z, */
    KDR_VALUE_NANOSECONDS = 1, /* and 0 to 999,999,999 nanoseconds on top, before 1970 too; */
    KDR_VALUE_BOOLEAN = 0,     /* or 1 for yes and 0 for no; what is not named is 0 */
    KDR_VALUE_NUMBERS = 2
};

/* The value of an item of 4.0, by the class and type that kdr_join tells, and the joined text. The
 * answer is what it is, KDR_WHOLE to KDR_DOUBLE. `numbers` gets two numbers, and `real` one double,
 * which is 0.0 where the value is no double. In class 1 these types have values:
 *
 *     10            dateTime  an instant: years 0001 to 9999, a zone (Z, or -14:00 to +14:00), and
 *                             up to nine digits of a fraction; 24:00:00 is the next midnight
 *     22            double    an optional sign, and one to fifteen digits, with or without a point
 *                             among or beside them; -0 is negative zero
 *     24, 50 to 61  integer and the types made of it: an optional sign and any number of digits,
 *                             in the type's own range and in that of int64_t
 *     25            boolean   true, false, 1 or 0
 *
 * Refused: 15 for another class, another type, and a text that is not of its type's form (so a
 * space at either end, a day that the month lacks, a zone beyond 14:00); 16 for a text that is, and
 * whose value is out of range (so year 0000, negative years and years above 9999), that has no zone
 * or more digits than named, or that is a double with an exponent, INF or NaN; last 10 where fewer
 * than two numbers or no double are lent. */
uint64_t kdr_value(uint8_t item_class, uint8_t item_type, const uint8_t *text, size_t text_len,
                   int64_t *numbers, size_t numbers_len, double *real, size_t real_len);

/* How instant a lies to instant b, as C's comparison functions say it: -1 earlier, 0 the same, 1
 * later. It goes by the seconds, then by the nanoseconds, and by nothing else: texts with different
 * zones are compared by when they are. Now is what clock_gettime(CLOCK_REALTIME) gives: its tv_sec
 * and tv_nsec are an instant's numbers. A call is never refused; nanoseconds above 999,999,999,
 * which no value has, count as they are. */
int32_t kdr_compare(int64_t a_seconds, uint32_t a_nanoseconds,
                    int64_t b_seconds, uint32_t b_nanoseconds);

/* ---- BaseX (basex_c) ---- */

/* The first byte of a request, by document 01's names. Every byte from 0x20 to 0xFE is that of a
 * COMMAND. */
enum kdr_basex_kind {
    KDR_BASEX_QUERY = 0x00,
    KDR_BASEX_CLOSE = 0x02,
    KDR_BASEX_BIND = 0x03,
    KDR_BASEX_RESULTS = 0x04,
    KDR_BASEX_EXECUTE = 0x05,
    KDR_BASEX_INFO = 0x06,
    KDR_BASEX_OPTIONS = 0x07,
    KDR_BASEX_CREATE = 0x08,
    KDR_BASEX_ADD = 0x09,
    KDR_BASEX_PUT = 0x0C,
    KDR_BASEX_PUTBINARY = 0x0D,
    KDR_BASEX_CONTEXT = 0x0E,
    KDR_BASEX_UPDATING = 0x1E,
    KDR_BASEX_FULL = 0x1F,
    KDR_BASEX_COMMAND = 0x20
};

/* ---- BaseX strings (basex_c) ---- */

/* How many bytes the text takes as a string: FF before each 00 and FF, and 00 behind. It is never
 * refused. */
uint64_t kdr_basex_string_len(const uint8_t *text, size_t text_len);

/* Puts the text as a string into `out` from `at` on; the answer is how many bytes it takes.
 * Refused: 10 where it does not fit. */
uint64_t kdr_basex_write_string(uint8_t *out, size_t out_len, size_t at,
                                const uint8_t *text, size_t text_len);

/* What is told of a string that was read. */
enum kdr_basex_string_field {
    KDR_BASEX_STRING_LENGTH = 0, /* how long it is, decoded */
    KDR_BASEX_STRING_FIELDS = 1
};

/* Judges the string that starts at `at`, and stores nothing of it. The answer is how many bytes it
 * takes in `bytes`, and `told` gets one number. Refused: 13 as soon as the pair is there, an FF and
 * behind it a byte that is neither 00 nor FF, even where the end is missing; 1 where no such pair
 * is there and the end is missing; last 10 where no number is lent. So 1 means that bytes to come
 * may still make a string of it, here and wherever strings are read. */
uint64_t kdr_basex_string_at(const uint8_t *bytes, size_t bytes_len, size_t at,
                             uint64_t *told, size_t told_len);

/* The same, and the decoded string is put into `out` from `to` on; as many bytes there as `bytes`
 * has are always enough. Refused: 13 and 1 as there; last 10 where it does not fit or no number is
 * lent. */
uint64_t kdr_basex_decode(const uint8_t *bytes, size_t bytes_len, size_t at,
                          uint8_t *out, size_t out_len, size_t to,
                          uint64_t *told, size_t told_len);

/* ---- BaseX requests (basex_c) ---- */

/* What is told of a request that was read. Lengths of texts that its kind does not have are 0. */
enum kdr_basex_request_field {
    KDR_BASEX_REQUEST_KIND = 0, /* its first byte, and KDR_BASEX_COMMAND for each COMMAND */
    KDR_BASEX_REQUEST_LENGTH_1 = 1,
    KDR_BASEX_REQUEST_LENGTH_2 = 2,
    KDR_BASEX_REQUEST_LENGTH_3 = 3,
    KDR_BASEX_REQUEST_LENGTH_4 = 4,
    KDR_BASEX_REQUEST_FIELDS = 5
};

/* Reads the request at the front of `bytes`. The answer is how many bytes it has, and `told` gets
 * five numbers. Its decoded texts stand one behind the other in front of `out`, for which as many
 * bytes as `bytes` has are always enough; a COMMAND is one text, its first byte included. Refused:
 * 1 for no byte; 2 for a first byte that starts no request; then string by string, 13 as soon as
 * the pair is there, 1 where an end is missing; last 10 where the texts do not fit or five numbers
 * are not lent. */
uint64_t kdr_basex_read_request(const uint8_t *bytes, size_t bytes_len,
                                uint8_t *out, size_t out_len, uint64_t *told, size_t told_len);

/* Puts a request of that kind in front of `out`; the answer is how many bytes it has. The texts
 * that the kind does not have must be empty. Refused: 2 for a kind that is none; 8 for a text that
 * it does not have; 11 for a COMMAND that is empty or does not start with 0x20 to 0xFE; 10 where it
 * does not fit. */
uint64_t kdr_basex_write_request(uint8_t *out, size_t out_len, uint8_t kind,
                                 const uint8_t *first, size_t first_len,
                                 const uint8_t *second, size_t second_len,
                                 const uint8_t *third, size_t third_len,
                                 const uint8_t *fourth, size_t fourth_len);

/* ---- BaseX responses (basex_c) ---- */

/* What is told of a response that was read. The texts ahead of its status are two for COMMAND, none
 * for RESULTS and FULL, and one for the others; of COMMAND, CREATE, ADD, PUT and PUTBINARY the last
 * of them is the error where the status is 1, and KDR_BASEX_RESPONSE_ERROR is 0. kdr_basex_error
 * finds the error of any kind. */
enum kdr_basex_response_field {
    KDR_BASEX_RESPONSE_LENGTH_1 = 0,
    KDR_BASEX_RESPONSE_LENGTH_2 = 1,
    KDR_BASEX_RESPONSE_ITEMS = 2,  /* how many items, */
    KDR_BASEX_RESPONSE_LISTED = 3, /* and how long all their URIs and texts are */
    KDR_BASEX_RESPONSE_STATUS = 4, /* 0 or 1 */
    KDR_BASEX_RESPONSE_ERROR = 5,  /* how long the error behind status 1 is */
    KDR_BASEX_RESPONSE_FIELDS = 6
};

/* Reads the response at the front of `bytes`, to a request whose first byte is `kind`. The answer
 * is how many bytes it has, and `told` gets six numbers. Its decoded texts stand one behind the
 * other in front of `out`: those ahead of the status, those of the items (of each, its URI where it
 * has one, and its text), and the error; as many bytes as `bytes` has are always enough. Refused: 1
 * for no byte; 2 for a kind that is none; then field by field, 8 as soon as the byte is there, 13
 * as soon as the pair is there, 1 where a field or its end is missing; last 10 where the texts do
 * not fit or six numbers are not lent. */
uint64_t kdr_basex_read_response(uint8_t kind, const uint8_t *bytes, size_t bytes_len,
                                 uint8_t *out, size_t out_len, uint64_t *told, size_t told_len);

/* Where the error of a response stands in the output that the response was read into. */
enum kdr_basex_error_field {
    KDR_BASEX_ERROR_START = 0,
    KDR_BASEX_ERROR_LENGTH = 1,
    KDR_BASEX_ERROR_FIELDS = 2
};

/* The error of a response that kdr_basex_read_response read: `response` are the six numbers that it
 * told, and `kind` is the same. The answer is 1 where the request failed (status 1), and `place`
 * gets two numbers; it is 0 where the status is 0, and nothing is told. Other numbers get an
 * answer too, whose place may lie outside the output. Refused: 10 where fewer than six numbers are
 * given; 2 for a kind that is none; 8 for a status above 1; last 10 where there is an error and
 * fewer than two numbers are lent. */
uint64_t kdr_basex_error(uint8_t kind, const uint64_t *response, size_t response_len,
                         uint64_t *place, size_t place_len);

/* A response to RESULTS or FULL may be larger than what one cares to hold, and reading it whole as
 * it grows would judge it from the front again and again. Its items can be taken as they come
 * instead: kdr_basex_item judges the next one (at a 1, again when more bytes have come); its
 * strings stand behind the byte of its id, for kdr_basex_decode; then its bytes can be dropped, as
 * many as kdr_basex_item answered. The 00 behind the last item is not dropped:
 * kdr_basex_read_response of the same kind reads what is left (00, status, error) as a response
 * without items (bindings/c/response.c). */

/* What is told of an item. */
enum kdr_basex_item_field {
    KDR_BASEX_ITEM_ID = 0,
    KDR_BASEX_ITEM_URI = 1,  /* how long its URI is, decoded; 0 where it has none or an empty one:
                              * in FULL the ids 12, 14 and 82 have one */
    KDR_BASEX_ITEM_TEXT = 2, /* how long its text is, decoded */
    KDR_BASEX_ITEM_FIELDS = 3
};

/* The item that starts at `at` in the bytes of a response to a request whose first byte is `kind`;
 * the first stands at 0. The answer is how many bytes it takes, so the next stands so many bytes
 * further on, and `told` gets three numbers. It is the byte of its id, its URI where it has one,
 * and its text. At the 00 behind the last item the answer is 0, and nothing is told. Refused: 1
 * where no byte stands at `at`; 2 for a kind that is none; 8 for one without items; then field by
 * field, 8 as soon as the byte is there, 13 as soon as the pair is there, 1 where a string's end is
 * missing; last 10 where fewer than three numbers are lent. */
uint64_t kdr_basex_item(uint8_t kind, const uint8_t *bytes, size_t bytes_len, size_t at,
                        uint64_t *told, size_t told_len);

/* Puts an item of a response to RESULTS or FULL into `out` from `at` on; the answer is how many
 * bytes it takes. Refused: 2 for a kind that is none; 8 for one without items, an id that is not
 * allowed (7-15 and 32-83 are), and a URI that is not empty where the item has none (only ids 12,
 * 14 and 82 have one, and only in FULL); 10 where it does not fit. */
uint64_t kdr_basex_write_item(uint8_t *out, size_t out_len, size_t at, uint8_t kind, uint8_t id,
                              const uint8_t *uri, size_t uri_len,
                              const uint8_t *text, size_t text_len);

/* Puts all of a response but its items into `out` from `at` on: for RESULTS and FULL the 00 behind
 * the items, the status and the error; for any other kind the whole response. The answer is how
 * many bytes that takes. Refused: 2 for a kind that is none; 8 for a status above 1, and for a text
 * or an error that is not empty where the response has none (above kdr_basex_response_field stands
 * which it has); 10 where it does not fit. */
uint64_t kdr_basex_write_end(uint8_t *out, size_t out_len, size_t at, uint8_t kind,
                             const uint8_t *first, size_t first_len,
                             const uint8_t *second, size_t second_len, uint8_t status,
                             const uint8_t *error, size_t error_len);

#ifdef __cplusplus
}
#endif

#endif
