// Ripsawbean in a program: a multiversion timestamp database in memory whose committed changes leave it as ordered feeds.
//
//     ripsawbean db = RIPSAWBEAN_INITIALIZER;
//     uint8_t out[4096];
//     size_t length;
//     const char *line = "0 begin 10\n";
//     if (ripsawbean_open(&db, 1024) != RIPSAWBEAN_OK) ..
//     if (ripsawbean_call(&db, (const uint8_t *)line, strlen(line), out, sizeof out, &length) != RIPSAWBEAN_OK) ..
//     fwrite(out, 1, length, stdout);                    // 0 0 begin 10 => started
//     ripsawbean_close(&db);
//
// Lines and texts are those of the program mvfeed, format two. docs/GUIDE.md has each command and each answer, and
// docs/EMBEDDING.md says how to build, link and use this library. It is proved, function by function, but for this
// page's three inline helpers (ripsawbean_read_message, ripsawbean_status_name, ripsawbean_answer_name) and the look at
// the processor, which are tested. What this page asks of its caller is what the proofs take for granted.
//
// THE HANDLE belongs to the program, which may keep it anywhere: on its stack, in a struct, on its heap. All zero bytes
// are a closed handle. Only the functions of this page write its members. An open handle may be moved, and is then used
// in its new place alone: it is never copied, and never overwritten before ripsawbean_close. Each handle has a database
// of its own.
//
// POINTERS are valid, aligned and not null, also where no byte stands behind them (a line_length or a room of 0). The
// line has line_length bytes and the buffer room bytes. The handle, the line, the buffer and *length share no byte. No
// function keeps a pointer, so all of them are the program's again at its return. The line is only read and the buffer
// only written: its bytes need no values before.
//
// THREADS. One handle is used by one thread at a time. It may go to another thread, its closing too, where the program
// orders that: by a mutex of its own round each call, by a thread's start or join, or by a sequentially consistent
// atomic. Different handles may be used at the same time. No function waits, starts a thread or calls back. None is to
// be called from a signal handler, nor in the child of a fork of a process with threads.
//
// MEMORY comes from the program's malloc, realloc and free, which are of one allocator, and align a block to each power
// of two up to 16 that divides its size. Running out of memory is a status or an answer, never an end of the program: see
// RIPSAWBEAN_NOMEMORY. ripsawbean_close gives all of it back.
//
// THE PROCESSOR is one of x86-64-v2, with SSE4.2 and POPCNT, as those since 2009 are. On another one no handle opens: see
// RIPSAWBEAN_PROCESSOR.
#ifndef RIPSAWBEAN_H
#define RIPSAWBEAN_H

#include <stdbool.h>
#include <stddef.h>
#include <stdint.h>

#ifdef __cplusplus
extern "C" {
#endif

typedef struct {
    void *at;     // private
    bool is_open; // private
} ripsawbean;

#define RIPSAWBEAN_INITIALIZER {NULL, false} // a closed handle

// The version of this page, 0.1.0: major, minor and patch have a byte each. The ABI is the number in the shared library's
// name and in the version of its symbols. It rises where a function or a struct changes or goes.
#define RIPSAWBEAN_VERSION 0x000100
#define RIPSAWBEAN_ABI 0

#define RIPSAWBEAN_MAX_RING 65536                        // of the ring, which has no effect; 1 is the least
#define RIPSAWBEAN_MAX_TIMESTAMP UINT64_C(9223372036854775807) // above it a command is answered "tsrange", with RIPSAWBEAN_OK
#define RIPSAWBEAN_NONE UINT64_MAX                       // where there is no timestamp to tell
#define RIPSAWBEAN_MOST_ROWS 32768                       // of a scan among many lines, unless all is let through

// What a line may have. A line that has more is told as a fault.
#define RIPSAWBEAN_SEATS 64                              // a line begins with a seat, 0 to 63
#define RIPSAWBEAN_MAX_KEY 256                           // bytes of a key, before they are spelled; 1 is the least
#define RIPSAWBEAN_MAX_BOUND 257                         // bytes of a bound of a span
#define RIPSAWBEAN_MAX_VALUE 65536                       // bytes of a value; it may have none
#define RIPSAWBEAN_MAX_LINE 200000                       // bytes of a line before its newline

// What the functions of a database return. After RIPSAWBEAN_OK and RIPSAWBEAN_UNWRITTEN of a call the database has one
// event more. After every other status it is as it was, its last event and that event's text too. ripsawbean_calls is
// the exception: whatever it returns, *taken and the notes say what was called.
enum {
    RIPSAWBEAN_OK = 0,

    // The line is faulty, and no call was made. Of several faults the first in the order of tests is told: the line's
    // length, its newline, its bytes, its words, the seat, the command's name, how many arguments it has, the arguments
    // from the left.
    RIPSAWBEAN_WORDCOUNT = 1,      // an empty line or word, or the wrong number of words
    RIPSAWBEAN_UNKNOWNCOMMAND = 2, // no command has this name
    RIPSAWBEAN_NUMBER = 3,         // no number from 0 to 18446744073709551615 stands where one belongs
    RIPSAWBEAN_KEYLENGTH = 4,      // a key of no bytes or above 256, or a bound above 257
    RIPSAWBEAN_VALUELENGTH = 5,    // a value above 65536 bytes
    RIPSAWBEAN_SESSION = 6,        // the seat is no number from 0 to 63
    RIPSAWBEAN_NONEWLINE = 7,      // the line doesn't end in a newline
    RIPSAWBEAN_LINETOOLONG = 8,    // more than 200000 bytes stand before the newline
    RIPSAWBEAN_BADBYTE = 9,        // a byte outside printable ASCII, or a word that is the spelling of no bytes
    RIPSAWBEAN_REPLY = 10,         // a fault of transcripts: no function here returns it
    RIPSAWBEAN_FOLLOW = 11,        // a fault of transcripts: no function here returns it

    // There was no memory for the line, a look, or a database to open: no call was made, and the same one may be made
    // again. ripsawbean_calls says it of the next line alone: go on behind the first taken->bytes. Where the line
    // was read and memory runs out in the call itself, its answer is "nomemory": an event that changed nothing else.
    // Its text may want memory as well, as any text: see RIPSAWBEAN_UNWRITTEN.
    RIPSAWBEAN_NOMEMORY = 12,
    RIPSAWBEAN_SPENT = 13,     // no position is left after 18446744073709551615 calls: no call was made. A fault is told first
    RIPSAWBEAN_UNWRITTEN = 14, // the call was made, or had been; its text, messages or rows ran out of memory. Ask again.
                               // Of ripsawbean_dump: the next lines have no room
    RIPSAWBEAN_RING = 15,      // the ring is not 1 to 65536
    RIPSAWBEAN_CLOSED = 16,    // the handle is closed
    RIPSAWBEAN_OPEN = 17,      // the handle is open already

    // By the functions of a replica alone. After each of them the replica is as it was.
    RIPSAWBEAN_NOMESSAGE = 18,    // the line is no message's, no JSON or not as a feed tells it; or rows to begin with are none
    RIPSAWBEAN_NOTAFTER = 19,     // a row at or before what was taken: below a resolved timestamp, or not after the row before it
    RIPSAWBEAN_OUTSIDESPAN = 20,  // a row whose key lies outside the span
    RIPSAWBEAN_RESOLVEDBACK = 21, // a resolved timestamp at or below the last one, or below the last row
    RIPSAWBEAN_NOFEED = 22,       // the line's command opens no feed, or opens it above RIPSAWBEAN_MAX_TIMESTAMP; or an initial one with rows
    RIPSAWBEAN_NOVALUE = 23,      // the key has no value

    // The first by ripsawbean_versions_at alone, the second by a note of ripsawbean_calls alone.
    RIPSAWBEAN_BELOWHORIZON = 24,  // the timestamp is below the horizon, so versions may be gone
    RIPSAWBEAN_ANSWERTOOLONG = 25, // it has more bytes of rows or messages, or more rows, than are let through: no call was made

    // By what opens a database or a replica, before anything else is looked at. The handle is as it was.
    RIPSAWBEAN_PROCESSOR = 26      // the processor lacks what the code needs: on x86-64, what x86-64-v2 has
};

// The version of the library: 65536 times the first of its three numbers, 256 times the second, and the third.
uint32_t ripsawbean_version(void);

// Opens a closed handle on a new and empty database. The ring, how many rows a feed once kept at hand, has no effect.
//
//     RIPSAWBEAN_OK        it is open
//     RIPSAWBEAN_RING      whatever the handle is; tested first
//     RIPSAWBEAN_OPEN      the ring is right; the open database is as it was
//     RIPSAWBEAN_NOMEMORY  it is still closed
uint8_t ripsawbean_open(ripsawbean *db, uint32_t ring);

// Makes the call of one line, as "0 put 10 apple 3\n", its newline with it, and shows the text of the event, as
// "1 0 put 10 apple 3 => written\n": a position, the line, the answer, and behind it the lines that belong to it
// ("rows N", "messages N"). Positions run from 0 without a gap. The text is printable ASCII in lines, with no zero
// byte at its end.
//
//     RIPSAWBEAN_OK                        the call was made. *length is the whole length of its text, and out begins with as
//                                          much of it as there is room for; the rest of out is as it was
//     RIPSAWBEAN_UNWRITTEN                 the call was made; *length is 0 and out is as it was
//     RIPSAWBEAN_WORDCOUNT to _BADBYTE, RIPSAWBEAN_NOMEMORY, RIPSAWBEAN_SPENT, RIPSAWBEAN_CLOSED
//                                          no call was made; *length is 0 and out is as it was
//
// Where *length is above room nothing is lost: ripsawbean_text shows the text again. Do not make the call again for it.
uint8_t ripsawbean_call(ripsawbean *db, const uint8_t *line, size_t line_length, uint8_t *out, size_t room, size_t *length);

// Shows the text of the last event again, any number of times. It makes no call.
//
//     RIPSAWBEAN_OK         *length is the whole length of the text, 0 where no call was made yet; out as for ripsawbean_call
//     RIPSAWBEAN_UNWRITTEN  there is no memory for the text; *length is 0 and out is as it was. It may be asked for again
//     RIPSAWBEAN_CLOSED     *length is 0 and out is as it was
uint8_t ripsawbean_text(ripsawbean *db, uint8_t *out, size_t room, size_t *length);

// Shows what an operator may ask of the database now, as lines of JSON: how far it is closed and collected, and what
// holds both back; the undecided transactions; the protections; the feeds, and how far each has come. docs/GUIDE.md
// shows one. It makes no call, and the text of the last event stays. It costs what it shows, whatever the database
// holds. RIPSAWBEAN_OK, _UNWRITTEN and _CLOSED say of its text what they say by ripsawbean_text.
uint8_t ripsawbean_state(ripsawbean *db, uint8_t *out, size_t room, size_t *length);

// Frees the database, and leaves the handle closed. It may be opened again. A closed handle stays closed.
void ripsawbean_close(ripsawbean *db);

// ---- CALLS WITHOUT LINES. A command's parts are arguments, bytes are spelled by nobody, and no text is written:
//
//     ripsawbean_answer answer;
//     ripsawbean_begin(&db, 0, 10, &answer);                                              // .. == RIPSAWBEAN_OK
//     ripsawbean_put(&db, 0, 10, (const uint8_t *)"apple", 5, (const uint8_t *)"3", 1, &answer);
//     if (answer.kind >= RIPSAWBEAN_ANSWER_REFUSED) puts(ripsawbean_answer_name(answer.kind));
//
// The event is that of the command's line. ripsawbean_text shows its text, which is written when it is asked for. A key
// and a value are only read, and may share bytes. Each of out, *length, *answer and the handle shares none with another,
// nor with a key or a value.

typedef struct {
    uint8_t kind;    // RIPSAWBEAN_ANSWER_..
    uint64_t number; // what it counts, or the timestamp that it names; 0 where there is none
    uint64_t other;  // a closing's aborted transactions; 0 at each other typed call
} ripsawbean_answer;

// The kinds of answers, named as texts name them.
enum {
    RIPSAWBEAN_ANSWER_MISSING = 0, // no call was made, and the answer is all 0
    RIPSAWBEAN_ANSWER_STARTED = 1,
    RIPSAWBEAN_ANSWER_NONE = 2,  // the key has no value
    RIPSAWBEAN_ANSWER_VALUE = 3, // number: how many bytes it has
    RIPSAWBEAN_ANSWER_WRITTEN = 4,
    RIPSAWBEAN_ANSWER_COMMITTED = 5, // number: how many keys were written
    RIPSAWBEAN_ANSWER_ABORTED = 6,
    RIPSAWBEAN_ANSWER_CLOSED = 7,   // number: the closed timestamp
    RIPSAWBEAN_ANSWER_MESSAGES = 8, // number: how many
    RIPSAWBEAN_ANSWER_ROWS = 9,     // number: how many

    // By a line alone, as ripsawbean_last tells them: no typed call has them.
    RIPSAWBEAN_ANSWER_PROTECTED = 10, // number: the protection's
    RIPSAWBEAN_ANSWER_RELEASED = 11,
    RIPSAWBEAN_ANSWER_COLLECTED = 12, // number: the horizon; other: how many versions were dropped
    RIPSAWBEAN_ANSWER_OPENED = 13,    // number: the feed's
    RIPSAWBEAN_ANSWER_CANCELLED = 14,
    RIPSAWBEAN_ANSWER_STATS = 15, // number: versions that aren't dead; other: undecided transactions

    RIPSAWBEAN_ANSWER_REFUSED = 32,     // from here on refusals. Each is an event, and all but TOOLATE change nothing else
    RIPSAWBEAN_ANSWER_BELOWCLOSED = 32, // number: the closed timestamp
    RIPSAWBEAN_ANSWER_TSUSED = 33,
    RIPSAWBEAN_ANSWER_TSRANGE = 34,
    RIPSAWBEAN_ANSWER_BLOCKED = 35, // number: the timestamp of the transaction in whose way it stands
    RIPSAWBEAN_ANSWER_NOTXN = 36,
    RIPSAWBEAN_ANSWER_NOTOWNER = 37,
    RIPSAWBEAN_ANSWER_ENDED = 38,
    RIPSAWBEAN_ANSWER_TOOLATE = 39,
    RIPSAWBEAN_ANSWER_NOTCLOSED = 40,    // number: the closed timestamp
    RIPSAWBEAN_ANSWER_BELOWHORIZON = 41, // number: the horizon
    RIPSAWBEAN_ANSWER_NOPROTECTION = 42,
    RIPSAWBEAN_ANSWER_NOFEED = 43,
    RIPSAWBEAN_ANSWER_FEEDCANCELLED = 44,
    RIPSAWBEAN_ANSWER_NOMEMORY = 45,
    RIPSAWBEAN_ANSWER_GAPRANGE = 46
};

// Each makes one call.
//
//     RIPSAWBEAN_OK           the call was made, and answer says what came of it
//     RIPSAWBEAN_SESSION      the seat is not 0 to 63. It is tested first, then the key, then the value
//     RIPSAWBEAN_KEYLENGTH    the key has no byte, or more than 256
//     RIPSAWBEAN_VALUELENGTH  the value has more than 65536 bytes
//     RIPSAWBEAN_NOMEMORY     there was no memory for a key or a value of more than 24 bytes
//     RIPSAWBEAN_SPENT, RIPSAWBEAN_CLOSED
//
// After all but RIPSAWBEAN_OK no call was made, and answer is all 0.
uint8_t ripsawbean_begin(ripsawbean *db, uint8_t seat, uint64_t timestamp, ripsawbean_answer *answer);
uint8_t ripsawbean_put(ripsawbean *db, uint8_t seat, uint64_t timestamp, const uint8_t *key, size_t key_length, const uint8_t *value,
                       size_t value_length, ripsawbean_answer *answer);
uint8_t ripsawbean_delete(ripsawbean *db, uint8_t seat, uint64_t timestamp, const uint8_t *key, size_t key_length,
                          ripsawbean_answer *answer);
uint8_t ripsawbean_commit(ripsawbean *db, uint8_t seat, uint64_t timestamp, ripsawbean_answer *answer);
uint8_t ripsawbean_abort(ripsawbean *db, uint8_t seat, uint64_t timestamp, ripsawbean_answer *answer);

// The command "close", and not ripsawbean_close.
uint8_t ripsawbean_close_to(ripsawbean *db, uint8_t seat, uint64_t timestamp, ripsawbean_answer *answer);

// Each makes one call as those above, and shows the value that it found. At RIPSAWBEAN_OK *length is the value's whole
// length, 0 where the answer is not RIPSAWBEAN_ANSWER_VALUE, and out begins with as much of it as there is room for. At
// every other status *length is 0 and out is as it was. Where *length is above room nothing is lost: ripsawbean_bytes
// shows the value again. ripsawbean_read_at is the command "readat": the committed value at a closed timestamp.
uint8_t ripsawbean_get(ripsawbean *db, uint8_t seat, uint64_t timestamp, const uint8_t *key, size_t key_length, uint8_t *out,
                       size_t room, size_t *length, ripsawbean_answer *answer);
uint8_t ripsawbean_read_at(ripsawbean *db, uint8_t seat, uint64_t timestamp, const uint8_t *key, size_t key_length, uint8_t *out,
                           size_t room, size_t *length, ripsawbean_answer *answer);

// Takes the next messages of a feed, `most` at most, and shows them one behind another, to be read by
// ripsawbean_read_message. A message has a head of 17 bytes: its kind, its timestamp in eight bytes, and in four bytes
// each how many bytes of a key and of a value stand behind the head. Each number has its lowest byte first.
//
//     RIPSAWBEAN_OK         the call was made. *length is the whole length of the messages; out as for a value. Messages that
//                           found no room are not lost: ripsawbean_bytes shows them again. Do not poll again for them
//     RIPSAWBEAN_UNWRITTEN  the call was made, and answer says so; its messages ran out of memory. *length is 0 and out is as
//                           it was. ripsawbean_bytes tries again
//     RIPSAWBEAN_SESSION, RIPSAWBEAN_SPENT, RIPSAWBEAN_CLOSED
//                           no call was made, and answer is all 0; *length is 0 and out is as it was
uint8_t ripsawbean_poll(ripsawbean *db, uint8_t seat, uint64_t feed, uint64_t most, uint8_t *out, size_t room, size_t *length,
                        ripsawbean_answer *answer);

// Shows the bytes of the last event's answer again, any number of times, also where a line made its call: a value,
// messages, or the rows of a scan and its end. It makes no call.
//
//     RIPSAWBEAN_OK         *length is their whole length, 0 where there are none; out as for a value
//     RIPSAWBEAN_UNWRITTEN  there is no memory for messages or rows; *length is 0 and out is as it was. They may be asked
//                           for again
//     RIPSAWBEAN_CLOSED     *length is 0 and out is as it was
uint8_t ripsawbean_bytes(ripsawbean *db, uint8_t *out, size_t room, size_t *length);

// ---- ANSWERS WITH A BOUND. A row, or a message, has the bytes of its key and its value, and 17 more. The first is told in
// any case, so a loop that goes on where an answer ended comes to the end.
//
//     ripsawbean_scan(&db, 0, 10, low, low_length, low, 0, 0, 1000, sizeof out - RIPSAWBEAN_MAX_END, out, sizeof out, &length,
//                     &answer);
//     // rows are read by ripsawbean_read_message; where a message of kind RIPSAWBEAN_MESSAGE_END stands behind them, its
//     // key is the low bound of the next scan

#define RIPSAWBEAN_MAX_ROW 65809 // bytes of a row of the greatest size: with a bound of fewer the first row may have more
#define RIPSAWBEAN_MAX_END 274   // bytes of a scan's end at most. It stands behind the rows, and no bound counts it

// Reads the keys of a span in a transaction, or at a closed timestamp (the commands "scan" and "scanat"), as far as their
// rows find room: at most `rows` rows, of at most `bytes` bytes together, or the first row alone. The event is the scan of
// that beginning of the span, but of all of it where another's undecided version before that end, or at it, is in the way:
// "blocked". `low` of no bytes is no low bound; where has_high is 0 there is no high one, and `high` isn't looked at.
//
// Rows are shown as messages of kind RIPSAWBEAN_MESSAGE_ROW whose timestamp is the scan's. Behind them stands a message of
// kind RIPSAWBEAN_MESSAGE_END whose key, of up to 257 bytes, is the high bound of the event's span, unless that has none.
// Where it isn't the caller's own bound, the next scan goes on there. Its bytes come on top of `bytes`, so a room of no more
// may cut it off: then *length is above room. A scan that is refused shows no end.
//
//     RIPSAWBEAN_OK         the call was made, and answer says what came of it. *length is the whole length of the rows and
//                           their end; out as for a value. ripsawbean_bytes shows them again
//     RIPSAWBEAN_UNWRITTEN  the same, but its rows ran out of memory: *length is 0, out is as it was; ripsawbean_bytes tries again
//     RIPSAWBEAN_KEYLENGTH  a bound has more than 257 bytes, or the high one has none; the seat is tested before
//     RIPSAWBEAN_NOMEMORY   there was no memory for a bound
//     RIPSAWBEAN_SESSION, RIPSAWBEAN_SPENT, RIPSAWBEAN_CLOSED
//
// After all but the first two no call was made, and answer is all 0; *length is 0 and out is as it was.
uint8_t ripsawbean_scan(ripsawbean *db, uint8_t seat, uint64_t timestamp, const uint8_t *low, size_t low_length, const uint8_t *high,
                        size_t high_length, uint8_t has_high, uint64_t rows, uint64_t bytes, uint8_t *out, size_t room, size_t *length,
                        ripsawbean_answer *answer);
uint8_t ripsawbean_scan_at(ripsawbean *db, uint8_t seat, uint64_t timestamp, const uint8_t *low, size_t low_length, const uint8_t *high,
                           size_t high_length, uint8_t has_high, uint64_t rows, uint64_t bytes, uint8_t *out, size_t room, size_t *length,
                           ripsawbean_answer *answer);

// As ripsawbean_poll, but that the messages have at most `bytes` bytes together, or there is one. The event is the poll of so
// many as find room, and of `most` where all do: of 1 where the first has none, unless `most` is 0.
// RIPSAWBEAN_NOMEMORY: there was no memory for the messages that were looked at, and no call was made.
uint8_t ripsawbean_poll_within(ripsawbean *db, uint8_t seat, uint64_t feed, uint64_t most, uint64_t bytes, uint8_t *out, size_t room,
                               size_t *length, ripsawbean_answer *answer);

// The last event in numbers, so that whoever made its call by a line needn't read its text.
typedef struct {
    uint64_t position; // its number among the events of the database
    uint64_t at;       // the number that its command names: a timestamp, a protection's or a feed's; of an open its cursor; else 0
    uint64_t number;   // as in an answer
    uint64_t other;
    uint8_t seat;
    uint8_t command; // RIPSAWBEAN_COMMAND_..; 0 where no call was made yet
    uint8_t kind;    // RIPSAWBEAN_ANSWER_..
} ripsawbean_record;

enum {
    RIPSAWBEAN_COMMAND_BEGIN = 1,
    RIPSAWBEAN_COMMAND_GET = 2,
    RIPSAWBEAN_COMMAND_SCAN = 3,
    RIPSAWBEAN_COMMAND_PUT = 4,
    RIPSAWBEAN_COMMAND_DEL = 5,
    RIPSAWBEAN_COMMAND_COMMIT = 6,
    RIPSAWBEAN_COMMAND_ABORT = 7,
    RIPSAWBEAN_COMMAND_CLOSE = 8,
    RIPSAWBEAN_COMMAND_CLOSEHARD = 9,
    RIPSAWBEAN_COMMAND_READAT = 10,
    RIPSAWBEAN_COMMAND_SCANAT = 11,
    RIPSAWBEAN_COMMAND_PROTECT = 12,
    RIPSAWBEAN_COMMAND_RELEASE = 13,
    RIPSAWBEAN_COMMAND_COLLECT = 14,
    RIPSAWBEAN_COMMAND_OPEN = 15,
    RIPSAWBEAN_COMMAND_OPENINITIAL = 16,
    RIPSAWBEAN_COMMAND_OPENEVERY = 17,
    RIPSAWBEAN_COMMAND_OPENINITIALEVERY = 18,
    RIPSAWBEAN_COMMAND_POLL = 19,
    RIPSAWBEAN_COMMAND_CANCEL = 20,
    RIPSAWBEAN_COMMAND_STATS = 21
};

// Tells the last event in numbers, any number of times. It makes no call, and takes no memory. RIPSAWBEAN_OK, or *record
// is all 0: RIPSAWBEAN_CLOSED. *record is all 0 too where no call was made yet.
uint8_t ripsawbean_last(ripsawbean *db, ripsawbean_record *record);

// A message, read where it stands.
typedef struct {
    uint8_t kind;              // RIPSAWBEAN_MESSAGE_..
    uint64_t timestamp;        // resolved, or of the row's transaction, or of the scan
    const uint8_t *key;        // of a row, or a scan's end
    size_t key_length;         // 1 to 256, of an end up to 257, or 0 where there is none
    const uint8_t *value;      // of a row that is no delete
    size_t value_length;       // 0 to 65536
} ripsawbean_message;

enum {
    RIPSAWBEAN_MESSAGE_RESOLVED = 0,
    RIPSAWBEAN_MESSAGE_ROW = 1,
    RIPSAWBEAN_MESSAGE_DELETE = 2,
    RIPSAWBEAN_MESSAGE_END = 3,   // where a scan ended: its key is that bound
    RIPSAWBEAN_MESSAGE_HEAD = 17 // bytes before the key
};

// Reads the message at the beginning of `length` bytes. Returns how many bytes it has, behind which the next one stands;
// 0 where no whole message stands there, and then *message is as it was.
//
//     for (size_t at = 0, step; (step = ripsawbean_read_message(out + at, length - at, &message)) > 0; at += step) ..
static inline size_t ripsawbean_read_message(const uint8_t *bytes, size_t length, ripsawbean_message *message) {
    uint64_t numbers[3] = {0, 0, 0}; // the timestamp, and the lengths of the key and the value
    size_t i, whole;
    if (length < RIPSAWBEAN_MESSAGE_HEAD) return 0;
    for (i = 0; i < 8; i++) numbers[0] |= (uint64_t)bytes[1 + i] << 8 * i;
    for (i = 0; i < 4; i++) numbers[1] |= (uint64_t)bytes[9 + i] << 8 * i;
    for (i = 0; i < 4; i++) numbers[2] |= (uint64_t)bytes[13 + i] << 8 * i;
    if (numbers[1] + numbers[2] > length - RIPSAWBEAN_MESSAGE_HEAD) return 0;
    whole = RIPSAWBEAN_MESSAGE_HEAD + (size_t)(numbers[1] + numbers[2]);
    message->kind = bytes[0];
    message->timestamp = numbers[0];
    message->key = bytes + RIPSAWBEAN_MESSAGE_HEAD;
    message->key_length = (size_t)numbers[1];
    message->value = message->key + message->key_length;
    message->value_length = (size_t)numbers[2];
    return whole;
}

// ---- MANY LINES AT ONCE: one crossing from a language whose crossings are dear.
//
//     ripsawbean_done notes[2];
//     ripsawbean_taken taken;
//     const char *lines = "0 begin 10\n0 begin\n";
//     ripsawbean_calls(&db, (const uint8_t *)lines, strlen(lines), out, sizeof out, notes, 2, UINT64_MAX, &taken);   // RIPSAWBEAN_OK
//     // taken: 2 lines, 19 bytes, 24 bytes of texts; notes: {24, RIPSAWBEAN_OK}, {0, RIPSAWBEAN_WORDCOUNT}

// What became of one line.
typedef struct {
    size_t length;  // of its event's text; 0 where no call was made, or the text ran out of memory
    uint8_t status; // RIPSAWBEAN_OK, its fault, RIPSAWBEAN_UNWRITTEN where its call was made and its text isn't shown, or
                    // RIPSAWBEAN_ANSWERTOOLONG
} ripsawbean_done;

// How far the lines were taken.
typedef struct {
    size_t lines;  // each has its note
    size_t bytes;  // of those lines: the first byte that was not taken stands behind them
    size_t length; // of the texts that are shown
} ripsawbean_taken;

// Makes the calls of lines, one after another, each up to its newline, and shows their texts, one behind another. A
// faulty line makes no call, and the next one is taken; it ends nothing. Nor does a line make its call whose answer would
// have more than `most` bytes of rows or messages, as they are counted above, or as a scan more than RIPSAWBEAN_MOST_ROWS
// rows; UINT64_MAX lets all through. What would be refused has none, but a scan that would be "blocked" has the rows before
// what blocks it. The texts stand in the first taken->length bytes of out, whole; the rest of out is as it was, and so
// are the notes behind the first taken->lines.
//
//     RIPSAWBEAN_OK         all lines were taken, or there is no room for a further note
//     RIPSAWBEAN_UNWRITTEN  the last line that was taken made its call, and its text found no room or no memory: its
//                           note has this status, and the text's length where it found no room. ripsawbean_text shows
//                           it. Do not make that call again; go on behind it
//     RIPSAWBEAN_NOMEMORY, RIPSAWBEAN_SPENT
//                           the next line, which was not taken, can't be called, as by ripsawbean_call, or there was no
//                           memory for the look at a poll's messages, which UINT64_MAX spares
//     RIPSAWBEAN_CLOSED     taken is all 0, and out and notes are as they were
//
// Nothing is lost at any of them: each line before the first byte that was not taken is done, and no line behind the
// next one was looked at. lines, out, notes and *taken share no byte.
uint8_t ripsawbean_calls(ripsawbean *db, const uint8_t *lines, size_t lines_length, uint8_t *out, size_t room, ripsawbean_done *notes,
                         size_t notes_length, uint64_t most, ripsawbean_taken *taken);

// ---- LOOKS: what the database tells without a call. Each leaves the last event and its text as they are.

// How far the database, and one of its feeds, have come.
typedef struct {
    uint64_t closed;  // the closed timestamp
    uint64_t horizon; // below it nothing is read
    uint64_t limit;   // how far a collection can go now
    uint64_t oldest;  // the least undecided timestamp; RIPSAWBEAN_NONE where none is undecided
    uint64_t reached; // the greatest timestamp that began or was closed: each that is above it is free
    uint64_t floor;   // through where the feed has told all but an initial one's first rows; RIPSAWBEAN_NONE where it doesn't live
} ripsawbean_standing;

// Tells how far the database, and the feed of this number, have come. It takes no memory. RIPSAWBEAN_OK, or *standing is
// all 0: RIPSAWBEAN_CLOSED.
uint8_t ripsawbean_places(ripsawbean *db, uint64_t feed, ripsawbean_standing *standing);

// Tells the version of each key: the timestamp of its newest committed version at or below `timestamp`, which is that of
// the transaction that wrote it, and 0 where the key has no value there. Keys stand one behind another, each behind its
// length in two bytes, the lowest first. No more keys are told than there is room for.
//
//     RIPSAWBEAN_OK            *count is how many keys were told: all, or as many as there is room for
//     RIPSAWBEAN_KEYLENGTH     the next key has no byte or more than 256, or the keys end within it; the *count keys before it
//                              were told
//     RIPSAWBEAN_NOMEMORY      the next key has more than 24 bytes and ran out of memory; the *count keys before it were told
//     RIPSAWBEAN_BELOWHORIZON, RIPSAWBEAN_CLOSED
//                              *count is 0
//
// The versions behind the first *count are as they were. keys, versions and *count share no byte.
uint8_t ripsawbean_versions_at(ripsawbean *db, uint64_t timestamp, const uint8_t *keys, size_t keys_length, uint64_t *versions,
                               size_t room, size_t *count);

// One thing that is held.
typedef struct {
    uint64_t number; // the timestamp of a transaction; the number of a feed or a protection
    uint64_t at;     // how many keys a transaction wrote; a feed's floor; a protection's timestamp
    uint8_t kind;    // RIPSAWBEAN_HELD_..
} ripsawbean_held;

enum { RIPSAWBEAN_HELD_TRANSACTION = 1, RIPSAWBEAN_HELD_FEED = 2, RIPSAWBEAN_HELD_PROTECTION = 3 };

// Shows what a seat holds: its undecided transactions, timestamps rising; its feeds, numbers rising; and all protections,
// which are of no seat, numbers rising. A seat that holds nothing is shown the protections alone.
//
//     RIPSAWBEAN_OK        *count is how many there are, and out begins with as many as there is room for
//     RIPSAWBEAN_NOMEMORY, RIPSAWBEAN_CLOSED
//                          *count is 0 and out is as it was
uint8_t ripsawbean_held_by(ripsawbean *db, uint8_t seat, ripsawbean_held *out, size_t room, size_t *count);

// ---- A DUMP: the database as a script that rebuilds it, piece by piece: the bytes that `mvfeed dump` writes of its
// transcript. Calls may be made between two pieces.
//
//     ripsawbean_dump_place place = {0};
//     uint8_t key[RIPSAWBEAN_MAX_KEY], out[1 << 20];
//     size_t length;
//     while (!place.ended
//            && ripsawbean_dump(&db, 0, UINT64_MAX, &place, key, sizeof key, out, sizeof out, &length) == RIPSAWBEAN_OK)
//         fwrite(out, 1, length, file);

// Where a dump has come to. It begins at a place that is all 0.
typedef struct {
    uint64_t timestamp; // of the row that was written last
    size_t key;         // the length of that row's key, in the key buffer; 0: all rows of the timestamp were written
    uint8_t ended;      // 1 where the dump has ended
} ripsawbean_dump_place;

// Shows a piece of the dump that rebuilds the database as it is now: the lines of as many rows behind the place as have
// room. The dump closes at the greatest of `at`, the closed timestamp and all that began: `at` is 0, or what `mvfeed dump
// --at` is given. A piece goes only to `through`: UINT64_MAX, or a timestamp, and where nothing more is left up to there,
// the place is that of all its rows, or the dump has ended. docs/EMBEDDING.md says how to make calls between two pieces.
//
//     RIPSAWBEAN_OK         out begins with the piece, of *length bytes, and *place and key tell where the next one begins.
//                           At a place where the dump has ended nothing is shown, and it stays so
//     RIPSAWBEAN_NUMBER     at is above RIPSAWBEAN_MAX_TIMESTAMP
//     RIPSAWBEAN_KEYLENGTH  key has room for fewer than RIPSAWBEAN_MAX_KEY bytes, or the place tells of more
//     RIPSAWBEAN_UNWRITTEN  the next lines want *length bytes, which are at most RIPSAWBEAN_MAX_LINE
//     RIPSAWBEAN_NOMEMORY, RIPSAWBEAN_CLOSED
//
// At all but the first *place, key and out are as they were, and *length is 0 but where they want room. They share no byte.
uint8_t ripsawbean_dump(ripsawbean *db, uint64_t at, uint64_t through, ripsawbean_dump_place *place, uint8_t *key, size_t key_room,
                        uint8_t *out, size_t room, size_t *length);

// ---- A REPLICA: the rows of one feed's span, kept by its messages. It stands beside a database, which may be another
// process's: nothing but lines goes in. What is said above of the handle, of pointers, threads and memory holds of it
// too.

typedef struct {
    void *at;     // private
    bool is_open; // private
} ripsawbean_replica;

#define RIPSAWBEAN_REPLICA_INITIALIZER {NULL, false} // a closed handle

// Opens a closed handle on an empty replica of the feed that a line opens, as "0 openinitial - - 10\n": the line of the
// call that opened the feed will do. A replica of an initial feed is told its rows. One of another feed has none of the
// rows that its span held at the cursor: ripsawbean_replica_begin opens it with them. At cursor 0 there are none.
// RIPSAWBEAN_OK, or the handle is as it was: RIPSAWBEAN_OPEN, which is tested first, RIPSAWBEAN_WORDCOUNT to _BADBYTE,
// _NOFEED, _NOMEMORY.
uint8_t ripsawbean_replica_open(ripsawbean_replica *replica, const uint8_t *line, size_t line_length);

// The same of a feed that is not initial, with rows to begin with: lines "row KEY VALUE\n", keys rising, or no bytes. They
// are what a scan found at the cursor, as its text has them below its first line; or what ripsawbean_replica_rows showed
// of a replica that was told all through the cursor. RIPSAWBEAN_OK, or the handle is as it was, by the first test that
// isn't passed: RIPSAWBEAN_OPEN; RIPSAWBEAN_WORDCOUNT to _BADBYTE, _NOFEED; of the rows _NOMESSAGE, where a line is none
// of a row, _NOTAFTER, where their keys don't rise, _OUTSIDESPAN. Or RIPSAWBEAN_NOMEMORY.
uint8_t ripsawbean_replica_begin(ripsawbean_replica *replica, const uint8_t *line, size_t line_length, const uint8_t *rows,
                                 size_t rows_length);

// Takes the line of a message, with its newline, as a poll's text has it. RIPSAWBEAN_OK, or nothing changed:
// RIPSAWBEAN_NOMESSAGE, _NOTAFTER, _OUTSIDESPAN, _RESOLVEDBACK, _NOMEMORY, _CLOSED. A resolved message wants no memory.
uint8_t ripsawbean_replica_take(ripsawbean_replica *replica, const uint8_t *line, size_t line_length);

// Asked before a message is taken: *at is the timestamp at which the rows are the map as they stand, where the message
// shows it. The first row of a timestamp t above the cursor shows it of t - 1. Else *at is RIPSAWBEAN_NONE. Nothing is
// taken. A replica that goes on with the rows of another passes over the timestamp at which it begins, also below: some
// of its rows may be of the next. RIPSAWBEAN_OK, or *at is RIPSAWBEAN_NONE: RIPSAWBEAN_NOMESSAGE, _NOMEMORY, _CLOSED.
uint8_t ripsawbean_replica_ready(ripsawbean_replica *replica, const uint8_t *line, size_t line_length, uint64_t *at);

// *through is the timestamp through which all was told: every later message is above it, and a feed that is opened
// there goes on without a gap. RIPSAWBEAN_NONE among the first rows of an initial feed. *at is the timestamp at which
// the rows are the map after a resolved message, the cursor at first where the feed is not initial, and RIPSAWBEAN_NONE
// after a row. RIPSAWBEAN_OK, or both are RIPSAWBEAN_NONE: RIPSAWBEAN_CLOSED.
uint8_t ripsawbean_replica_complete(ripsawbean_replica *replica, uint64_t *through, uint64_t *at);

// Shows the value of a key, both as bytes. *length is the whole length of the value, and out begins with as much of it
// as there is room for. RIPSAWBEAN_OK, or *length is 0 and out is as it was: RIPSAWBEAN_NOVALUE, _KEYLENGTH, _NOMEMORY,
// _CLOSED.
uint8_t ripsawbean_replica_get(ripsawbean_replica *replica, const uint8_t *key, size_t key_length, uint8_t *out, size_t room, size_t *length);

// Shows all rows as lines "row KEY VALUE\n", keys rising, spelled as in the text of a scan; out and *length as above.
// It writes them anew each time. RIPSAWBEAN_OK, or *length is 0 and out is as it was: RIPSAWBEAN_NOMEMORY, _CLOSED.
uint8_t ripsawbean_replica_rows(ripsawbean_replica *replica, uint8_t *out, size_t room, size_t *length);

// Frees the replica, and leaves the handle closed. It may be opened again. A closed handle stays closed.
void ripsawbean_replica_close(ripsawbean_replica *replica);

// The name of a status, in lower case; "unknown" for a number that is none.
static inline const char *ripsawbean_status_name(uint8_t status) {
    static const char *const names[] = {
        "ok",          "wordcount", "unknowncommand", "number", "keylength", "valuelength", "session", "nonewline", "linetoolong",
        "badbyte",     "reply",     "follow",         "nomemory", "spent",   "unwritten",   "ring",    "closed",    "open",
        "nomessage",   "notafter",  "outsidespan",    "resolvedback", "nofeed", "novalue", "belowhorizon", "answertoolong",
        "processor",
    };
    return status < sizeof names / sizeof *names ? names[status] : "unknown";
}

// The name of an answer's kind, as texts have it; "unknown" for a number that is none, and for that of no answer.
static inline const char *ripsawbean_answer_name(uint8_t kind) {
    static const char *const done[] = {
        "unknown", "started", "none",     "value",     "written", "committed", "aborted", "closed",
        "messages", "rows",   "protected", "released", "collected", "opened",  "cancelled", "stats",
    };
    static const char *const refused[] = {
        "belowclosed", "tsused",    "tsrange",      "blocked",      "notxn",  "notowner",      "ended",    "toolate",
        "notclosed",   "belowhorizon", "noprotection", "nofeed", "feedcancelled", "nomemory", "gaprange",
    };
    if (kind < sizeof done / sizeof *done) return done[kind];
    if (kind < RIPSAWBEAN_ANSWER_REFUSED || kind - RIPSAWBEAN_ANSWER_REFUSED >= (int)(sizeof refused / sizeof *refused)) return "unknown";
    return refused[kind - RIPSAWBEAN_ANSWER_REFUSED];
}

#ifdef __cplusplus
}
#endif

#endif
