// Lines drawn by dice: commands of what a database may know, and lines with a fault.
#ifndef DRAWING_H
#define DRAWING_H

#include "testing.h"

#include <inttypes.h>
#include <stdarg.h>

enum { MOST_LINE = 400000, TRANSACTIONS = 8, FEEDS = 64 };

typedef struct {
    ripsawbean handle;
    ripsawbean twin;    // called by single lines alone
    FILE *transcript;   // null where the handle is closed
    uint64_t made;      // events
    uint64_t most;      // events, after which it is closed
    char *last;         // the text of the last event
    size_t length;
    uint64_t clock;     // the greatest timestamp that was used
    struct {
        uint64_t ts;
        unsigned seat;
    } transactions[TRANSACTIONS];
    unsigned begun;
    unsigned owners[FEEDS]; // of feeds, by number from 1
    uint64_t opened, protected;
} database;

static char line[MOST_LINE];
static size_t line_length;

static void add(const char *format, ...) __attribute__((format(printf, 1, 2)));
static void add(const char *format, ...) {
    va_list arguments;
    va_start(arguments, format);
    line_length += (size_t)vsnprintf(line + line_length, sizeof line - line_length, format, arguments);
    va_end(arguments);
}

static void add_byte(uint8_t byte) {
    if (byte > ' ' && byte <= '~' && byte != '%') line[line_length++] = (char)byte;
    else add("%%%02X", byte);
}

static void add_bytes(size_t count) {
    uint8_t first = (uint8_t)below(256);
    for (size_t i = 0; i < count; i++) add_byte(count < 20 ? (uint8_t)below(256) : first);
}

static void add_key(void) {
    line[line_length++] = ' ';
    if (one_in(60)) {
        add_bytes(200 + below(57));
    } else if (one_in(10)) {
        line[line_length++] = 'b';
        add_bytes(1 + below(3));
    } else if (one_in(20)) {
        add(one_in(2) ? "=>" : "%%2D");
    } else {
        line[line_length++] = (char)('a' + below(6));
    }
}

static void add_bound(void) {
    if (one_in(3)) add(" -");
    else add_key();
}

static void add_value(void) {
    line[line_length++] = ' ';
    size_t count = one_in(700) ? 60000 + below(5537) : one_in(20) ? below(500) : below(6);
    // No bytes, and a single "-", have spellings of their own.
    if (count < 2) add(one_in(3) ? "%%2D" : one_in(2) ? "-" : "%" PRIu64, below(10));
    else add_bytes(count);
}

static uint64_t near_timestamp(const database *db) {
    if (one_in(60)) return one_in(2) ? 0 : UINT64_C(9223372036854775807) + below(3);
    uint64_t back = below(12);
    return back < db->clock ? db->clock - back : 1;
}

// The beginning of a line: its seat and a command.
static void start(unsigned seat, const char *name) {
    line_length = 0;
    add("%u %s", seat, name);
}

// A transaction's command, mostly of one that began.
static void start_in_transaction(const database *db, const char *name) {
    if (db->begun > 0 && !one_in(12)) {
        unsigned at = (unsigned)below(db->begun < TRANSACTIONS ? db->begun : TRANSACTIONS);
        start(db->transactions[at].seat, name);
        add(" %" PRIu64, db->transactions[at].ts);
    } else {
        start((unsigned)below(64), name);
        add(" %" PRIu64, near_timestamp(db));
    }
}

// A line that is a command.
static void make_line(database *db) {
    static const char *const kinds[] = {"begin", "get",    "put",     "put",     "put",     "del",     "commit", "commit", "abort", "scan",
                                        "close", "readat", "scanat",  "protect", "release", "collect", "open",   "poll",   "poll",  "stats",
                                        "put",   "get",    "cancel",  "begin",   "begin",   "hard",
                                        "openinitial", "openevery", "openinitialevery"};
    const char *kind = kinds[below(sizeof kinds / sizeof *kinds)];
    unsigned seat = (unsigned)below(one_in(10) ? 64 : 4);
    if (strcmp(kind, "begin") == 0) {
        start(seat, "begin");
        add(" %" PRIu64, one_in(5) ? near_timestamp(db) : db->clock + 1 + below(3));
    } else if (strcmp(kind, "get") == 0) {
        start_in_transaction(db, "get");
        add_key();
    } else if (strcmp(kind, "put") == 0) {
        start_in_transaction(db, "put");
        add_key();
        add_value();
    } else if (strcmp(kind, "del") == 0) {
        start_in_transaction(db, "del");
        add_key();
    } else if (strcmp(kind, "commit") == 0) {
        start_in_transaction(db, "commit");
    } else if (strcmp(kind, "abort") == 0) {
        if (one_in(2)) start_in_transaction(db, "abort");
        else start_in_transaction(db, "commit");
    } else if (strcmp(kind, "scan") == 0) {
        start_in_transaction(db, "scan");
        add_bound();
        add_bound();
    } else if (strcmp(kind, "close") == 0) {
        start(seat, "close");
        add(" %" PRIu64, near_timestamp(db));
    } else if (strcmp(kind, "hard") == 0) {
        start(seat, one_in(4) ? "closehard" : "close");
        add(" %" PRIu64, near_timestamp(db));
    } else if (strcmp(kind, "readat") == 0) {
        start(seat, "readat");
        add(" %" PRIu64, near_timestamp(db));
        add_key();
    } else if (strcmp(kind, "scanat") == 0) {
        start(seat, "scanat");
        add(" %" PRIu64, near_timestamp(db));
        add_bound();
        add_bound();
    } else if (strcmp(kind, "protect") == 0) {
        start(seat, "protect");
        add(" %" PRIu64, near_timestamp(db));
    } else if (strcmp(kind, "release") == 0) {
        start(seat, "release");
        add(" %" PRIu64, below(db->protected + 2));
    } else if (strcmp(kind, "collect") == 0) {
        start(seat, "collect");
        add(" %" PRIu64, near_timestamp(db));
    } else if (strncmp(kind, "open", 4) == 0) {
        start(seat, kind);
        add_bound();
        add_bound();
        add(" %" PRIu64, one_in(3) ? 0 : near_timestamp(db));
        if (strstr(kind, "every")) add(" %" PRIu64, below(6));
    } else if (strcmp(kind, "poll") == 0) {
        uint64_t feed = below(db->opened + 2);
        bool is_known = feed > 0 && feed <= db->opened && feed <= FEEDS;
        start(is_known && !one_in(10) ? db->owners[feed - 1] : seat, "poll");
        add(" %" PRIu64 " %" PRIu64, feed, one_in(20) ? UINT64_MAX : below(7));
    } else if (strcmp(kind, "cancel") == 0) {
        start(seat, "cancel");
        add(" %" PRIu64, below(db->opened + 2) + (one_in(2) ? 0 : 1000));
    } else {
        start(seat, "stats");
    }
    line[line_length++] = '\n';
}

// Puts a byte into the line.
static void insert(size_t at, char byte) {
    memmove(line + at + 1, line + at, line_length - at);
    line[at] = byte;
    line_length++;
}

// A line with one fault, whose status is told.
static uint8_t make_fault(database *db) {
    make_line(db);
    switch (below(10)) {
    case 0:
        line_length--;
        return RIPSAWBEAN_NONEWLINE;
    case 1:
        insert(below(line_length), (char)(one_in(2) ? below(' ') : 127 + below(129)));
        return RIPSAWBEAN_BADBYTE;
    case 2:
        insert(line_length - 1, 'x');
        insert(line_length - 2, ' ');
        return RIPSAWBEAN_WORDCOUNT;
    case 3:
        insert((size_t)(strchr(line, ' ') - line), ' ');
        return RIPSAWBEAN_WORDCOUNT;
    case 4:
        insert((size_t)(strchr(line, ' ') - line) + 1, 'x');
        return RIPSAWBEAN_UNKNOWNCOMMAND;
    case 5:
        insert(0, (char)('7' + below(3)));
        return RIPSAWBEAN_SESSION;
    case 6:
        start((unsigned)below(64), "close 0");
        add("%" PRIu64 "\n", below(10));
        return RIPSAWBEAN_NUMBER;
    case 7:
        start((unsigned)below(64), "get 1 ");
        if (one_in(2)) add("-\n");
        else add("%0*d\n", 257 + (int)below(10), 0);
        return RIPSAWBEAN_KEYLENGTH;
    case 8:
        if (!one_in(10)) {
            start((unsigned)below(64), "put 1 a\n");
            return RIPSAWBEAN_WORDCOUNT;
        }
        start((unsigned)below(64), "put 1 a ");
        add_bytes(65537 + below(1000));
        add("\n");
        return line_length > 200001 ? RIPSAWBEAN_LINETOOLONG : RIPSAWBEAN_VALUELENGTH;
    default:
        if (!one_in(10)) {
            start((unsigned)below(64), "scan 1 - %41\n");
            return RIPSAWBEAN_BADBYTE;
        }
        while (line_length < 200002) line[line_length++] = (char)below(256);
        return RIPSAWBEAN_LINETOOLONG;
    }
}

// A line with a byte changed, taken out or put in. It may still be a command.
static void mangle(database *db) {
    make_line(db);
    size_t at = below(line_length);
    if (one_in(3)) {
        memmove(line + at, line + at + 1, line_length - at - 1);
        line_length--;
    } else if (one_in(2)) {
        line[at] = (char)(' ' + below(95));
    } else {
        insert(at, (char)(' ' + below(95)));
    }
}

#endif
