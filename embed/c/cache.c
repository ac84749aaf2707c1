// A cache that follows a feed, and says at which timestamp it is complete.
//
// A cache keeps the rows of a span of keys. It begins empty over an initial feed, takes the feed's messages one at a
// time, and refuses what no feed tells, by the rules of crates/replica:
//
//     message        it is refused where                                            else
//     row            its timestamp is at or below what was resolved last, or        the row is kept, or taken out where it is a
//                    it doesn't come after the row before it: notafter;             delete. The cache is not complete:
//                    its key lies outside the span: outsidespan                     half of a transaction may have been told
//     resolved T     T is at or below what was resolved last, or below the row      the cache is complete: its rows are those of
//                    before it: resolvedback                                        the database at T, for good
//
// A refusal changes nothing, and neither does running out of memory. The program writes each event's text as the database made
// it, and between them what the cache has, in lines that begin with "cache:". Without these lines it is a transcript
// for `mvfeed check`, behind a first line "mvfeed 2".
#include "ripsawbean.h"

#include <inttypes.h>
#include <stdarg.h>
#include <stdio.h>
#include <stdlib.h>
#include <string.h>

static void fail(const char *what) {
    fprintf(stderr, "cache: %s\n", what);
    exit(EXIT_FAILURE);
}

static void *or_fail(void *block) {
    if (block == NULL) fail("no memory");
    return block;
}

// ---- bytes: keys, values and bounds

typedef struct {
    uint8_t *at; // null only where there is none
    size_t length;
} bytes;

static bool is_none(bytes b) {
    return b.at == NULL;
}

static int compare(bytes one, bytes other) {
    size_t shorter = one.length < other.length ? one.length : other.length;
    int order = shorter == 0 ? 0 : memcmp(one.at, other.at, shorter);
    return order != 0 ? order : (one.length > other.length) - (one.length < other.length);
}

// A copy, or none where there is no memory.
static bytes copy(bytes b) {
    bytes made = {malloc(b.length + 1), b.length};
    if (!is_none(made) && b.length > 0) memcpy(made.at, b.at, b.length);
    return made;
}

// A word spells bytes: a printable byte other than % is itself, and any other is % with two digits. "-" is no bytes,
// and %2D the single byte "-".
static void print_word(bytes b) {
    if (b.length == 0) fputs("-", stdout);
    for (size_t i = 0; i < b.length; i++) {
        bool is_dash = b.length == 1 && b.at[i] == '-';
        if (b.at[i] > ' ' && b.at[i] <= '~' && b.at[i] != '%' && !is_dash) putchar(b.at[i]);
        else printf("%%%02X", (unsigned)b.at[i]);
    }
}

static uint8_t digit(char c) {
    return (uint8_t)(c <= '9' ? c - '0' : c - 'A' + 10);
}

// The bytes of a word that the database wrote, up to a space or the line's end, and where the word ends.
static const char *read_word(const char *word, bytes *found) {
    size_t length = strcspn(word, " \n");
    *found = (bytes){or_fail(malloc(length + 1)), 0};
    if (length == 1 && word[0] == '-') return word + 1;
    for (const char *at = word; at < word + length; at++) {
        uint8_t byte = (uint8_t)*at;
        if (byte == '%') {
            byte = (uint8_t)(digit(at[1]) * 16 + digit(at[2]));
            at += 2;
        }
        found->at[found->length++] = byte;
    }
    return word + length;
}

// ---- messages of a feed, as lines of JSON

typedef struct {
    bool is_resolved;
    uint64_t ts;  // of the row, or what is resolved
    bytes key;    // of a row
    bytes after;  // of a row: its value, none for a delete
} message;

static const char *skip(const char *text, const char *expected) {
    size_t length = strlen(expected);
    if (strncmp(text, expected, length) != 0) fail("a message is of another form");
    return text + length;
}

static const char *read_base64(const char *text, bytes *found) {
    static const char symbols[] = "ABCDEFGHIJKLMNOPQRSTUVWXYZabcdefghijklmnopqrstuvwxyz0123456789+/";
    size_t length = strcspn(text, "\"=");
    *found = (bytes){or_fail(malloc(length + 1)), 0};
    uint32_t bits = 0;
    for (size_t i = 0; i < length; i++) {
        const char *symbol = memchr(symbols, text[i], 64);
        if (symbol == NULL) fail("a message is of another form");
        bits = bits << 6 | (uint32_t)(symbol - symbols);
        // The first symbol of four ends no byte; each of the others ends one.
        if (i % 4 != 0) found->at[found->length++] = (uint8_t)(bits >> (6 - 2 * (i % 4)));
    }
    return text + length + strspn(text + length, "=");
}

static const char *read_number(const char *text, uint64_t *found) {
    char *end;
    *found = strtoull(text, &end, 10);
    return end;
}

// Reads a message and its newline.
static const char *read_message(const char *text, message *found) {
    *found = (message){.is_resolved = strncmp(text, "{\"resolved\":", 12) == 0};
    if (found->is_resolved) return skip(read_number(skip(text, "{\"resolved\":\""), &found->ts), "\"}\n");
    text = skip(text, "{\"after\":");
    if (*text == 'n') text = skip(text, "null");
    else text = skip(read_base64(skip(text, "\""), &found->after), "\"");
    text = skip(read_base64(skip(text, ",\"key\":\""), &found->key), "\"");
    return skip(read_number(skip(text, ",\"updated\":\""), &found->ts), "\"}\n");
}

static void free_message(message *m) {
    free(m->key.at);
    free(m->after.at);
}

// ---- the cache

typedef enum { TAKEN, NOT_AFTER, OUTSIDE_SPAN, RESOLVED_BACK, NO_MEMORY } outcome;

static const char *const outcome_names[] = {"taken", "notafter", "outsidespan", "resolvedback", "nomemory"};

typedef struct {
    bytes key;
    bytes value;
} row;

typedef struct {
    bytes lo, hi;         // its span: the keys at or above lo and below hi; none is no bound
    uint64_t resolved;    // what was resolved last, or where it began
    uint64_t last_ts;     // the row that was taken last, and its key, none at first
    bytes last_key;
    bool is_complete;     // whether its rows are those of the database at `resolved`
    row *rows;            // keys rising
    size_t count, room;
} cache;

// An empty cache, for an initial feed of a span that was opened at t. Such a feed tells what stands at t as rows of t,
// so what is told is above t - 1.
static cache new_cache(bytes lo, bytes hi, uint64_t t) {
    return (cache){.lo = lo, .hi = hi, .resolved = t == 0 ? 0 : t - 1};
}

static void free_cache(cache *c) {
    for (size_t i = 0; i < c->count; i++) {
        free(c->rows[i].key.at);
        free(c->rows[i].value.at);
    }
    free(c->rows);
    free(c->last_key.at);
    *c = (cache){0};
}

static bool is_inside(const cache *c, bytes key) {
    return (is_none(c->lo) || compare(c->lo, key) <= 0) && (is_none(c->hi) || compare(key, c->hi) < 0);
}

// Rows come by timestamp, and then by key.
static bool comes_after_last(const cache *c, uint64_t ts, bytes key) {
    if (is_none(c->last_key) || c->last_ts < ts) return true;
    return c->last_ts == ts && compare(c->last_key, key) < 0;
}

// Where a key stands among the rows, or where it would.
static size_t place_of(const cache *c, bytes key) {
    size_t low = 0, high = c->count;
    while (low < high) {
        size_t middle = low + (high - low) / 2;
        if (compare(c->rows[middle].key, key) < 0) low = middle + 1;
        else high = middle;
    }
    return low;
}

static bool has_at(const cache *c, size_t at, bytes key) {
    return at < c->count && compare(c->rows[at].key, key) == 0;
}

static bool make_room(cache *c) {
    if (c->count < c->room) return true;
    size_t room = c->room == 0 ? 8 : 2 * c->room;
    row *rows = realloc(c->rows, room * sizeof *rows);
    if (rows == NULL) return false;
    c->rows = rows;
    c->room = room;
    return true;
}

static void take_out(cache *c, size_t at) {
    free(c->rows[at].key.at);
    free(c->rows[at].value.at);
    c->count--;
    memmove(c->rows + at, c->rows + at + 1, (c->count - at) * sizeof *c->rows);
}

static void put_in(cache *c, size_t at, bytes key, bytes value) {
    if (has_at(c, at, key)) {
        free(c->rows[at].value.at);
        c->rows[at].value = value;
        free(key.at);
        return;
    }
    memmove(c->rows + at + 1, c->rows + at, (c->count - at) * sizeof *c->rows);
    c->rows[at] = (row){key, value};
    c->count++;
}

static outcome take_row(cache *c, const message *m) {
    if (m->ts <= c->resolved || !comes_after_last(c, m->ts, m->key)) return NOT_AFTER;
    if (!is_inside(c, m->key)) return OUTSIDE_SPAN;
    // What may find no memory comes first, so that a refusal changes nothing.
    bytes last = copy(m->key), key = {NULL, 0}, value = {NULL, 0};
    bool is_delete = is_none(m->after);
    if (!is_delete) {
        key = copy(m->key);
        value = copy(m->after);
    }
    if (is_none(last) || (!is_delete && (is_none(key) || is_none(value) || !make_room(c)))) {
        free(last.at);
        free(key.at);
        free(value.at);
        return NO_MEMORY;
    }
    size_t at = place_of(c, m->key);
    if (!is_delete) put_in(c, at, key, value);
    else if (has_at(c, at, m->key)) take_out(c, at);
    free(c->last_key.at);
    c->last_key = last;
    c->last_ts = m->ts;
    c->is_complete = false;
    return TAKEN;
}

static outcome take_resolved(cache *c, uint64_t t) {
    if (t <= c->resolved || (!is_none(c->last_key) && t < c->last_ts)) return RESOLVED_BACK;
    c->resolved = t;
    c->is_complete = true;
    return TAKEN;
}

static outcome take(cache *c, const message *m) {
    return m->is_resolved ? take_resolved(c, m->ts) : take_row(c, m);
}

static void show(const cache *c) {
    if (!c->is_complete) {
        printf("cache: %zu rows, not complete\n", c->count);
        return;
    }
    printf("cache: %zu rows, complete at %" PRIu64 "\n", c->count, c->resolved);
    for (size_t i = 0; i < c->count; i++) {
        fputs("cache: row ", stdout);
        print_word(c->rows[i].key);
        putchar(' ');
        print_word(c->rows[i].value);
        putchar('\n');
    }
}

// ---- the database

typedef struct {
    ripsawbean handle;
    char *text; // of the last event, with a zero byte behind it
    size_t room;
} database;

// Makes one call, writes its event's text, and lends it until the next call.
static const char *call(database *db, const char *format, ...) {
    char line[1000];
    va_list arguments;
    va_start(arguments, format);
    int line_length = vsnprintf(line, sizeof line, format, arguments);
    va_end(arguments);
    if (line_length < 0 || (size_t)line_length >= sizeof line) fail("the line is too long for this program");
    size_t length;
    uint8_t status = ripsawbean_call(&db->handle, (const uint8_t *)line, (size_t)line_length, (uint8_t *)db->text, db->room, &length);
    while (status == RIPSAWBEAN_OK && length >= db->room) {
        // The call is made. Its text is asked for again, with room for a zero byte besides.
        db->room = 2 * length;
        db->text = or_fail(realloc(db->text, db->room));
        status = ripsawbean_text(&db->handle, (uint8_t *)db->text, db->room, &length);
    }
    if (status != RIPSAWBEAN_OK) fail(ripsawbean_status_name(status));
    db->text[length] = '\0';
    fputs(db->text, stdout);
    return db->text;
}

// The answer of an event, and the lines behind it. It stands behind the last arrow of the first line that has a word
// after it: a key or a value may be spelled "=>" too.
static const char *answer_of(const char *text) {
    const char *end = strchr(text, '\n'), *answer = NULL;
    for (const char *arrow = strstr(text, " => "); arrow != NULL && arrow < end; arrow = strstr(arrow + 1, " => ")) answer = arrow + 4;
    if (answer == NULL) fail("an event is of another form");
    return answer;
}

// Polls a feed, and has the cache take what it tells. Whether all was told that is due.
static bool poll(database *db, cache *c, uint64_t feed, uint64_t most) {
    const char *text = answer_of(call(db, "1 poll %" PRIu64 " %" PRIu64 "\n", feed, most));
    if (strncmp(text, "messages ", 9) != 0) {
        puts("cache: the feed has ended");
        return true;
    }
    uint64_t count;
    text = read_number(text + 9, &count) + 1;
    for (uint64_t i = 0; i < count; i++) {
        message m;
        text = read_message(text, &m);
        outcome taken = take(c, &m);
        free_message(&m);
        if (taken != TAKEN) fail(outcome_names[taken]);
    }
    show(c);
    return count < most;
}

// Compares the cache with what the database has at the timestamp at which the cache is complete.
static void compare_with_scan(database *db, const cache *c, const char *span) {
    const char *text = answer_of(call(db, "0 scanat %" PRIu64 " %s\n", c->resolved, span));
    uint64_t count;
    text = read_number(text + strlen("rows "), &count) + 1;
    bool is_same = count == c->count;
    for (size_t i = 0; i < count; i++) {
        bytes key, value;
        text = read_word(text + strlen("row "), &key) + 1;
        text = read_word(text, &value) + 1;
        is_same = is_same && compare(c->rows[i].key, key) == 0 && compare(c->rows[i].value, value) == 0;
        free(key.at);
        free(value.at);
    }
    printf("cache: %s as the scan at %" PRIu64 "\n", is_same ? "the same rows" : "OTHER ROWS", c->resolved);
}

// Has the cache take a message that no feed tells.
static void offer(cache *c, const char *line) {
    message m;
    read_message(line, &m);
    printf("cache: %s: %s", outcome_names[take(c, &m)], line);
    free_message(&m);
}

// ---- the story

static bytes text_bytes(char *text) {
    return (bytes){(uint8_t *)text, strlen(text)};
}

int main(void) {
    database db = {.handle = RIPSAWBEAN_INITIALIZER, .text = or_fail(malloc(64)), .room = 64};
    if (ripsawbean_open(&db.handle, 1024) != RIPSAWBEAN_OK) fail("the database doesn't open");

    // Seat 0 writes fruit, and one tool. Keys and values are any bytes: %20 is a space, "-" the empty value, %2D a "-".
    call(&db, "0 begin 10\n");
    call(&db, "0 put 10 fruit/apple 3\n");
    call(&db, "0 put 10 fruit/a%%C3%%A7a%%C3%%AD a%%20cup\n");
    call(&db, "0 put 10 fruit/fig -\n");
    call(&db, "0 put 10 fruit/kiwi %%2D\n");
    call(&db, "0 put 10 tool/saw 1\n");
    call(&db, "0 commit 10\n");
    call(&db, "0 close 10\n");

    // Seat 1 follows the fruit: the keys from "fruit/" up to, and without, "fruit0".
    const char *span = "fruit/ fruit0";
    cache c = new_cache(text_bytes("fruit/"), text_bytes("fruit0"), 10);
    call(&db, "1 openinitial %s 10\n", span);
    while (!poll(&db, &c, 1, 3)) {}
    compare_with_scan(&db, &c, span);

    // Transactions commit in any order; nothing of them is told before it is closed.
    call(&db, "2 begin 30\n");
    call(&db, "2 put 30 fruit/apple 5\n");
    call(&db, "2 commit 30\n");
    call(&db, "0 begin 20\n");
    call(&db, "0 put 20 fruit/apple 4\n");
    call(&db, "0 del 20 fruit/fig\n");
    call(&db, "0 commit 20\n");
    poll(&db, &c, 1, 100);
    call(&db, "0 close 40\n");
    while (!poll(&db, &c, 1, 1)) {}
    compare_with_scan(&db, &c, span);

    // What no feed tells is refused, and changes nothing.
    offer(&c, "{\"after\":\"Nw==\",\"key\":\"ZnJ1aXQvYXBwbGU=\",\"updated\":\"40\"}\n");
    offer(&c, "{\"after\":\"Nw==\",\"key\":\"dG9vbC9zYXc=\",\"updated\":\"50\"}\n");
    offer(&c, "{\"resolved\":\"40\"}\n");
    show(&c);

    // The feed is cancelled. The cache was complete, so a new feed from there on continues it.
    call(&db, "2 cancel 1\n");
    poll(&db, &c, 1, 100);
    call(&db, "1 open %s %" PRIu64 "\n", span, c.resolved);
    call(&db, "0 begin 50\n");
    call(&db, "0 put 50 fruit/fig 7\n");
    call(&db, "0 commit 50\n");
    call(&db, "0 close 60\n");
    poll(&db, &c, 2, 100);
    compare_with_scan(&db, &c, span);

    free_cache(&c);
    free(db.text);
    ripsawbean_close(&db.handle);
    return EXIT_SUCCESS;
}
