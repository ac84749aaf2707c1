// Random histories, whose feeds are followed by replicas: `replica_feeds COUNT SEED` ends once COUNT feeds were opened,
// or at the first difference. Two replicas follow each feed:
//
//     steady   takes each message once, in order. Wherever it has the map, its rows are those of a scan there. Now and
//              then it goes on with another feed, from where it was told all, also between resolved messages
//     shaken   has messages left out, repeated, late, or of another key
//
// Both are compared with a plain reading of the definitions after each message, and have growths of memory refused.
#include "testing.h"

#include <inttypes.h>
#include <stdarg.h>

enum { KEYS = 5, VALUES = 3, TURNS = 40, MOST_MESSAGES = 200, NO_VALUE = VALUES, LATE = 4 };

// Words, as lines spell them and as messages do. The keys rise.
typedef struct {
    const char *spelled, *base64;
} word;
static const word keys[KEYS] = {
    {"a", "YQ=="}, {"b", "Yg=="}, {"d%20d", "ZCBk"}, {"eeeeeeeeeeee", "ZWVlZWVlZWVlZWVl"}, {"%FF", "/w=="},
};
static const word values[VALUES] = {{"-", ""}, {"1", "MQ=="}, {"%2D", "LQ=="}};

typedef struct {
    bool is_row;
    unsigned key, value; // of a row; NO_VALUE for a delete
    uint64_t time;
    char line[100];
} message;

// A replica, and a plain reading of what it has taken.
typedef struct {
    ripsawbean_replica handle;
    unsigned lo, hi;     // the span, by the keys' places
    uint64_t cursor;
    uint64_t resolved;   // the last one, or above which the feed tells
    uint64_t through;    // all was told
    uint64_t complete;   // after a resolved message, or RIPSAWBEAN_NONE
    bool has_row;
    message last;        // the row that was taken last
    unsigned has[KEYS];  // values
} follower;

static struct {
    unsigned long feeds, resumed, messages, scans, notafter, outside, back;
} counts;

// ---- the database

static ripsawbean db;
static char text[1 << 16];

// Makes a call: its answer.
static const char *make(const char *format, ...) __attribute__((format(printf, 1, 2)));
static const char *make(const char *format, ...) {
    char line[200];
    va_list arguments;
    va_start(arguments, format);
    size_t line_length = (size_t)vsnprintf(line, sizeof line, format, arguments), length = 0;
    va_end(arguments);
    const uint8_t *at = line_of(line, line_length);
    CHECK(ripsawbean_call(&db, at, line_length, (uint8_t *)text, sizeof text - 1, &length) == RIPSAWBEAN_OK);
    CHECK(length < sizeof text);
    text[length] = '\0';
    doing = text;
    return strstr(text, " => ") + 4;
}

static uint64_t number(const char *answer, const char *expected) {
    CHECK(strncmp(answer, expected, strlen(expected)) == 0 && answer[strlen(expected)] == ' ');
    return strtoull(answer + strlen(expected), NULL, 10);
}

static const char *lo_of(const follower *f) {
    return f->lo == 0 ? "-" : keys[f->lo].spelled;
}

static const char *hi_of(const follower *f) {
    return f->hi == KEYS ? "-" : keys[f->hi].spelled;
}

// The lines of a scan's rows, in the text of its call.
static const char *scan(const follower *f, uint64_t at) {
    number(make("0 scanat %" PRIu64 " %s %s\n", at, lo_of(f), hi_of(f)), "rows");
    counts.scans++;
    return strchr(text, '\n') + 1;
}

static unsigned place(const word *among, unsigned most, const char *base64) {
    for (unsigned i = 0; i < most; i++)
        if (strcmp(among[i].base64, base64) == 0) return i;
    return most;
}

static message row(unsigned key, unsigned value, uint64_t time) {
    message m = {.is_row = true, .key = key, .value = value, .time = time};
    char after[20] = "null";
    if (value != NO_VALUE) snprintf(after, sizeof after, "\"%s\"", values[value].base64);
    snprintf(m.line, sizeof m.line, "{\"after\":%s,\"key\":\"%s\",\"updated\":\"%" PRIu64 "\"}\n", after,
             keys[key].base64, time);
    return m;
}

// The message of a line in a poll's text.
static message message_of(const char *line) {
    message m = {.is_row = false};
    char after[20], key[20];
    size_t length = (size_t)(strchr(line, '\n') - line) + 1;
    CHECK(length < sizeof m.line);
    memcpy(m.line, line, length);
    if (sscanf(m.line, "{\"resolved\":\"%" SCNu64, &m.time) == 1) return m;
    CHECK(sscanf(m.line, "{\"after\":%19[^,],\"key\":\"%19[^\"]\",\"updated\":\"%" SCNu64, after, key, &m.time) == 3);
    bool is_null = strcmp(after, "null") == 0;
    if (!is_null) after[strlen(after) - 1] = '\0';
    return row(place(keys, KEYS, key), is_null ? NO_VALUE : place(values, VALUES, after + 1), m.time);
}

// ---- replicas, and a plain reading of the definitions

// Why a message is refused, if it is.
static uint8_t fault(const follower *f, const message *m) {
    bool is_above = m->time > f->resolved, reaches = !f->has_row || f->last.time <= m->time;
    if (!m->is_row) return is_above && reaches ? RIPSAWBEAN_OK : RIPSAWBEAN_RESOLVEDBACK;
    bool is_after = !f->has_row || f->last.time < m->time || (f->last.time == m->time && f->last.key < m->key);
    if (!is_above || !is_after) return RIPSAWBEAN_NOTAFTER;
    return f->lo <= m->key && m->key < f->hi ? RIPSAWBEAN_OK : RIPSAWBEAN_OUTSIDESPAN;
}

static uint64_t ready(const follower *f, const message *m) {
    bool is_first = m->is_row && m->time > f->cursor && (!f->has_row || f->last.time != m->time);
    return is_first && fault(f, m) == RIPSAWBEAN_OK ? m->time - 1 : RIPSAWBEAN_NONE;
}

static void read_message(follower *f, const message *m) {
    if (m->is_row) {
        f->has_row = true;
        f->last = *m;
        f->has[m->key] = m->value;
        f->through = m->time - 1;
        f->complete = RIPSAWBEAN_NONE;
    } else {
        f->resolved = f->through = f->complete = m->time;
    }
}

static bool has_rows(follower *f, const char *rows) {
    size_t whole = strlen(rows), room = one_in(3) ? below(whole + 1) : whole + below(3), length = 12345;
    size_t shown = room < whole ? room : whole;
    uint8_t *out = out_of(room);
    CHECK(ripsawbean_replica_rows(&f->handle, out, room, &length) == RIPSAWBEAN_OK);
    return length == whole && memcmp(out, rows, shown) == 0 && is_sand(out, shown, room);
}

// The replica shows what the reading has.
static void see(follower *f) {
    uint64_t through, at;
    CHECK(ripsawbean_replica_complete(&f->handle, &through, &at) == RIPSAWBEAN_OK);
    CHECK(through == (f->through < f->cursor ? RIPSAWBEAN_NONE : f->through));
    CHECK(at == f->complete);
    char rows[KEYS * 30] = "";
    for (unsigned key = 0; key < KEYS; key++) {
        unsigned value = f->has[key];
        if (value != NO_VALUE) sprintf(rows + strlen(rows), "row %s %s\n", keys[key].spelled, values[value].spelled);
    }
    CHECK(has_rows(f, rows));
}

// Gives a message to the replica, which takes it or refuses it as the reading does.
static void give(follower *f, const message *m) {
    uint8_t expected = fault(f, m), status;
    const uint8_t *line = line_of(m->line, strlen(m->line));
    uint64_t at;
    doing = m->line;
    CHECK(ripsawbean_replica_ready(&f->handle, line, strlen(m->line), &at) == RIPSAWBEAN_OK && at == ready(f, m));
    for (;;) {
        if (one_in(8)) refuse_after(below(8));
        status = ripsawbean_replica_take(&f->handle, line, strlen(m->line));
        if (!refuse_none() || status != RIPSAWBEAN_NOMEMORY) break;
        see(f);
    }
    CHECK(status == expected);
    if (status == RIPSAWBEAN_OK) read_message(f, m);
    counts.messages++;
    counts.notafter += status == RIPSAWBEAN_NOTAFTER;
    counts.outside += status == RIPSAWBEAN_OUTSIDESPAN;
    counts.back += status == RIPSAWBEAN_RESOLVEDBACK;
    see(f);
}

// Opens a replica of a feed that was opened so, which begins with these rows of its cursor where it is no initial one.
static void begin(follower *f, const char *command, const char *gap, const char *rows) {
    bool is_initial = strstr(command, "initial") != NULL;
    char line[200];
    snprintf(line, sizeof line, "0 %s %s %s %" PRIu64 "%s\n", command, lo_of(f), hi_of(f), f->cursor, gap);
    const uint8_t *opening = line_of(line, strlen(line)), *told = other_of(rows, strlen(rows));
    if (is_initial) CHECK(ripsawbean_replica_open(&f->handle, opening, strlen(line)) == RIPSAWBEAN_OK);
    else CHECK(ripsawbean_replica_begin(&f->handle, opening, strlen(line), told, strlen(rows)) == RIPSAWBEAN_OK);
    f->resolved = f->through = is_initial && f->cursor > 0 ? f->cursor - 1 : f->cursor;
    f->complete = is_initial ? RIPSAWBEAN_NONE : f->cursor;
    f->has_row = false;
    for (unsigned key = 0; key < KEYS; key++) {
        f->has[key] = NO_VALUE;
        for (unsigned value = 0; value < VALUES; value++) {
            snprintf(line, sizeof line, "row %s %s\n", keys[key].spelled, values[value].spelled);
            if (!is_initial && strstr(rows, line) != NULL) f->has[key] = value;
        }
    }
    see(f);
}

// ---- histories

static follower steady, shaken;
static uint64_t now, closed, feed, went_on;
static message late[LATE]; // of time 0 where there is none

static void commit(void) {
    now += 1 + below(3);
    make("0 begin %" PRIu64 "\n", now);
    for (uint64_t writes = below(4); writes > 0; writes--) {
        const char *key = keys[below(KEYS)].spelled;
        if (one_in(3)) make("0 del %" PRIu64 " %s\n", now, key);
        else make("0 put %" PRIu64 " %s %s\n", now, key, values[below(VALUES)].spelled);
    }
    make("0 commit %" PRIu64 "\n", now);
}

static void close_both(void) {
    ripsawbean_replica_close(&steady.handle);
    ripsawbean_replica_close(&shaken.handle);
}

// Opens both replicas, which begin alike.
static void begin_both(const char *command, const char *gap, const char *rows) {
    close_both();
    begin(&steady, command, gap, rows);
    shaken = (follower){.handle = shaken.handle, .lo = steady.lo, .hi = steady.hi, .cursor = steady.cursor};
    begin(&shaken, command, gap, rows);
    for (unsigned i = 0; i < LATE; i++) late[i].time = 0;
    counts.feeds++;
}

static void open_feed(void) {
    static const char *const commands[] = {"open", "openinitial", "openevery", "openinitialevery"};
    const char *command = commands[below(4)];
    char gap[20] = "", rows[200];
    if (strstr(command, "every") != NULL) snprintf(gap, sizeof gap, " %" PRIu64, 1 + below(7));
    if (feed > 0) make("1 cancel %" PRIu64 "\n", feed);
    steady.lo = one_in(2) ? 0 : (unsigned)below(KEYS);
    steady.hi = one_in(2) ? KEYS : steady.lo + (unsigned)below(KEYS + 1 - steady.lo);
    steady.cursor = closed;
    snprintf(rows, sizeof rows, "%s", scan(&steady, closed));
    feed = number(make("1 %s %s %s %" PRIu64 "%s\n", command, lo_of(&steady), hi_of(&steady), closed, gap), "opened");
    went_on = RIPSAWBEAN_NONE;
    begin_both(command, gap, rows);
}

// A new feed and new replicas, from where the steady one was told all.
static void go_on(void) {
    uint64_t through, at;
    CHECK(ripsawbean_replica_complete(&steady.handle, &through, &at) == RIPSAWBEAN_OK);
    if (through == RIPSAWBEAN_NONE) return;
    uint8_t rows[200];
    size_t length;
    CHECK(ripsawbean_replica_rows(&steady.handle, rows, sizeof rows - 1, &length) == RIPSAWBEAN_OK);
    CHECK(length < sizeof rows);
    rows[length] = '\0';
    uint64_t next = number(make("1 open %s %s %" PRIu64 "\n", lo_of(&steady), hi_of(&steady), through), "opened");
    make("1 cancel %" PRIu64 "\n", feed);
    feed = next;
    steady.cursor = went_on = through; // some rows may be of the next timestamp, so there they are no map
    begin_both("open", "", (const char *)rows);
    counts.resumed++;
}

static void give_shaken(const message *m) {
    message *kept = &late[below(LATE)], other = *m;
    switch (below(8)) {
    case 0:
        *kept = *m;
        return;
    case 1:
        give(&shaken, m);
        give(&shaken, m);
        return;
    case 2:
        if (kept->time > 0) give(&shaken, kept);
        break;
    case 3:
        if (m->is_row) other = row((unsigned)below(KEYS), m->value, m->time);
        give(&shaken, &other);
        break;
    }
    give(&shaken, m);
}

static void poll(void) {
    static const uint64_t most[] = {0, 1, 2, MOST_MESSAGES};
    static message told[MOST_MESSAGES];
    uint64_t count = number(make("1 poll %" PRIu64 " %" PRIu64 "\n", feed, most[below(4)]), "messages");
    const char *line = strchr(text, '\n') + 1;
    for (uint64_t i = 0; i < count; i++, line = strchr(line, '\n') + 1) told[i] = message_of(line);
    for (uint64_t i = 0; i < count; i++) {
        uint64_t at = ready(&steady, &told[i]);
        if (at != RIPSAWBEAN_NONE && at != went_on) CHECK(has_rows(&steady, scan(&steady, at)));
        CHECK(fault(&steady, &told[i]) == RIPSAWBEAN_OK);
        give(&steady, &told[i]);
        if (!told[i].is_row) CHECK(has_rows(&steady, scan(&steady, told[i].time)));
        give_shaken(&told[i]);
    }
}

static void play(void) {
    CHECK(ripsawbean_open(&db, 1 + (uint32_t)below(4)) == RIPSAWBEAN_OK);
    now = closed = feed = 0;
    for (unsigned turn = 0; turn < TURNS; turn++) {
        commit();
        if (one_in(2)) closed = number(make("0 close %" PRIu64 "\n", now), "closed");
        if (feed == 0 || one_in(20)) open_feed();
        poll();
        if (one_in(10)) go_on();
        if (one_in(5)) number(make("0 collect %" PRIu64 "\n", closed), "collected");
    }
    close_both();
    ripsawbean_close(&db);
}

int main(int count, char **words) {
    if (count != 3) {
        fputs("replica_feeds COUNT SEED\n", stderr);
        return 1;
    }
    set_dice(strtoull(words[2], NULL, 10));
    make_guarded(300, 4096);
    while (counts.feeds < strtoul(words[1], NULL, 10)) play();
    CHECK(counts.resumed > 0 && counts.notafter > 0 && counts.outside > 0 && counts.back > 0 && growths_refused > 0);
    printf("replica feeds: %lu feeds, %lu resumed, %lu messages", counts.feeds, counts.resumed, counts.messages);
    printf(", %lu scans, refused %lu notafter, %lu outsidespan", counts.scans, counts.notafter, counts.outside);
    printf(", %lu resolvedback, %lu growths\n", counts.back, growths_refused);
    return 0;
}
