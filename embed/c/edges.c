// Tests at their edges what ripsawbean.h promises. `edges FOLDER` writes the transcripts of its databases into a
// folder, for `mvfeed check`, and says how many checks passed. It ends at the first that doesn't.
//
// Not tested: RIPSAWBEAN_SPENT, which takes 18446744073709551615 calls.
#include "testing.h"

#define ROOM 4000000

// A database under test, and what it must show.
typedef struct {
    ripsawbean handle;
    uint64_t made;   // events
    char *last;      // the text of the last event
    size_t length;
    FILE *transcript;
} database;

static const char *folder;
static unsigned transcripts;

static void begin(database *db, uint32_t ring) {
    *db = (database){.handle = RIPSAWBEAN_INITIALIZER};
    CHECK(ripsawbean_open(&db->handle, ring) == RIPSAWBEAN_OK);
    char path[4096];
    snprintf(path, sizeof path, "%s/edges-%u", folder, ++transcripts);
    db->transcript = fopen(path, "w");
    CHECK(db->transcript != NULL);
    fputs("mvfeed 2\n", db->transcript);
}

static void end(database *db) {
    ripsawbean_close(&db->handle);
    CHECK(!db->handle.is_open);
    free(db->last);
    CHECK(fclose(db->transcript) == 0);
}

// Asks for the last text with some room, and compares it with what is known.
static void see_last(database *db, size_t room) {
    uint8_t *out = out_of(room);
    size_t length = 12345;
    CHECK(ripsawbean_text(&db->handle, out, room, &length) == RIPSAWBEAN_OK);
    CHECK(length == db->length);
    size_t shown = length < room ? length : room;
    CHECK(shown == 0 || memcmp(out, db->last, shown) == 0);
    CHECK(is_sand(out, shown, room));
}

// Takes the text of a call that was made: it is the next event, of this very line.
static void take_event(database *db, const uint8_t *line, size_t line_length) {
    size_t length = 0;
    CHECK(ripsawbean_text(&db->handle, out_of(0), 0, &length) == RIPSAWBEAN_OK);
    CHECK(length > 0);
    uint8_t *out = out_of(length);
    CHECK(ripsawbean_text(&db->handle, out, length, &length) == RIPSAWBEAN_OK);
    char position[32];
    size_t digits = (size_t)snprintf(position, sizeof position, "%llu ", (unsigned long long)db->made);
    CHECK(length > digits + line_length + 3);
    CHECK(memcmp(out, position, digits) == 0);
    CHECK(memcmp(out + digits, line, line_length - 1) == 0);
    CHECK(memcmp(out + digits + line_length - 1, " => ", 4) == 0);
    CHECK(out[length - 1] == '\n');
    for (size_t i = 0; i < length; i++) CHECK(out[i] == '\n' || (out[i] >= ' ' && out[i] <= '~'));
    free(db->last);
    db->last = malloc(length + 1);
    CHECK(db->last != NULL);
    memcpy(db->last, out, length);
    db->last[length] = '\0';
    db->length = length;
    db->made++;
    CHECK(fwrite(out, 1, length, db->transcript) == length);
}

static const char *answer(const database *db) {
    const char *end = strchr(db->last, '\n'), *found = NULL;
    for (const char *at = strstr(db->last, " => "); at != NULL && at < end; at = strstr(at + 1, " => ")) found = at + 4;
    CHECK(found != NULL);
    return found;
}

static bool answers(const database *db, const char *expected) {
    return strncmp(answer(db), expected, strlen(expected)) == 0 && answer(db)[strlen(expected)] == '\n';
}

// Makes one call with some room, and looks at all that it leaves.
static uint8_t call_bytes(database *db, const void *text, size_t line_length, size_t room) {
    uint8_t *line = line_of(text, line_length), *out = out_of(room);
    size_t length = 12345;
    uint8_t status = ripsawbean_call(&db->handle, line, line_length, out, room, &length);
    CHECK(line_length == 0 || memcmp(line, text, line_length) == 0);
    if (status == RIPSAWBEAN_OK) {
        size_t shown = length < room ? length : room;
        CHECK(is_sand(out, shown, room));
        char *beginning = malloc(shown + 1);
        CHECK(beginning != NULL);
        memcpy(beginning, out, shown);
        take_event(db, line, line_length);
        CHECK(length == db->length);
        CHECK(memcmp(beginning, db->last, shown) == 0);
        free(beginning);
    } else {
        CHECK(length == 0);
        CHECK(is_sand(out, 0, room));
        // A call whose text was not written stands all the same; its text is there as soon as memory is.
        if (status == RIPSAWBEAN_UNWRITTEN) take_event(db, line, line_length);
    }
    see_last(db, db->length + 1);
    return status;
}

static uint8_t call_in(database *db, const char *line, size_t room) {
    doing = line;
    return call_bytes(db, line, strlen(line), room);
}

static uint8_t call(database *db, const char *line) {
    return call_in(db, line, 4096);
}

static void fill(char *at, const char *with, size_t times) {
    for (size_t i = 0; i < times; i++) memcpy(at + i * strlen(with), with, strlen(with));
    at[times * strlen(with)] = '\0';
}

// ---- closed and open handles

static void see_closed(ripsawbean *handle) {
    ripsawbean before;
    memcpy(&before, handle, sizeof before);
    const uint8_t line[] = "0 stats\n";
    for (size_t room = 0; room < 3; room++) {
        size_t length = 12345;
        uint8_t *out = out_of(room);
        CHECK(ripsawbean_call(handle, line, 8, out, room, &length) == RIPSAWBEAN_CLOSED);
        CHECK(length == 0 && is_sand(out, 0, room));
        length = 12345;
        CHECK(ripsawbean_call(handle, line, 0, out, room, &length) == RIPSAWBEAN_CLOSED);
        CHECK(length == 0 && is_sand(out, 0, room));
        length = 12345;
        CHECK(ripsawbean_text(handle, out, room, &length) == RIPSAWBEAN_CLOSED);
        CHECK(length == 0 && is_sand(out, 0, room));
        length = 12345;
        CHECK(ripsawbean_state(handle, out, room, &length) == RIPSAWBEAN_CLOSED);
        CHECK(length == 0 && is_sand(out, 0, room));
    }
    CHECK(handle->at == before.at && handle->is_open == before.is_open && !handle->is_open);
}

static void handles_open_and_close(void) {
    doing = "handles";
    ripsawbean handle = RIPSAWBEAN_INITIALIZER, zero;
    memset(&zero, 0, sizeof zero);
    CHECK(handle.at == zero.at && handle.is_open == zero.is_open);
    see_closed(&handle);
    see_closed(&zero);
    ripsawbean_close(&zero);
    see_closed(&zero);
    const uint32_t wrong[] = {0, 65537, 65536 * 2, UINT32_MAX};
    for (size_t i = 0; i < sizeof wrong / sizeof *wrong; i++) {
        CHECK(ripsawbean_open(&zero, wrong[i]) == RIPSAWBEAN_RING);
        see_closed(&zero);
    }
    CHECK(ripsawbean_open(&zero, 1) == RIPSAWBEAN_OK);
    ripsawbean_close(&zero);
    see_closed(&zero);
    ripsawbean_close(&zero);
    see_closed(&zero);

    database db;
    begin(&db, 65536);
    see_last(&db, 10); // no call was made: no text
    CHECK(call(&db, "0 begin 10\n") == 0);
    void *at = db.handle.at;
    CHECK(ripsawbean_open(&db.handle, 1) == RIPSAWBEAN_OPEN);
    CHECK(ripsawbean_open(&db.handle, 65536) == RIPSAWBEAN_OPEN);
    CHECK(ripsawbean_open(&db.handle, 0) == RIPSAWBEAN_RING); // the ring is tested first
    CHECK(ripsawbean_open(&db.handle, 65537) == RIPSAWBEAN_RING);
    CHECK(db.handle.at == at && db.handle.is_open);
    see_last(&db, 100);
    CHECK(call(&db, "0 commit 10\n") == 0 && answers(&db, "committed 0"));

    // An open handle may be moved: it is used in its new place alone.
    database moved;
    memcpy(&moved, &db, sizeof db);
    memset(&db, 0, sizeof db);
    see_last(&moved, 100);
    CHECK(call(&moved, "0 begin 11\n") == 0 && answers(&moved, "started"));

    // Two databases know nothing of one another.
    database other;
    begin(&other, 1);
    CHECK(call(&other, "0 commit 11\n") == 0 && answers(&other, "notxn"));
    CHECK(call(&moved, "0 commit 11\n") == 0 && answers(&moved, "committed 0"));
    CHECK(call(&other, "0 begin 11\n") == 0 && answers(&other, "started"));
    end(&moved);
    see_closed(&moved.handle);
    CHECK(call(&other, "0 commit 11\n") == 0 && answers(&other, "committed 0"));
    end(&other);

    // Opened anew a handle has a new and empty database.
    begin(&db, 1024);
    see_last(&db, 10);
    CHECK(call(&db, "0 stats\n") == 0 && answers(&db, "stats 0 0 0 0 0"));
    end(&db);
    for (unsigned status = 0; status < 256; status++) {
        CHECK(ripsawbean_status_name((uint8_t)status) != NULL);
        CHECK((strcmp(ripsawbean_status_name((uint8_t)status), "unknown") == 0) == (status > RIPSAWBEAN_PROCESSOR));
    }
    CHECK(strcmp(ripsawbean_status_name(RIPSAWBEAN_BADBYTE), "badbyte") == 0);
    CHECK(strcmp(ripsawbean_status_name(RIPSAWBEAN_OPEN), "open") == 0);
    CHECK(strcmp(ripsawbean_status_name(RIPSAWBEAN_NOVALUE), "novalue") == 0);
    for (unsigned kind = 0; kind < 256; kind++) {
        bool is_kind = (kind >= RIPSAWBEAN_ANSWER_STARTED && kind <= RIPSAWBEAN_ANSWER_STATS) ||
                       (kind >= RIPSAWBEAN_ANSWER_REFUSED && kind <= RIPSAWBEAN_ANSWER_GAPRANGE);
        CHECK((strcmp(ripsawbean_answer_name((uint8_t)kind), "unknown") == 0) == !is_kind);
    }
}

// ---- rooms

static void rooms_of_each_size(void) {
    database db;
    begin(&db, 1024);
    CHECK(call_in(&db, "0 begin 10\n", 0) == 0);
    CHECK(call_in(&db, "0 put 10 a 1\n", 1) == 0);
    CHECK(call_in(&db, "0 put 10 b 2\n", 1) == 0);
    // A call with each room, from none to two bytes above what is needed: each is made once, and shows what fits.
    CHECK(call_in(&db, "0 scan 10 - -\n", 0) == 0);
    for (size_t room = 0; room <= db.length + 2; room++) {
        CHECK(call_in(&db, "0 scan 10 - -\n", room) == 0);
        CHECK(answers(&db, "rows 2"));
    }
    for (size_t room = 0; room <= db.length + 2; room++) see_last(&db, room);
    // The exact room, and one byte less, of each.
    const char *all[] = {"0 commit 10\n", "0 close 10\n", "1 openinitial - - 10\n", "1 poll 1 9\n", "0 stats\n", "0 get 10 a\n"};
    for (size_t i = 0; i < sizeof all / sizeof *all; i++) {
        CHECK(call_in(&db, all[i], 0) == 0);
        see_last(&db, db.length);
        see_last(&db, db.length - 1);
    }
    // No call was made twice.
    CHECK(call(&db, "0 stats\n") == 0 && answers(&db, "stats 2 0 1 10 0"));
    end(&db);
}

// ---- faults

static void faults_of_lines(void) {
    static char text[300000];
    database db;
    begin(&db, 1024);
    // Before any call there is no text, and a fault makes none.
    CHECK(call(&db, "0 begin\n") == RIPSAWBEAN_WORDCOUNT);
    CHECK(db.made == 0);
    CHECK(call(&db, "0 begin 10\n") == 0);
    static const struct {
        uint8_t status;
        const char *line;
    } faults[] = {
        {RIPSAWBEAN_WORDCOUNT, "\n"},
        {RIPSAWBEAN_WORDCOUNT, " \n"},
        {RIPSAWBEAN_WORDCOUNT, "0\n"},
        {RIPSAWBEAN_WORDCOUNT, "0  stats\n"},
        {RIPSAWBEAN_WORDCOUNT, " 0 stats\n"},
        {RIPSAWBEAN_WORDCOUNT, "0 stats \n"},
        {RIPSAWBEAN_WORDCOUNT, "0 stats 1\n"},
        {RIPSAWBEAN_WORDCOUNT, "0 put 10 a\n"},
        {RIPSAWBEAN_WORDCOUNT, "0 put 10 a 1 2\n"},
        {RIPSAWBEAN_WORDCOUNT, "0 put x\n"},
        {RIPSAWBEAN_UNKNOWNCOMMAND, "0 fly\n"},
        {RIPSAWBEAN_UNKNOWNCOMMAND, "0 Begin 10\n"},
        {RIPSAWBEAN_UNKNOWNCOMMAND, "0 begi 10\n"},
        {RIPSAWBEAN_NUMBER, "0 begin x\n"},
        {RIPSAWBEAN_NUMBER, "0 begin -1\n"},
        {RIPSAWBEAN_NUMBER, "0 begin 01\n"},
        {RIPSAWBEAN_NUMBER, "0 begin 18446744073709551616\n"},
        {RIPSAWBEAN_NUMBER, "0 openevery - - 0 1x\n"},
        {RIPSAWBEAN_NUMBER, "0 put x - -\n"}, // the number comes before the key
        {RIPSAWBEAN_KEYLENGTH, "0 get 10 -\n"},
        {RIPSAWBEAN_KEYLENGTH, "0 put 10 - 1\n"},
        {RIPSAWBEAN_SESSION, "64 stats\n"},
        {RIPSAWBEAN_SESSION, "x stats\n"},
        {RIPSAWBEAN_SESSION, "00 stats\n"},
        {RIPSAWBEAN_SESSION, "-1 fly\n"}, // the seat comes before the command
        {RIPSAWBEAN_NONEWLINE, ""},
        {RIPSAWBEAN_NONEWLINE, "0 stats"},
        {RIPSAWBEAN_NONEWLINE, "\x01"}, // the newline comes before the bytes
        {RIPSAWBEAN_BADBYTE, "0 get 10 \x01\n"},
        {RIPSAWBEAN_BADBYTE, "0 get 10 \xc3\xa9\n"},
        {RIPSAWBEAN_BADBYTE, "0 stats\r\n"},
        {RIPSAWBEAN_BADBYTE, "0\tstats\n"},
        {RIPSAWBEAN_BADBYTE, "0 stats\n\n"},
        {RIPSAWBEAN_BADBYTE, "0 stats\n0 stats\n"},
        {RIPSAWBEAN_BADBYTE, "0 get 10 \x7f\n"},
        {RIPSAWBEAN_BADBYTE, "0 get 10 %\n"},
        {RIPSAWBEAN_BADBYTE, "0 get 10 %2\n"},
        {RIPSAWBEAN_BADBYTE, "0 get 10 %2d\n"},
        {RIPSAWBEAN_BADBYTE, "0 get 10 %41\n"},
        {RIPSAWBEAN_BADBYTE, "0 get 10 a%2D\n"},
        {RIPSAWBEAN_BADBYTE, "0 put 10 a %7E\n"},
        {RIPSAWBEAN_BADBYTE, "0 scan 10 %61 -\n"},
    };
    for (size_t i = 0; i < sizeof faults / sizeof *faults; i++) {
        for (size_t room = 0; room < 64; room += 21) CHECK(call_in(&db, faults[i].line, room) == faults[i].status);
        CHECK(db.made == 1);
    }
    CHECK(call_bytes(&db, "0 get 10 \0\n", 11, 10) == RIPSAWBEAN_BADBYTE);

    // A line has at most 200000 bytes before its newline.
    doing = "long lines";
    fill(text, "0", 200000);
    strcat(text, "\n");
    CHECK(call_bytes(&db, text, 200001, 10) == RIPSAWBEAN_WORDCOUNT);
    CHECK(call_bytes(&db, text, 200000, 10) == RIPSAWBEAN_NONEWLINE);
    fill(text, "0", 200001);
    strcat(text, "\n");
    CHECK(call_bytes(&db, text, 200002, 10) == RIPSAWBEAN_LINETOOLONG);
    CHECK(call_bytes(&db, text, 200001, 10) == RIPSAWBEAN_LINETOOLONG); // the length comes before the newline
    CHECK(call_bytes(&db, text, 200000, 10) == RIPSAWBEAN_NONEWLINE);
    CHECK(db.made == 1);
    CHECK(call(&db, "0 commit 10\n") == 0 && answers(&db, "committed 0"));
    end(&db);
}

// ---- the limits of keys, bounds, values, numbers and seats

// Makes a call of a line whose %s is one byte of a spelling so many times.
static uint8_t call_many(database *db, const char *before, const char *spelled, size_t times, const char *after) {
    static char text[300000];
    strcpy(text, before);
    fill(text + strlen(text), spelled, times);
    strcat(text, after);
    doing = before;
    return call_bytes(db, text, strlen(text), 100);
}

static void limits(void) {
    static const char *const bytes[] = {"k", "%00", "%FF", "%25", "%20", "-"};
    database db;
    begin(&db, 1024);
    CHECK(call(&db, "63 begin 9223372036854775807\n") == 0 && answers(&db, "started"));
    CHECK(call(&db, "63 begin 9223372036854775808\n") == 0 && answers(&db, "tsrange"));
    CHECK(call(&db, "63 begin 18446744073709551615\n") == 0 && answers(&db, "tsrange"));
    CHECK(call(&db, "0 begin 10\n") == 0);
    for (size_t i = 0; i < sizeof bytes / sizeof *bytes; i++) {
        const char *byte = bytes[i];
        CHECK(call_many(&db, "0 get 10 ", byte, 256, "\n") == 0 && answers(&db, "none"));
        CHECK(call_many(&db, "0 get 10 ", byte, 257, "\n") == RIPSAWBEAN_KEYLENGTH);
        CHECK(call_many(&db, "0 scan 10 - ", byte, 257, "\n") == 0);
        CHECK(call_many(&db, "0 scan 10 - ", byte, 258, "\n") == RIPSAWBEAN_KEYLENGTH);
        CHECK(call_many(&db, "0 scan 10 ", byte, 257, " -\n") == 0);
        CHECK(call_many(&db, "0 scan 10 ", byte, 258, " -\n") == RIPSAWBEAN_KEYLENGTH);
        char before[50];
        snprintf(before, sizeof before, "0 put 10 k%zu ", i);
        CHECK(call_many(&db, before, byte, 65536, "\n") == 0 && answers(&db, "written"));
        CHECK(call_many(&db, before, byte, 65537, "\n") == RIPSAWBEAN_VALUELENGTH);
        CHECK(call_many(&db, before, byte, i % 2 == 0 ? 65536 : 65535, "\n") == 0 && answers(&db, "written"));
        snprintf(before, sizeof before, "0 get 10 k%zu\n", i);
        CHECK(call(&db, before) == 0);
        CHECK(strlen(answer(&db)) == 6 + strlen(byte) * (i % 2 == 0 ? 65536 : 65535) + 1);
    }
    // The longest key with the longest value, each of their bytes spelled by three.
    static char text[300000];
    strcpy(text, "0 put 10 ");
    fill(text + strlen(text), "%FE", 256);
    strcat(text, " ");
    fill(text + strlen(text), "%0A", 65536);
    strcat(text, "\n");
    doing = "the longest put";
    CHECK(call_bytes(&db, text, strlen(text), 1) == 0 && answers(&db, "written"));
    // A text of more than a megabyte, with a buffer of a few bytes.
    CHECK(call_in(&db, "0 scan 10 - -\n", 4) == 0 && answers(&db, "rows 7"));
    CHECK(db.length > 600000);
    size_t rooms[] = {0, 1, 4096, db.length - 1, db.length, db.length + 1};
    for (size_t i = 0; i < sizeof rooms / sizeof *rooms; i++) see_last(&db, rooms[i]);
    CHECK(call(&db, "0 commit 10\n") == 0 && answers(&db, "committed 7"));
    CHECK(call(&db, "63 abort 9223372036854775807\n") == 0);
    CHECK(call(&db, "0 close 10\n") == 0);
    CHECK(call(&db, "5 openinitial - - 10\n") == 0);
    CHECK(call_in(&db, "5 poll 1 18446744073709551615\n", 0) == 0 && answers(&db, "messages 8"));
    CHECK(call(&db, "5 poll 1 18446744073709551615\n") == 0 && answers(&db, "messages 0"));
    end(&db);
}

// ---- out of memory

// Some of each command, and texts of some length.
static const char *const script[] = {
    "0 begin 10\n",
    "0 put 10 a 1\n",
    "0 put 10 b%20b a%00value%20that%20is%20long%20enough%20for%20a%20block%20of%20its%20own\n",
    "0 put 10 a 2\n",
    "0 get 10 a\n",
    "0 scan 10 a c\n",
    "1 begin 20\n",
    "1 get 20 a\n",
    "0 commit 10\n",
    "1 get 20 a\n",
    "1 scan 20 - -\n",
    "2 begin 15\n",
    "2 put 15 a 3\n",
    "1 del 20 a\n",
    "1 put 20 c -\n",
    "1 commit 20\n",
    "3 open - - 0\n",
    "4 openevery a%00 c 0 5\n",
    "0 close 30\n",
    "0 protect 20\n",
    "3 poll 1 2\n",
    "5 openinitial - - 30\n",
    "5 poll 3 9\n",
    "3 poll 1 9\n",
    "4 poll 2 9\n",
    "0 readat 15 b%20b\n",
    "0 scanat 20 - -\n",
    "0 release 1\n",
    "0 cancel 2\n",
    "0 collect 30\n",
    "0 closehard 40\n",
    "0 begin 50\n",
    "0 abort 50\n",
    "0 stats\n",
};

// Makes each call until it is made, with the growth behind `before` others refused each time.
static bool plays_with_refusals(unsigned long before) {
    database db;
    bool any = false;
    begin(&db, 2);
    for (size_t i = 0; i < sizeof script / sizeof *script; i++) {
        doing = script[i];
        size_t line_length = strlen(script[i]);
        uint8_t *line = line_of(script[i], line_length);
        for (unsigned long left = before;; left = 1000000) {
            uint8_t *out = out_of(400);
            size_t length = 12345;
            refuse_after(left);
            uint8_t status = ripsawbean_call(&db.handle, line, line_length, out, 400, &length);
            bool was_refused = refuse_none();
            any = any || was_refused;
            CHECK(status == RIPSAWBEAN_OK || (was_refused && (status == RIPSAWBEAN_NOMEMORY || status == RIPSAWBEAN_UNWRITTEN)));
            if (status != RIPSAWBEAN_OK) CHECK(length == 0 && is_sand(out, 0, 400));
            if (status == RIPSAWBEAN_NOMEMORY) {
                see_last(&db, db.length + 1);
                continue; // no call was made
            }
            if (status == RIPSAWBEAN_UNWRITTEN) {
                // The text may be refused again, any number of times; the call stands.
                for (int times = 0; times < 3; times++) {
                    out = out_of(400);
                    refuse_after(0);
                    status = ripsawbean_text(&db.handle, out, 400, &length);
                    was_refused = refuse_none();
                    CHECK(status == (was_refused ? RIPSAWBEAN_UNWRITTEN : RIPSAWBEAN_OK));
                    if (was_refused) CHECK(length == 0 && is_sand(out, 0, 400));
                }
            }
            take_event(&db, line, line_length);
            if (!answers(&db, "nomemory")) break;
            CHECK(was_refused);
        }
    }
    // With each call made, the database is that of the undisturbed script.
    CHECK(answers(&db, "stats 2 0 2 40 30"));
    end(&db);
    return any;
}

// A feed that lags: what its database tells an operator, with every room. Neither the last text nor the next position
// changes.
static void states(void) {
    doing = "states";
    static const char *const calls[] = {
        "0 begin 5\n",  "0 put 5 a 1\n",  "0 commit 5\n",  "0 begin 10\n", "0 put 10 a 2\n", "0 commit 10\n",  "0 begin 20\n",
        "0 put 20 a 3\n", "0 commit 20\n", "0 open - - 5\n", "0 close 30\n", "0 poll 1 1\n",   "0 collect 30\n",
    };
    static const char told[] =
        "{\"kind\":\"database\",\"closed\":\"30\",\"horizon\":\"9\",\"limit\":\"9\",\"holder\":\"feed\",\"holder_number\":\"1\","
        "\"oldest\":null,\"oldest_seat\":null,\"versions\":\"3\"}\n"
        "{\"kind\":\"feed\",\"number\":\"1\",\"seat\":\"0\",\"initial\":false,\"gap\":null,\"lo\":null,\"hi\":null,\"cursor\":\"5\","
        "\"updated\":\"10\",\"key\":\"YQ==\",\"resolved\":null,\"complete\":\"9\",\"floor\":\"9\",\"behind\":\"21\"}\n";
    database db;
    begin(&db, 1024);
    for (size_t i = 0; i < sizeof calls / sizeof *calls; i++) CHECK(call(&db, calls[i]) == 0);
    for (size_t room = 0; room < sizeof told + 2; room++) {
        uint8_t *out = out_of(room);
        size_t length = 12345;
        CHECK(ripsawbean_state(&db.handle, out, room, &length) == RIPSAWBEAN_OK);
        CHECK(length == sizeof told - 1);
        size_t shown = length < room ? length : room;
        CHECK(shown == 0 || memcmp(out, told, shown) == 0);
        CHECK(is_sand(out, shown, room));
        see_last(&db, room);
    }
    CHECK(call(&db, "0 stats\n") == 0 && db.made == sizeof calls / sizeof *calls + 1);
    end(&db);
}

static void want_of_memory(void) {
    unsigned long before = 0;
    for (;; before++) {
        ripsawbean handle = RIPSAWBEAN_INITIALIZER;
        refuse_after(before);
        uint8_t status = ripsawbean_open(&handle, 1024);
        if (!refuse_none()) {
            CHECK(status == RIPSAWBEAN_OK);
            ripsawbean_close(&handle);
            break;
        }
        CHECK(status == RIPSAWBEAN_NOMEMORY);
        see_closed(&handle);
    }
    CHECK(before > 0);
    before = 0;
    while (plays_with_refusals(before)) before++;
    CHECK(before > 0);
}

int main(int count, char **words) {
    if (count != 2) {
        fputs("edges FOLDER\n", stderr);
        return 1;
    }
    folder = words[1];
    make_guarded(300000, ROOM);
    handles_open_and_close();
    rooms_of_each_size();
    faults_of_lines();
    limits();
    states();
    want_of_memory();
    printf("edges: %lu checks, %u transcripts, %lu growths refused\n", checks, transcripts, growths_refused);
    return 0;
}
