// Tests at their edges what ripsawbean.h promises of calls without lines. What each is to tell stands beside it, written
// by hand. It says how many checks passed, and ends at the first that doesn't.
//
// Not tested: RIPSAWBEAN_SPENT, which takes 18446744073709551615 calls.
#include "reading.h"

#define LONG "a%value that is long enough for a block of its own"
#define LONG_WORD "a%25value%20that%20is%20long%20enough%20for%20a%20block%20of%20its%20own"
#define ZERO4 "\0\0\0\0"
#define TIME(byte) byte "\0\0\0" ZERO4
#define SIZE(byte) byte "\0\0\0"
#define BYTES(text) text, sizeof(text) - 1

typedef struct {
    const char *name; // of the function, or "line"
    uint8_t seat;
    uint64_t number;
    const char *key, *value;
    uint64_t most;
    const char *text; // behind the position
    ripsawbean_answer answer;
    const char *bytes;
    size_t length;
} step;

static const step script[] = {
    {"begin", 0, 10, "", "", 0, "0 begin 10 => started\n", {1, 0, 0}, BYTES("")},
    {"put", 0, 10, "a", "1", 0, "0 put 10 a 1 => written\n", {4, 0, 0}, BYTES("")},
    {"put", 0, 10, "b b", LONG, 0, "0 put 10 b%20b " LONG_WORD " => written\n", {4, 0, 0}, BYTES("")},
    {"put", 0, 10, "d", "", 0, "0 put 10 d - => written\n", {4, 0, 0}, BYTES("")},
    {"get", 0, 10, "a", "", 0, "0 get 10 a => value 1\n", {3, 1, 0}, BYTES("1")},
    {"get", 0, 10, "d", "", 0, "0 get 10 d => value -\n", {3, 0, 0}, BYTES("")},
    {"get", 0, 10, "-", "", 0, "0 get 10 %2D => none\n", {2, 0, 0}, BYTES("")},
    {"get", 63, 10, "a", "", 0, "63 get 10 a => notowner\n", {37, 0, 0}, BYTES("")},
    {"get", 0, 11, "a", "", 0, "0 get 11 a => notxn\n", {36, 0, 0}, BYTES("")},
    {"begin", 1, 10, "", "", 0, "1 begin 10 => tsused\n", {33, 0, 0}, BYTES("")},
    {"begin", 1, UINT64_MAX, "", "", 0, "1 begin 18446744073709551615 => tsrange\n", {34, 0, 0}, BYTES("")},
    {"begin", 1, 20, "", "", 0, "1 begin 20 => started\n", {1, 0, 0}, BYTES("")},
    {"get", 1, 20, "a", "", 0, "1 get 20 a => blocked 10\n", {35, 10, 0}, BYTES("")},
    {"commit", 0, 10, "", "", 0, "0 commit 10 => committed 3\n", {5, 3, 0}, BYTES("")},
    {"commit", 0, 10, "", "", 0, "0 commit 10 => ended\n", {38, 0, 0}, BYTES("")},
    {"get", 1, 20, "b b", "", 0, "1 get 20 b%20b => value " LONG_WORD "\n", {3, sizeof LONG - 1, 0}, BYTES(LONG)},
    {"begin", 2, 15, "", "", 0, "2 begin 15 => started\n", {1, 0, 0}, BYTES("")},
    {"put", 2, 15, "b b", "2", 0, "2 put 15 b%20b 2 => toolate\n", {39, 0, 0}, BYTES("")},
    {"abort", 1, 20, "", "", 0, "1 abort 20 => aborted\n", {6, 0, 0}, BYTES("")},
    {"read_at", 0, 10, "a", "", 0, "0 readat 10 a => notclosed 0\n", {40, 0, 0}, BYTES("")},
    {"begin", 1, 18, "", "", 0, "1 begin 18 => started\n", {1, 0, 0}, BYTES("")},
    {"delete", 1, 18, "d", "", 0, "1 del 18 d => written\n", {4, 0, 0}, BYTES("")},
    {"close_to", 5, 30, "", "", 0, "5 close 30 => closed 17 0\n", {7, 17, 0}, BYTES("")},
    {"commit", 1, 18, "", "", 0, "1 commit 18 => committed 1\n", {5, 1, 0}, BYTES("")},
    {"close_to", 5, 30, "", "", 0, "5 close 30 => closed 30 0\n", {7, 30, 0}, BYTES("")},
    {"begin", 1, 30, "", "", 0, "1 begin 30 => belowclosed 30\n", {32, 30, 0}, BYTES("")},
    {"read_at", 7, 12, "b b", "", 0, "7 readat 12 b%20b => value " LONG_WORD "\n", {3, sizeof LONG - 1, 0}, BYTES(LONG)},
    {"read_at", 7, 18, "d", "", 0, "7 readat 18 d => none\n", {2, 0, 0}, BYTES("")},
    // The bytes of an answer are there also where a line made its call.
    {"line", 0, 0, "7 readat 30 a\n", "", 0, "7 readat 30 a => value 1\n", {0, 0, 0}, BYTES("1")},
    {"line", 0, 0, "3 open - - 0\n", "", 0, "3 open - - 0 => opened 1\n", {0, 0, 0}, BYTES("")},
    {"poll", 3, 1, "", "", 0, "3 poll 1 0 => messages 0\n", {8, 0, 0}, BYTES("")},
    {"poll", 3, 1, "", "", 1, "3 poll 1 1 => messages 1\n{\"after\":\"MQ==\",\"key\":\"YQ==\",\"updated\":\"10\"}\n", {8, 1, 0},
     BYTES("\1" TIME("\12") SIZE("\1") SIZE("\1") "a1")},
    {"poll", 3, 1, "", "", 1,
     "3 poll 1 1 => messages 1\n{\"after\":\"YSV2YWx1ZSB0aGF0IGlzIGxvbmcgZW5vdWdoIGZvciBhIGJsb2NrIG9mIGl0cyBvd24=\",\"key\":\"YiBi\","
     "\"updated\":\"10\"}\n",
     {8, 1, 0}, BYTES("\1" TIME("\12") SIZE("\3") SIZE("\62") "b b" LONG)},
    {"poll", 3, 1, "", "", UINT64_MAX,
     "3 poll 1 18446744073709551615 => messages 3\n{\"after\":\"\",\"key\":\"ZA==\",\"updated\":\"10\"}\n"
     "{\"after\":null,\"key\":\"ZA==\",\"updated\":\"18\"}\n{\"resolved\":\"30\"}\n",
     {8, 3, 0}, BYTES("\1" TIME("\12") SIZE("\1") ZERO4 "d\2" TIME("\22") SIZE("\1") ZERO4 "d\0" TIME("\36") ZERO4 ZERO4)},
    {"poll", 0, 1, "", "", 9, "0 poll 1 9 => notowner\n", {37, 0, 0}, BYTES("")},
    {"poll", 3, 2, "", "", 9, "3 poll 2 9 => nofeed\n", {43, 0, 0}, BYTES("")},
    {"line", 0, 0, "4 openinitial a b 30\n", "", 0, "4 openinitial a b 30 => opened 2\n", {0, 0, 0}, BYTES("")},
    {"line", 0, 0, "4 poll 2 1\n", "", 0, "4 poll 2 1 => messages 1\n{\"after\":\"MQ==\",\"key\":\"YQ==\",\"updated\":\"30\"}\n", {0, 0, 0},
     BYTES("\1" TIME("\36") SIZE("\1") SIZE("\1") "a1")},
    {"line", 0, 0, "3 cancel 1\n", "", 0, "3 cancel 1 => cancelled\n", {0, 0, 0}, BYTES("")},
    {"line", 0, 0, "4 cancel 2\n", "", 0, "4 cancel 2 => cancelled\n", {0, 0, 0}, BYTES("")},
    {"poll", 3, 1, "", "", 9, "3 poll 1 9 => feedcancelled\n", {44, 0, 0}, BYTES("")},
    {"line", 0, 0, "0 collect 30\n", "", 0, "0 collect 30 => collected 30 2\n", {0, 0, 0}, BYTES("")},
    {"read_at", 0, 29, "a", "", 0, "0 readat 29 a => belowhorizon 30\n", {41, 30, 0}, BYTES("")},
};

// A database, and what it must show.
typedef struct {
    ripsawbean handle;
    uint64_t made;
    char text[1000];
    const char *bytes;
    size_t length;
} database;

static bool is_named(const step *s, const char *name) {
    return strcmp(s->name, name) == 0;
}

static bool shows(const step *s) {
    return is_named(s, "get") || is_named(s, "read_at") || is_named(s, "poll");
}

static uint8_t call(ripsawbean *handle, const step *s, uint8_t *out, size_t room, size_t *length, ripsawbean_answer *answer) {
    size_t key_length = strlen(s->key), value_length = strlen(s->value);
    const uint8_t *key = line_of(s->key, key_length), *value = other_of(s->value, value_length);
    if (is_named(s, "begin")) return ripsawbean_begin(handle, s->seat, s->number, answer);
    if (is_named(s, "get")) return ripsawbean_get(handle, s->seat, s->number, key, key_length, out, room, length, answer);
    if (is_named(s, "put")) return ripsawbean_put(handle, s->seat, s->number, key, key_length, value, value_length, answer);
    if (is_named(s, "delete")) return ripsawbean_delete(handle, s->seat, s->number, key, key_length, answer);
    if (is_named(s, "commit")) return ripsawbean_commit(handle, s->seat, s->number, answer);
    if (is_named(s, "abort")) return ripsawbean_abort(handle, s->seat, s->number, answer);
    if (is_named(s, "close_to")) return ripsawbean_close_to(handle, s->seat, s->number, answer);
    if (is_named(s, "read_at")) return ripsawbean_read_at(handle, s->seat, s->number, key, key_length, out, room, length, answer);
    if (is_named(s, "poll")) return ripsawbean_poll(handle, s->seat, s->number, s->most, out, room, length, answer);
    *answer = s->answer;
    return ripsawbean_call(handle, key, key_length, out, room, length);
}

// What is shown is the beginning of these bytes, and nothing else was written.
static void see_shown(const uint8_t *out, size_t room, size_t length, const void *expected, size_t expected_length) {
    size_t shown = length < room ? length : room;
    CHECK(length == expected_length && memcmp(out, expected, shown) == 0 && is_sand(out, shown, room));
}

// The last event's text and bytes are as they were, whatever room they are asked with.
static void see_last(database *db) {
    size_t length = 12345, rooms[] = {0, 1, db->length / 2, db->length, db->length + 1};
    for (size_t i = 0; i < sizeof rooms / sizeof *rooms; i++, length = 12345) {
        uint8_t *out = out_of(rooms[i]);
        CHECK(ripsawbean_bytes(&db->handle, out, rooms[i], &length) == RIPSAWBEAN_OK);
        see_shown(out, rooms[i], length, db->bytes, db->length);
    }
    uint8_t *out = out_of(sizeof db->text);
    CHECK(ripsawbean_text(&db->handle, out, sizeof db->text, &length) == RIPSAWBEAN_OK);
    see_shown(out, sizeof db->text, length, db->text, strlen(db->text));
    if (db->made == 0) return;
    ripsawbean_record known = record_numbers(db->text, db->length), record = {0};
    CHECK(ripsawbean_last(&db->handle, &record) == RIPSAWBEAN_OK && is_record(&record, &known));
}

static void take(database *db, const step *s, const char *text) {
    CHECK(snprintf(db->text, sizeof db->text, "%llu %s", (unsigned long long)db->made++, text) < (int)sizeof db->text);
    db->bytes = s->bytes;
    db->length = s->length;
}

// ---- parts with a fault

// No call is made of a faulty part: of several faults the seat's is told, then the key's, then the value's.
static void see_faults(database *db) {
    static uint8_t key[257], value[65537];
    static const struct {
        uint8_t seat;
        size_t key_length, value_length;
        uint8_t expected;
    } puts[] = {
        {64, 1, 0, RIPSAWBEAN_SESSION},         {255, 0, 65537, RIPSAWBEAN_SESSION},      {64, 257, 0, RIPSAWBEAN_SESSION},
        {63, 0, 0, RIPSAWBEAN_KEYLENGTH},       {63, 257, 65537, RIPSAWBEAN_KEYLENGTH},   {0, 257, 65536, RIPSAWBEAN_KEYLENGTH},
        {63, 1, 65537, RIPSAWBEAN_VALUELENGTH}, {0, 256, 65537, RIPSAWBEAN_VALUELENGTH},
    };
    static const uint8_t seats[] = {64, 65, 128, 255};
    static const size_t keys[] = {0, 257};
    ripsawbean *handle = &db->handle;
    for (size_t i = 0; i < sizeof puts / sizeof *puts; i++) {
        const uint8_t *k = line_of(key, puts[i].key_length), *v = other_of(value, puts[i].value_length);
        ripsawbean_answer answer = other_answer();
        CHECK(ripsawbean_put(handle, puts[i].seat, 10, k, puts[i].key_length, v, puts[i].value_length, &answer) == puts[i].expected);
        CHECK(is_answer(&answer, 0, 0, 0));
        see_last(db);
    }
    for (size_t i = 0; i < sizeof seats / sizeof *seats; i++) {
        for (size_t k = 0; k < 3; k++) {
            size_t key_length = k < 2 ? keys[k] : 1, length = 12345;
            uint8_t seat = k < 2 && i % 2 == 1 ? 0 : seats[i], expected = seat == 0 ? RIPSAWBEAN_KEYLENGTH : RIPSAWBEAN_SESSION;
            uint8_t *out = out_of(9);
            const uint8_t *at = line_of(key, key_length);
            ripsawbean_answer answer = other_answer();
            CHECK(ripsawbean_get(handle, seat, 10, at, key_length, out, 9, &length, &answer) == expected);
            CHECK(is_answer(&answer, 0, 0, 0) && length == 0 && is_sand(out, 0, 9));
            answer = other_answer(), length = 12345;
            CHECK(ripsawbean_read_at(handle, seat, 10, at, key_length, out, 9, &length, &answer) == expected);
            CHECK(is_answer(&answer, 0, 0, 0) && length == 0 && is_sand(out, 0, 9));
            answer = other_answer();
            CHECK(ripsawbean_delete(handle, seat, 10, at, key_length, &answer) == expected && is_answer(&answer, 0, 0, 0));
        }
        ripsawbean_answer answer = other_answer();
        size_t length = 12345;
        uint8_t *out = out_of(9);
        CHECK(ripsawbean_begin(handle, seats[i], 10, &answer) == RIPSAWBEAN_SESSION && is_answer(&answer, 0, 0, 0));
        answer = other_answer();
        CHECK(ripsawbean_commit(handle, seats[i], 10, &answer) == RIPSAWBEAN_SESSION && is_answer(&answer, 0, 0, 0));
        answer = other_answer();
        CHECK(ripsawbean_abort(handle, seats[i], 10, &answer) == RIPSAWBEAN_SESSION && is_answer(&answer, 0, 0, 0));
        answer = other_answer();
        CHECK(ripsawbean_close_to(handle, seats[i], 10, &answer) == RIPSAWBEAN_SESSION && is_answer(&answer, 0, 0, 0));
        answer = other_answer();
        CHECK(ripsawbean_poll(handle, seats[i], 1, 1, out, 9, &length, &answer) == RIPSAWBEAN_SESSION && is_answer(&answer, 0, 0, 0));
        CHECK(length == 0 && is_sand(out, 0, 9));
        see_last(db);
    }
}

// Keys and values of each greatest length are taken, of any bytes.
static void limits(void) {
    doing = "limits";
    static uint8_t key[256], value[65536];
    for (size_t i = 0; i < sizeof value; i++) value[i] = (uint8_t)(i * 5 + i / 256);
    for (size_t i = 0; i < sizeof key; i++) key[i] = (uint8_t)i;
    ripsawbean db = RIPSAWBEAN_INITIALIZER;
    ripsawbean_answer answer;
    size_t length;
    CHECK(ripsawbean_open(&db, 1) == RIPSAWBEAN_OK && ripsawbean_begin(&db, 63, RIPSAWBEAN_MAX_TIMESTAMP, &answer) == RIPSAWBEAN_OK);
    for (size_t i = 1; i <= sizeof key; i += i < 30 ? 1 : 75) {
        size_t value_length = i == 1 ? sizeof value : i * 200 - 200;
        const uint8_t *k = line_of(key, i), *v = other_of(value, value_length);
        uint8_t *out = out_of(sizeof value);
        CHECK(ripsawbean_put(&db, 63, RIPSAWBEAN_MAX_TIMESTAMP, k, i, v, value_length, &answer) == RIPSAWBEAN_OK && answer.kind == 4);
        CHECK(ripsawbean_get(&db, 63, RIPSAWBEAN_MAX_TIMESTAMP, k, i, out, sizeof value, &length, &answer) == RIPSAWBEAN_OK);
        CHECK(is_answer(&answer, 3, value_length, 0));
        see_shown(out, sizeof value, length, value, value_length);
    }
    ripsawbean_close(&db);
}

// ---- each step, with each kind of room

static void see_closed(database *db) {
    for (size_t i = 0; i < sizeof script / sizeof *script; i++) {
        size_t length = shows(&script[i]) ? 12345 : 0;
        uint8_t *out = out_of(9);
        ripsawbean_answer answer = other_answer();
        if (is_named(&script[i], "line")) continue;
        CHECK(call(&db->handle, &script[i], out, 9, &length, &answer) == RIPSAWBEAN_CLOSED);
        CHECK(length == 0 && is_sand(out, 0, 9) && is_answer(&answer, 0, 0, 0));
        // The handle is tested before all else.
        length = 12345;
        answer = other_answer();
        CHECK(ripsawbean_get(&db->handle, 64, 1, out, 0, out, 9, &length, &answer) == RIPSAWBEAN_CLOSED);
        CHECK(length == 0 && is_sand(out, 0, 9) && is_answer(&answer, 0, 0, 0));
    }
    size_t length = 12345;
    uint8_t *out = out_of(9);
    CHECK(ripsawbean_bytes(&db->handle, out, 9, &length) == RIPSAWBEAN_CLOSED && length == 0 && is_sand(out, 0, 9));
    CHECK(!db->handle.is_open);
}

static void plays_with_room(int plan) {
    database db = {.handle = RIPSAWBEAN_INITIALIZER, .bytes = ""};
    see_closed(&db);
    CHECK(ripsawbean_open(&db.handle, 1024) == RIPSAWBEAN_OK);
    see_last(&db); // no call was made: no text, and no bytes
    for (size_t i = 0; i < sizeof script / sizeof *script; i++) {
        const step *s = &script[i];
        doing = s->text;
        size_t rooms[] = {0, 1, s->length - (s->length > 0), s->length, s->length + 1, 4096}, room = rooms[plan], length = 12345;
        uint8_t *out = out_of(room);
        ripsawbean_answer answer = other_answer();
        CHECK(call(&db.handle, s, out, room, &length, &answer) == RIPSAWBEAN_OK);
        CHECK(is_answer(&answer, s->answer.kind, s->answer.number, s->answer.other));
        if (shows(s)) see_shown(out, room, length, s->bytes, s->length);
        else if (!is_named(s, "line")) CHECK(length == 12345 && is_sand(out, 0, room));
        take(&db, s, s->text);
        see_last(&db);
        if (i % 5 == 0) see_faults(&db);
    }
    ripsawbean_close(&db.handle);
    see_closed(&db);
}

// ---- the last event in numbers

// Every command and every answer that no typed call has, by lines.
static const struct {
    const char *line;
    ripsawbean_record record; // position, at, number, other, seat, command, kind
} records[] = {
    {"0 begin 10\n", {0, 10, 0, 0, 0, 1, 1}},
    {"0 put 10 a 1\n", {1, 10, 0, 0, 0, 4, 4}},
    {"0 put 10 b 2\n", {2, 10, 0, 0, 0, 4, 4}},
    {"0 get 10 a\n", {3, 10, 1, 0, 0, 2, 3}},
    {"0 get 10 c\n", {4, 10, 0, 0, 0, 2, 2}},
    {"0 scan 10 - -\n", {5, 10, 2, 0, 0, 3, 9}},
    {"0 del 10 b\n", {6, 10, 0, 0, 0, 5, 4}},
    {"1 begin 15\n", {7, 15, 0, 0, 1, 1, 1}},
    {"1 get 15 a\n", {8, 15, 10, 0, 1, 2, 35}},
    {"1 stats\n", {9, 0, 2, 2, 1, 21, 15}},
    {"0 commit 10\n", {10, 10, 2, 0, 0, 6, 5}},
    {"63 close 99\n", {11, 99, 14, 0, 63, 8, 7}},
    {"2 closehard 20\n", {12, 20, 20, 1, 2, 9, 7}},
    {"3 readat 20 a\n", {13, 20, 1, 0, 3, 10, 3}},
    {"3 scanat 20 - -\n", {14, 20, 1, 0, 3, 11, 9}},
    {"4 protect 20\n", {15, 20, 1, 0, 4, 12, 10}},
    {"5 open - - 9\n", {16, 9, 1, 0, 5, 15, 13}},
    {"5 openinitial a b 20\n", {17, 20, 2, 0, 5, 16, 13}},
    {"5 openevery - z 7 3\n", {18, 7, 3, 0, 5, 17, 13}},
    {"5 openinitialevery - - 20 4\n", {19, 20, 4, 0, 5, 18, 13}},
    {"5 poll 1 9\n", {20, 1, 3, 0, 5, 19, 8}},
    {"6 cancel 3\n", {21, 3, 0, 0, 6, 20, 14}},
    {"6 cancel 1\n", {22, 1, 0, 0, 6, 20, 14}},
    {"6 cancel 7\n", {23, 7, 0, 0, 6, 20, 43}},
    {"4 release 1\n", {24, 1, 0, 0, 4, 13, 11}},
    {"4 release 1\n", {25, 1, 0, 0, 4, 13, 42}},
    {"7 begin 30\n", {26, 30, 0, 0, 7, 1, 1}},
    {"7 abort 30\n", {27, 30, 0, 0, 7, 7, 6}},
    {"8 collect 19\n", {28, 19, 19, 1, 8, 14, 12}},
};

static void sees(ripsawbean *handle, uint8_t status, const ripsawbean_record *expected) {
    ripsawbean_record record;
    memset(&record, 0xa5, sizeof record);
    CHECK(ripsawbean_last(handle, &record) == status && is_record(&record, expected));
}

// It stays through faults, and is all 0 before the first call and of a closed handle.
static void last_events(void) {
    static const ripsawbean_record none;
    ripsawbean handle = RIPSAWBEAN_INITIALIZER;
    uint8_t out[100];
    size_t length;
    sees(&handle, RIPSAWBEAN_CLOSED, &none);
    CHECK(ripsawbean_open(&handle, 64) == RIPSAWBEAN_OK);
    sees(&handle, RIPSAWBEAN_OK, &none);
    for (size_t i = 0; i < sizeof records / sizeof *records; i++) {
        doing = records[i].line;
        CHECK(ripsawbean_call(&handle, (const uint8_t *)doing, strlen(doing), out, sizeof out, &length) == RIPSAWBEAN_OK);
        sees(&handle, RIPSAWBEAN_OK, &records[i].record);
        CHECK(ripsawbean_call(&handle, (const uint8_t *)doing, strlen(doing) - 1, out, sizeof out, &length) == RIPSAWBEAN_NONEWLINE);
        sees(&handle, RIPSAWBEAN_OK, &records[i].record);
    }
    ripsawbean_close(&handle);
    sees(&handle, RIPSAWBEAN_CLOSED, &none);
}

// ---- out of memory

static bool is_long(const step *s) {
    return !is_named(s, "poll") && (strlen(s->key) > 24 || strlen(s->value) > 24);
}

static bool has_messages(const step *s) {
    return strstr(s->text, " => messages ") != NULL;
}

// The messages of a poll may find no memory, any number of times; the call stands.
static void ask_refused(database *db, const step *s) {
    for (int times = 0; times < 3; times++) {
        uint8_t *out = out_of(100);
        size_t length = 12345;
        refuse_after(0);
        uint8_t status = ripsawbean_bytes(&db->handle, out, 100, &length);
        bool was_refused = refuse_none();
        CHECK(status == (was_refused ? RIPSAWBEAN_UNWRITTEN : RIPSAWBEAN_OK));
        if (was_refused) CHECK(has_messages(s) && length == 0 && is_sand(out, 0, 100));
        else see_shown(out, 100, length, s->bytes, s->length);
        length = 12345;
        out = out_of(100);
        refuse_after(0);
        status = ripsawbean_text(&db->handle, out, 100, &length);
        CHECK(status == (refuse_none() ? RIPSAWBEAN_UNWRITTEN : RIPSAWBEAN_OK));
        if (status == RIPSAWBEAN_UNWRITTEN) CHECK(length == 0 && is_sand(out, 0, 100));
    }
}

// Makes each call until it is made, with the growth behind `before` others refused each time.
static bool plays_with_refusals(unsigned long before) {
    database db = {.handle = RIPSAWBEAN_INITIALIZER, .bytes = ""};
    bool any = false;
    CHECK(ripsawbean_open(&db.handle, 2) == RIPSAWBEAN_OK);
    for (size_t i = 0; i < sizeof script / sizeof *script; i++) {
        const step *s = &script[i];
        doing = s->text;
        for (unsigned long left = is_named(s, "line") ? 1000000 : before;; left = 1000000) {
            uint8_t *out = out_of(400);
            size_t length = 12345;
            ripsawbean_answer answer = other_answer();
            refuse_after(left);
            uint8_t status = call(&db.handle, s, out, 400, &length, &answer);
            bool was_refused = refuse_none();
            any = any || was_refused;
            if (status == RIPSAWBEAN_NOMEMORY) {
                CHECK(was_refused && is_long(s) && is_answer(&answer, 0, 0, 0) && is_sand(out, 0, 400));
                see_last(&db);
                continue; // no call was made
            }
            if (status == RIPSAWBEAN_OK && answer.kind == RIPSAWBEAN_ANSWER_NOMEMORY) {
                char text[400];
                CHECK(was_refused && (!shows(s) || length == 0) && is_sand(out, 0, 400));
                snprintf(text, sizeof text, "%.*s => nomemory\n", (int)(strstr(s->text, " => ") - s->text), s->text);
                take(&db, &(step){.bytes = ""}, text);
                see_last(&db);
                continue; // the call was made, and changed nothing else
            }
            CHECK(is_answer(&answer, s->answer.kind, s->answer.number, s->answer.other));
            if (status == RIPSAWBEAN_UNWRITTEN) CHECK(was_refused && has_messages(s) && length == 0 && is_sand(out, 0, 400));
            else CHECK(status == RIPSAWBEAN_OK);
            if (status == RIPSAWBEAN_OK && shows(s)) see_shown(out, 400, length, s->bytes, s->length);
            if (any) ask_refused(&db, s);
            take(&db, s, s->text);
            see_last(&db);
            break;
        }
    }
    ripsawbean_close(&db.handle);
    return any;
}

// ---- the reader of messages

static void messages_are_read(void) {
    doing = "messages";
    static const char all[] = "\2\1\2\3\4\5\6\7\10" SIZE("\2") ZERO4 "kk\0" TIME("\377") ZERO4 ZERO4;
    const uint8_t *bytes = (const uint8_t *)all;
    ripsawbean_message message = {9, 9, NULL, 9, NULL, 9};
    for (size_t length = 0; length < 19; length++) CHECK(ripsawbean_read_message(bytes, length, &message) == 0 && message.kind == 9);
    CHECK(ripsawbean_read_message(bytes, 19, &message) == 19);
    CHECK(message.kind == RIPSAWBEAN_MESSAGE_DELETE && message.timestamp == UINT64_C(0x0807060504030201));
    CHECK(message.key == bytes + 17 && message.key_length == 2 && message.value_length == 0);
    CHECK(ripsawbean_read_message(bytes + 19, sizeof all - 1 - 19, &message) == 17);
    CHECK(message.kind == RIPSAWBEAN_MESSAGE_RESOLVED && message.timestamp == 255 && message.key_length == 0);
    // Lengths that no message has are taken for none, however great.
    static const char great[] = "\1" TIME("\1") "\377\377\377\377" "\377\377\377\377";
    CHECK(ripsawbean_read_message((const uint8_t *)great, sizeof great - 1, &message) == 0);
}

int main(void) {
    make_guarded(300000, 70000);
    for (int plan = 0; plan < 6; plan++) plays_with_room(plan);
    last_events();
    limits();
    messages_are_read();
    unsigned long before = 0;
    while (plays_with_refusals(before)) before++;
    CHECK(before > 0);
    printf("typed_edges: %lu checks, %lu growths refused\n", checks, growths_refused);
    return 0;
}
