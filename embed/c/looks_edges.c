// Tests at their edges what ripsawbean.h promises of what is told without a call: places, versions of keys, what a seat
// holds, and the library's version. What is to be told stands beside each, written by hand. It says how many checks
// passed, and ends at the first that doesn't.
#include "testing.h"

static guarded numbers, helds;

// Makes a call whose answer is known.
static void make(ripsawbean *db, const char *line, const char *answer) {
    char out[1000];
    size_t length;
    doing = line;
    CHECK(ripsawbean_call(db, line_of(line, strlen(line)), strlen(line), (uint8_t *)out, sizeof out - 1, &length) == RIPSAWBEAN_OK);
    CHECK(length < sizeof out);
    out[length] = 0;
    const char *at = strstr(out, " => ");
    CHECK(at != NULL && strncmp(at + 4, answer, strlen(answer)) == 0 && at[4 + strlen(answer)] == '\n');
}

static void see_text(ripsawbean *db, const char *text) {
    size_t length = 0, room = strlen(text);
    uint8_t *out = out_of(room + 1);
    CHECK(ripsawbean_text(db, out, room + 1, &length) == RIPSAWBEAN_OK);
    CHECK(length == room && memcmp(out, text, room) == 0);
}

static bool are(const ripsawbean_standing *s, uint64_t closed, uint64_t horizon, uint64_t limit, uint64_t oldest, uint64_t reached,
                uint64_t floor) {
    return s->closed == closed && s->horizon == horizon && s->limit == limit && s->oldest == oldest && s->reached == reached &&
           s->floor == floor;
}

static ripsawbean_standing places(ripsawbean *db, uint64_t feed) {
    ripsawbean_standing told;
    memset(&told, 7, sizeof told);
    refuse_after(0); // it takes no memory
    CHECK(ripsawbean_places(db, feed, &told) == RIPSAWBEAN_OK);
    CHECK(!refuse_none());
    return told;
}

static void how_far_it_has_come(void) {
    ripsawbean db = RIPSAWBEAN_INITIALIZER;
    ripsawbean_standing told;
    CHECK(ripsawbean_open(&db, 4) == RIPSAWBEAN_OK);
    told = places(&db, 0);
    CHECK(are(&told, 0, 0, 0, RIPSAWBEAN_NONE, 0, RIPSAWBEAN_NONE));
    make(&db, "0 begin 10\n", "started");
    make(&db, "1 begin 20\n", "started");
    make(&db, "1 open - - 4\n", "opened 1");
    make(&db, "0 begin 15\n", "started");
    told = places(&db, 1);
    CHECK(are(&told, 0, 0, 0, 10, 20, 4));
    make(&db, "0 commit 10\n", "committed 0");
    make(&db, "1 abort 20\n", "aborted");
    told = places(&db, 2); // no feed of this number was opened
    CHECK(are(&told, 0, 0, 0, 15, 20, RIPSAWBEAN_NONE));
    make(&db, "0 close 30\n", "closed 14 0");
    told = places(&db, 1);
    CHECK(are(&told, 14, 0, 4, 15, 20, 4));
    make(&db, "0 commit 15\n", "committed 0");
    make(&db, "0 close 30\n", "closed 30 0");
    told = places(&db, 1); // closed is above all that began
    CHECK(are(&told, 30, 0, 4, RIPSAWBEAN_NONE, 30, 4));
    make(&db, "1 poll 1 9\n", "messages 1");
    make(&db, "0 protect 25\n", "protected 1");
    told = places(&db, 1);
    CHECK(are(&told, 30, 0, 25, RIPSAWBEAN_NONE, 30, 30));
    make(&db, "0 collect 99\n", "collected 25 0");
    make(&db, "0 release 1\n", "released");
    make(&db, "1 cancel 1\n", "cancelled");
    told = places(&db, 1); // the feed no longer lives
    CHECK(are(&told, 30, 25, 30, RIPSAWBEAN_NONE, 30, RIPSAWBEAN_NONE));
    make(&db, "0 begin 9223372036854775807\n", "started");
    told = places(&db, UINT64_MAX);
    CHECK(are(&told, 30, 25, 30, RIPSAWBEAN_MAX_TIMESTAMP, RIPSAWBEAN_MAX_TIMESTAMP, RIPSAWBEAN_NONE));
    see_text(&db, "14 0 begin 9223372036854775807 => started\n");
    ripsawbean_close(&db);
    CHECK(ripsawbean_places(&db, 1, &told) == RIPSAWBEAN_CLOSED && are(&told, 0, 0, 0, 0, 0, 0));
}

static uint64_t *versions_of(size_t room) {
    return (uint64_t *)(void *)sanded_last(&numbers, room * sizeof(uint64_t));
}

static bool versions_untouched(const uint64_t *at, size_t from, size_t to) {
    return is_sand((const uint8_t *)at, from * sizeof *at, to * sizeof *at);
}

// The versions at a timestamp of keys, which stand behind their lengths: the status, and how many are told.
static uint64_t *told_at(ripsawbean *db, uint64_t at, const char *keys, size_t length, size_t room, uint8_t status, size_t count) {
    uint64_t *versions = versions_of(room);
    size_t told = 12345;
    CHECK(ripsawbean_versions_at(db, at, line_of(keys, length), length, versions, room, &told) == status);
    CHECK(told == count && versions_untouched(versions, count, room));
    return versions;
}

#define VERSIONS(db, at, keys, room, status, count) told_at(db, at, keys, sizeof(keys) - 1, room, status, count)

static void versions_of_keys(void) {
    ripsawbean db = RIPSAWBEAN_INITIALIZER;
    char text[300];
    uint64_t *told;
    CHECK(ripsawbean_open(&db, 4) == RIPSAWBEAN_OK);
    make(&db, "0 begin 10\n", "started");
    make(&db, "0 put 10 a 1\n", "written");
    make(&db, "0 put 10 ab 1\n", "written");
    make(&db, "0 commit 10\n", "committed 2");
    make(&db, "1 begin 20\n", "started");
    make(&db, "1 put 20 a 2\n", "written");
    make(&db, "0 begin 30\n", "started");
    make(&db, "0 del 30 ab\n", "written");
    make(&db, "0 commit 30\n", "committed 1");
    make(&db, "0 begin 40\n", "started");
    make(&db, "0 put 40 a 4\n", "written");
    make(&db, "0 commit 40\n", "committed 1");
    doing = "versions";
    // a has committed versions at 10 and 40, and an undecided one at 20; ab is deleted at 30; b was never written
    told = VERSIONS(&db, 50, "\1\0a\2\0ab\1\0b", 3, RIPSAWBEAN_OK, 3);
    CHECK(told[0] == 40 && told[1] == 0 && told[2] == 0);
    told = VERSIONS(&db, 39, "\1\0a\2\0ab\1\0a", 9, RIPSAWBEAN_OK, 3);
    CHECK(told[0] == 10 && told[1] == 0 && told[2] == 10);
    told = VERSIONS(&db, 20, "\1\0a\2\0ab", 2, RIPSAWBEAN_OK, 2);
    CHECK(told[0] == 10 && told[1] == 10);
    told = VERSIONS(&db, 9, "\1\0a", 1, RIPSAWBEAN_OK, 1);
    CHECK(told[0] == 0);
    told = VERSIONS(&db, UINT64_MAX, "\1\0a", 1, RIPSAWBEAN_OK, 1);
    CHECK(told[0] == 40);
    told = VERSIONS(&db, 0, "\1\0a", 1, RIPSAWBEAN_OK, 1);
    CHECK(told[0] == 0);
    // no more than there is room for, and nothing behind that is looked at
    VERSIONS(&db, 50, "", 3, RIPSAWBEAN_OK, 0);
    VERSIONS(&db, 50, "\1\0a", 0, RIPSAWBEAN_OK, 0);
    told = VERSIONS(&db, 50, "\1\0a\0\0", 1, RIPSAWBEAN_OK, 1);
    CHECK(told[0] == 40);
    // faulty keys
    VERSIONS(&db, 50, "\0\0", 1, RIPSAWBEAN_KEYLENGTH, 0);
    VERSIONS(&db, 50, "\1", 1, RIPSAWBEAN_KEYLENGTH, 0);
    VERSIONS(&db, 50, "\1\0", 1, RIPSAWBEAN_KEYLENGTH, 0);
    told = VERSIONS(&db, 50, "\1\0a\2\0a", 2, RIPSAWBEAN_KEYLENGTH, 1);
    CHECK(told[0] == 40);
    told = VERSIONS(&db, 50, "\1\0a\1\0a\1", 9, RIPSAWBEAN_KEYLENGTH, 2);
    CHECK(told[0] == 40 && told[1] == 40);
    VERSIONS(&db, 50, "\0\1a", 2, RIPSAWBEAN_KEYLENGTH, 0);
    VERSIONS(&db, 50, "\377\377a", 2, RIPSAWBEAN_KEYLENGTH, 0);
    // keys of 256 bytes and of 257
    char spelled[2 + 257];
    memset(spelled, 'k', sizeof spelled);
    snprintf(text, sizeof text, "0 begin 50\n");
    make(&db, text, "started");
    text[0] = 0;
    strcat(text, "0 put 50 ");
    memset(text + 9, 'k', 256);
    strcpy(text + 9 + 256, " v\n");
    make(&db, text, "written");
    make(&db, "0 commit 50\n", "committed 1");
    doing = "long keys";
    spelled[0] = 0, spelled[1] = 1;
    told = told_at(&db, 50, spelled, 2 + 256, 2, RIPSAWBEAN_OK, 1);
    CHECK(told[0] == 50);
    told_at(&db, 50, spelled, 2 + 255, 2, RIPSAWBEAN_KEYLENGTH, 0);
    spelled[0] = 1;
    told_at(&db, 50, spelled, 2 + 257, 2, RIPSAWBEAN_KEYLENGTH, 0);
    // a key of more than 24 bytes that runs out of memory, behind one that needs none
    spelled[0] = 1, spelled[1] = 0, spelled[2] = 'a', spelled[3] = 25, spelled[4] = 0;
    refuse_after(0);
    told = told_at(&db, 50, spelled, 5 + 25, 2, RIPSAWBEAN_NOMEMORY, 1);
    CHECK(refuse_none() && told[0] == 40);
    told = told_at(&db, 50, spelled, 5 + 25, 2, RIPSAWBEAN_OK, 2);
    CHECK(told[0] == 40 && told[1] == 0);
    spelled[3] = 24;
    refuse_after(0);
    told_at(&db, 50, spelled, 5 + 24, 2, RIPSAWBEAN_OK, 2);
    CHECK(!refuse_none());
    // below the horizon
    make(&db, "1 abort 20\n", "aborted");
    make(&db, "0 close 45\n", "closed 45 0");
    make(&db, "0 collect 42\n", "collected 42 3");
    doing = "the horizon";
    VERSIONS(&db, 41, "\1\0a", 1, RIPSAWBEAN_BELOWHORIZON, 0);
    VERSIONS(&db, 41, "\0\0", 1, RIPSAWBEAN_BELOWHORIZON, 0);
    VERSIONS(&db, 41, "", 0, RIPSAWBEAN_BELOWHORIZON, 0);
    told = VERSIONS(&db, 42, "\1\0a\2\0ab", 2, RIPSAWBEAN_OK, 2);
    CHECK(told[0] == 40 && told[1] == 0);
    see_text(&db, "17 0 collect 42 => collected 42 3\n");
    ripsawbean_close(&db);
    VERSIONS(&db, 42, "\1\0a", 1, RIPSAWBEAN_CLOSED, 0);
}

static ripsawbean_held *held_of(size_t room) {
    return (ripsawbean_held *)(void *)sanded_last(&helds, room * sizeof(ripsawbean_held));
}

static bool is(const ripsawbean_held *h, uint8_t kind, uint64_t number, uint64_t at) {
    return h->kind == kind && h->number == number && h->at == at;
}

static ripsawbean_held *held_by(ripsawbean *db, uint8_t seat, size_t room, size_t count) {
    ripsawbean_held *out = held_of(room);
    size_t told = 12345;
    CHECK(ripsawbean_held_by(db, seat, out, room, &told) == RIPSAWBEAN_OK && told == count);
    if (count < room) CHECK(is_sand((uint8_t *)out, count * sizeof *out, room * sizeof *out));
    return out;
}

static void what_a_seat_holds(void) {
    ripsawbean db = RIPSAWBEAN_INITIALIZER;
    CHECK(ripsawbean_open(&db, 4) == RIPSAWBEAN_OK);
    held_by(&db, 0, 0, 0);
    make(&db, "3 begin 30\n", "started");
    make(&db, "1 begin 20\n", "started");
    make(&db, "3 begin 10\n", "started");
    make(&db, "3 put 30 a 1\n", "written");
    make(&db, "3 put 30 b 1\n", "written");
    make(&db, "3 put 30 a 2\n", "written");
    make(&db, "3 open - - 7\n", "opened 1");
    make(&db, "1 open - - 8\n", "opened 2");
    make(&db, "3 open a b 9\n", "opened 3");
    make(&db, "1 protect 40\n", "protected 1");
    make(&db, "3 protect 5\n", "protected 2");
    doing = "what is held";
    for (size_t room = 0; room <= 8; room++) {
        ripsawbean_held *held = held_by(&db, 3, room, 6);
        if (room > 0) CHECK(is(held, RIPSAWBEAN_HELD_TRANSACTION, 10, 0));
        if (room > 1) CHECK(is(held + 1, RIPSAWBEAN_HELD_TRANSACTION, 30, 2));
        if (room > 2) CHECK(is(held + 2, RIPSAWBEAN_HELD_FEED, 1, 7));
        if (room > 3) CHECK(is(held + 3, RIPSAWBEAN_HELD_FEED, 3, 9));
        if (room > 4) CHECK(is(held + 4, RIPSAWBEAN_HELD_PROTECTION, 1, 40));
        if (room > 5) CHECK(is(held + 5, RIPSAWBEAN_HELD_PROTECTION, 2, 5));
    }
    ripsawbean_held *held = held_by(&db, 2, 3, 2);
    CHECK(is(held, RIPSAWBEAN_HELD_PROTECTION, 1, 40) && is(held + 1, RIPSAWBEAN_HELD_PROTECTION, 2, 5));
    held_by(&db, 255, 3, 2);
    make(&db, "3 commit 30\n", "committed 2");
    make(&db, "3 abort 10\n", "aborted");
    make(&db, "3 cancel 1\n", "cancelled");
    make(&db, "1 release 1\n", "released");
    doing = "what is held yet";
    held = held_by(&db, 3, 3, 2);
    CHECK(is(held, RIPSAWBEAN_HELD_FEED, 3, 9) && is(held + 1, RIPSAWBEAN_HELD_PROTECTION, 2, 5));
    // each growth refused in turn: some are only asked for beforehand, and can be done without
    size_t told;
    unsigned long before = 0, wanting = 0;
    for (bool any = true; any; before++) {
        held = held_of(3);
        told = 12345;
        refuse_after(before);
        uint8_t status = ripsawbean_held_by(&db, 3, held, 3, &told);
        any = refuse_none();
        if (status == RIPSAWBEAN_OK) {
            CHECK(told == 2 && is(held, RIPSAWBEAN_HELD_FEED, 3, 9) && is(held + 1, RIPSAWBEAN_HELD_PROTECTION, 2, 5));
        } else {
            CHECK(any && status == RIPSAWBEAN_NOMEMORY && told == 0 && is_sand((uint8_t *)held, 0, 3 * sizeof *held));
            wanting++;
        }
    }
    CHECK(wanting > 0);
    see_text(&db, "14 1 release 1 => released\n");
    ripsawbean_close(&db);
    told = 12345;
    held = held_of(3);
    CHECK(ripsawbean_held_by(&db, 3, held, 3, &told) == RIPSAWBEAN_CLOSED);
    CHECK(told == 0 && is_sand((uint8_t *)held, 0, 3 * sizeof *held));
}

int main(void) {
    make_guarded(1000, 1000);
    numbers = guarded_new(100 * sizeof(uint64_t));
    helds = guarded_new(100 * sizeof(ripsawbean_held));
    how_far_it_has_come();
    versions_of_keys();
    what_a_seat_holds();
    CHECK(ripsawbean_version() == 0x000100);
    CHECK(strcmp(ripsawbean_status_name(RIPSAWBEAN_BELOWHORIZON), "belowhorizon") == 0);
    printf("looks_edges: %lu checks, %lu growths refused\n", checks, growths_refused);
    return 0;
}
