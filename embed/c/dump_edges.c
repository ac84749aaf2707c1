// Tests at their edges what ripsawbean.h promises of a dump in pieces: what has room, where the next one begins, and what
// is left as it was. What is to be told stands beside each, written by hand. It says how many checks passed, and ends at the
// first that doesn't.
#include "testing.h"

#define FIRST "0 begin 10\n0 put 10 a 1\n"
#define SECOND "0 put 10 b -\n"
#define THIRD "0 commit 10\n0 begin 20\n0 put 20 a 2\n"
#define LAST "0 commit 20\n0 close 20\n0 collect 0\n"

static guarded keys;

static void make(ripsawbean *db, const char *line) {
    char out[1000];
    size_t length;
    doing = line;
    CHECK(ripsawbean_call(db, line_of(line, strlen(line)), strlen(line), (uint8_t *)out, sizeof out, &length) == RIPSAWBEAN_OK);
    CHECK(length < sizeof out && memchr(out, '=', length) != NULL);
}

// 10 wrote a and b, and 20 wrote a.
static ripsawbean filled(void) {
    static const char *lines[] = {"0 begin 10\n", "0 put 10 a 1\n", "0 put 10 b -\n", "0 commit 10\n", "1 begin 20\n", "1 put 20 a 2\n", "1 commit 20\n"};
    ripsawbean db = RIPSAWBEAN_INITIALIZER;
    CHECK(ripsawbean_open(&db, 4) == RIPSAWBEAN_OK);
    for (size_t i = 0; i < sizeof lines / sizeof *lines; i++) make(&db, lines[i]);
    return db;
}

static bool is_at(const ripsawbean_dump_place *place, uint64_t timestamp, size_t key, uint8_t ended) {
    return place->timestamp == timestamp && place->key == key && place->ended == ended;
}

// A piece in so much room, behind the place of a key, which is told anew.
static void shows(ripsawbean *db, uint64_t through, ripsawbean_dump_place *place, const char *key, size_t room, const char *text,
                  const char *next) {
    size_t length = 12345, key_room = 256 + room % 3;
    uint8_t *out = out_of(room), *key_at = sanded_last(&keys, key_room);
    doing = text;
    memcpy(key_at, key, strlen(key));
    CHECK(place->key == strlen(key));
    CHECK(ripsawbean_dump(db, 0, through, place, key_at, key_room, out, room, &length) == RIPSAWBEAN_OK);
    CHECK(length == strlen(text) && memcmp(out, text, length) == 0 && is_sand(out, length, room));
    CHECK(place->key == strlen(next) && memcmp(key_at, next, strlen(next)) == 0);
    size_t longer = strlen(next) > strlen(key) ? strlen(next) : strlen(key);
    CHECK(is_sand(key_at, longer, key_room));
}

// Nothing is shown, and all is as it was.
static void shows_nothing(ripsawbean *db, uint64_t at, ripsawbean_dump_place place, size_t key_room, size_t room, uint8_t status, size_t wanted) {
    size_t length = 12345;
    uint8_t *out = out_of(room), *key_at = sanded_last(&keys, key_room);
    ripsawbean_dump_place after = place;
    CHECK(ripsawbean_dump(db, at, UINT64_MAX, &after, key_at, key_room, out, room, &length) == status);
    CHECK(length == wanted && is_sand(out, 0, room) && is_sand(key_at, 0, key_room));
    CHECK(is_at(&after, place.timestamp, place.key, place.ended));
}

static void in_pieces(void) {
    ripsawbean db = filled();
    ripsawbean_dump_place place = {0};
    shows(&db, UINT64_MAX, &place, "", strlen(FIRST SECOND), FIRST SECOND, "b");
    CHECK(is_at(&place, 10, 1, 0));
    shows(&db, UINT64_MAX, &place, "b", strlen(THIRD LAST) - 1, THIRD, "a");
    CHECK(is_at(&place, 20, 1, 0));
    shows(&db, UINT64_MAX, &place, "a", strlen(LAST), LAST, "");
    CHECK(is_at(&place, 0, 0, 1));
    shows(&db, UINT64_MAX, &place, "", 99, "", "");
    CHECK(is_at(&place, 0, 0, 1));
    place = (ripsawbean_dump_place){0};
    shows(&db, UINT64_MAX, &place, "", 999, FIRST SECOND THIRD LAST, "");
    CHECK(is_at(&place, 0, 0, 1));
    ripsawbean_close(&db);
}

static void through_a_timestamp(void) {
    ripsawbean db = filled();
    ripsawbean_dump_place place = {0};
    shows(&db, 9, &place, "", 0, "", "");
    CHECK(is_at(&place, 9, 0, 0));
    shows(&db, 10, &place, "", strlen(FIRST SECOND), FIRST SECOND, "b");
    shows(&db, 10, &place, "b", 12, "0 commit 10\n", "");
    CHECK(is_at(&place, 10, 0, 0));
    shows(&db, 10, &place, "", 99, "", "");
    shows(&db, 9, &place, "", 99, "", "");
    CHECK(is_at(&place, 10, 0, 0));
    make(&db, "1 begin 30\n");
    shows(&db, 29, &place, "", 99, "0 begin 20\n0 put 20 a 2\n0 commit 20\n", "");
    CHECK(is_at(&place, 29, 0, 0));
    shows(&db, 30, &place, "", 99, "0 close 30\n0 collect 0\n", "");
    CHECK(is_at(&place, 0, 0, 1));
    ripsawbean_close(&db);
}

static void what_is_not_shown(void) {
    ripsawbean db = filled();
    ripsawbean_dump_place start = {0}, ended = {0, 0, 1}, long_key = {10, 257, 0};
    shows_nothing(&db, 0, start, 256, strlen(FIRST) - 1, RIPSAWBEAN_UNWRITTEN, strlen(FIRST));
    shows_nothing(&db, 0, start, 256, 0, RIPSAWBEAN_UNWRITTEN, strlen(FIRST));
    shows_nothing(&db, 0, start, 255, 99, RIPSAWBEAN_KEYLENGTH, 0);
    shows_nothing(&db, 0, long_key, 300, 99, RIPSAWBEAN_KEYLENGTH, 0);
    shows_nothing(&db, RIPSAWBEAN_MAX_TIMESTAMP + 1, start, 0, 99, RIPSAWBEAN_NUMBER, 0);
    shows_nothing(&db, 0, ended, 256, 99, RIPSAWBEAN_OK, 0);
    // each growth refused in turn
    unsigned long before = 0, wanting = 0;
    for (bool any = true; any; before++) {
        size_t length = 12345;
        ripsawbean_dump_place place = {0};
        uint8_t *out = out_of(999), *key_at = sanded_last(&keys, 256);
        refuse_after(before);
        uint8_t status = ripsawbean_dump(&db, 0, UINT64_MAX, &place, key_at, 256, out, 999, &length);
        any = refuse_none();
        if (status == RIPSAWBEAN_OK) {
            CHECK(length == strlen(FIRST SECOND THIRD LAST) && is_at(&place, 0, 0, 1));
        } else {
            CHECK(any && status == RIPSAWBEAN_NOMEMORY && length == 0 && is_at(&place, 0, 0, 0));
            CHECK(is_sand(out, 0, 999) && is_sand(key_at, 0, 256));
            wanting++;
        }
    }
    CHECK(wanting > 0);
    ripsawbean_close(&db);
    shows_nothing(&db, 0, start, 0, 99, RIPSAWBEAN_CLOSED, 0);
}

int main(void) {
    make_guarded(1000, 1000);
    keys = guarded_new(300);
    in_pieces();
    through_a_timestamp();
    what_is_not_shown();
    printf("dump_edges: %lu checks, %lu growths refused\n", checks, growths_refused);
    return 0;
}
