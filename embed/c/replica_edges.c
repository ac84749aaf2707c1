// Tests at their edges what ripsawbean.h promises of replicas. `replica_edges` says how many checks passed, and ends at
// the first that doesn't.
#include "testing.h"

static uint8_t opened(ripsawbean_replica *replica, const char *line) {
    return ripsawbean_replica_open(replica, line_of(line, strlen(line)), strlen(line));
}

static uint8_t begun(ripsawbean_replica *replica, const char *line, const char *rows) {
    return ripsawbean_replica_begin(replica, line_of(line, strlen(line)), strlen(line), other_of(rows, strlen(rows)), strlen(rows));
}

static uint8_t taken(ripsawbean_replica *replica, const char *line) {
    return ripsawbean_replica_take(replica, line_of(line, strlen(line)), strlen(line));
}

// Where a line shows that the rows are the map, or the status as a number above all timestamps.
static uint64_t ready(ripsawbean_replica *replica, const char *line) {
    uint64_t time = 12345;
    uint8_t status = ripsawbean_replica_ready(replica, line_of(line, strlen(line)), strlen(line), &time);
    if (status == RIPSAWBEAN_OK) return time;
    CHECK(time == RIPSAWBEAN_NONE);
    return RIPSAWBEAN_MAX_TIMESTAMP + status;
}

static uint8_t complete(ripsawbean_replica *replica, uint64_t through, uint64_t at) {
    uint64_t told[2] = {12345, 12345};
    uint8_t status = ripsawbean_replica_complete(replica, &told[0], &told[1]);
    CHECK(told[0] == through && told[1] == at);
    return status;
}

// The rows, in each room from none to two bytes above what is needed.
static uint8_t rows(ripsawbean_replica *replica, const char *expected) {
    uint8_t status = RIPSAWBEAN_OK;
    for (size_t room = 0; room <= strlen(expected) + 2; room++) {
        uint8_t *out = out_of(room);
        size_t length = 12345, shown = room < strlen(expected) ? room : strlen(expected);
        status = ripsawbean_replica_rows(replica, out, room, &length);
        CHECK(length == strlen(expected) && memcmp(out, expected, shown) == 0 && is_sand(out, shown, room));
    }
    return status;
}

// The value of a key, in each room from none to two bytes above what is needed.
static uint8_t found(ripsawbean_replica *replica, const char *key, const char *value) {
    uint8_t status = RIPSAWBEAN_OK;
    for (size_t room = 0; room <= strlen(value) + 2; room++) {
        uint8_t *out = out_of(room);
        size_t length = 12345, shown = room < strlen(value) ? room : strlen(value);
        status = ripsawbean_replica_get(replica, line_of(key, strlen(key)), strlen(key), out, room, &length);
        CHECK(length == strlen(value) && memcmp(out, value, shown) == 0 && is_sand(out, shown, room));
    }
    return status;
}

// A closed one does nothing, and stays closed where it isn't opened.
static void closed_ones(void) {
    doing = "closed replicas";
    ripsawbean_replica replica = RIPSAWBEAN_REPLICA_INITIALIZER;
    CHECK(taken(&replica, "{\"resolved\":\"9\"}\n") == RIPSAWBEAN_CLOSED);
    CHECK(ready(&replica, "{\"resolved\":\"9\"}\n") == RIPSAWBEAN_MAX_TIMESTAMP + RIPSAWBEAN_CLOSED);
    CHECK(complete(&replica, RIPSAWBEAN_NONE, RIPSAWBEAN_NONE) == RIPSAWBEAN_CLOSED);
    CHECK(found(&replica, "a", "") == RIPSAWBEAN_CLOSED);
    CHECK(rows(&replica, "") == RIPSAWBEAN_CLOSED);
    CHECK(opened(&replica, "0 open - - 5") == RIPSAWBEAN_NONEWLINE);
    CHECK(opened(&replica, "0 open - -\n") == RIPSAWBEAN_WORDCOUNT);
    CHECK(opened(&replica, "64 open - - 5\n") == RIPSAWBEAN_SESSION);
    CHECK(opened(&replica, "0 poll 1 1\n") == RIPSAWBEAN_NOFEED);
    CHECK(opened(&replica, "0 open - - 9223372036854775808\n") == RIPSAWBEAN_NOFEED);
    ripsawbean_replica_close(&replica);
    CHECK(!replica.is_open && replica.at == NULL);
}

// Rows to begin with: the first test that isn't passed tells, and the handle stays closed.
static void rows_to_begin_with(void) {
    doing = "rows to begin with";
    ripsawbean_replica replica = RIPSAWBEAN_REPLICA_INITIALIZER;
    CHECK(begun(&replica, "0 open - - 5", "none") == RIPSAWBEAN_NONEWLINE);
    CHECK(begun(&replica, "0 open - -\n", "none") == RIPSAWBEAN_WORDCOUNT);
    CHECK(begun(&replica, "64 open - - 5\n", "") == RIPSAWBEAN_SESSION);
    CHECK(begun(&replica, "0 poll 1 1\n", "none") == RIPSAWBEAN_NOFEED);
    CHECK(begun(&replica, "0 openinitial - - 5\n", "") == RIPSAWBEAN_NOFEED);
    CHECK(begun(&replica, "0 openinitialevery - - 5 1\n", "") == RIPSAWBEAN_NOFEED);
    CHECK(begun(&replica, "0 open - - 9223372036854775808\n", "none") == RIPSAWBEAN_NOFEED);
    CHECK(begun(&replica, "0 open a c 5\n", "row d 1\nrow a 1") == RIPSAWBEAN_NOMESSAGE);
    CHECK(begun(&replica, "0 open a c 5\n", "row d 1\n\n") == RIPSAWBEAN_NOMESSAGE);
    CHECK(begun(&replica, "0 open a c 5\n", "row %61 1\n") == RIPSAWBEAN_NOMESSAGE);
    CHECK(begun(&replica, "0 open a c 5\n", "row d 1\nrow d 1\n") == RIPSAWBEAN_NOTAFTER);
    CHECK(begun(&replica, "0 open a c 5\n", "row b 1\nrow c 1\n") == RIPSAWBEAN_OUTSIDESPAN);
    CHECK(!replica.is_open && replica.at == NULL);

    CHECK(begun(&replica, "63 openevery a c 0 3\n", "row a 1\nrow b -\n") == RIPSAWBEAN_OK);
    CHECK(begun(&replica, "none", "none") == RIPSAWBEAN_OPEN); // tested before the line
    CHECK(complete(&replica, 0, 0) == RIPSAWBEAN_OK && rows(&replica, "row a 1\nrow b -\n") == RIPSAWBEAN_OK);
    CHECK(taken(&replica, "{\"after\":null,\"key\":\"YQ==\",\"updated\":\"1\"}\n") == RIPSAWBEAN_OK);
    CHECK(complete(&replica, 0, RIPSAWBEAN_NONE) == RIPSAWBEAN_OK && rows(&replica, "row b -\n") == RIPSAWBEAN_OK);
    ripsawbean_replica_close(&replica);
    CHECK(begun(&replica, "0 open - - 9223372036854775807\n", "") == RIPSAWBEAN_OK);
    CHECK(complete(&replica, RIPSAWBEAN_MAX_TIMESTAMP, RIPSAWBEAN_MAX_TIMESTAMP) == RIPSAWBEAN_OK);
    CHECK(rows(&replica, "") == RIPSAWBEAN_OK);
    ripsawbean_replica_close(&replica);
}

// Messages of an initial feed with a least gap, and lines between them that are none of its.
static void messages(void) {
    doing = "messages";
    ripsawbean_replica replica = RIPSAWBEAN_REPLICA_INITIALIZER;
    CHECK(opened(&replica, "63 openinitialevery a c 7 3\n") == RIPSAWBEAN_OK);
    CHECK(opened(&replica, "0 open - - 5\n") == RIPSAWBEAN_OPEN);
    CHECK(opened(&replica, "0 open - - 5") == RIPSAWBEAN_OPEN); // tested before the line
    CHECK(complete(&replica, RIPSAWBEAN_NONE, RIPSAWBEAN_NONE) == RIPSAWBEAN_OK && rows(&replica, "") == RIPSAWBEAN_OK);

    CHECK(taken(&replica, "{\"after\":\"MQ==\",\"key\":\"YQ==\",\"updated\":\"7\"}\n") == RIPSAWBEAN_OK);
    CHECK(complete(&replica, RIPSAWBEAN_NONE, RIPSAWBEAN_NONE) == RIPSAWBEAN_OK);
    CHECK(taken(&replica, "{\"after\":\"MQ==\",\"key\":\"YQ==\",\"updated\":\"7\"}\n") == RIPSAWBEAN_NOTAFTER);
    CHECK(taken(&replica, "{\"after\":\"MQ==\",\"key\":\"Yw==\",\"updated\":\"8\"}\n") == RIPSAWBEAN_OUTSIDESPAN);
    CHECK(taken(&replica, "{\"resolved\":\"6\"}\n") == RIPSAWBEAN_RESOLVEDBACK);
    CHECK(taken(&replica, "{\"resolved\":\"8\"}") == RIPSAWBEAN_NOMESSAGE);
    CHECK(taken(&replica, "") == RIPSAWBEAN_NOMESSAGE);
    CHECK(ready(&replica, "{}\n") == RIPSAWBEAN_MAX_TIMESTAMP + RIPSAWBEAN_NOMESSAGE);
    CHECK(ready(&replica, "{\"resolved\":\"8\"}\n") == RIPSAWBEAN_NONE);
    // It would be refused, so it shows nothing.
    CHECK(ready(&replica, "{\"after\":null,\"key\":\"Yw==\",\"updated\":\"9\"}\n") == RIPSAWBEAN_NONE);
    CHECK(ready(&replica, "{\"after\":null,\"key\":\"YQ==\",\"updated\":\"9\"}\n") == 8);
    CHECK(taken(&replica, "{\"after\":\"IA==\",\"key\":\"Yg==\",\"updated\":\"9\"}\n") == RIPSAWBEAN_OK);
    CHECK(complete(&replica, 8, RIPSAWBEAN_NONE) == RIPSAWBEAN_OK);
    CHECK(taken(&replica, "{\"resolved\":\"9223372036854775807\"}\n") == RIPSAWBEAN_OK);
    CHECK(complete(&replica, RIPSAWBEAN_MAX_TIMESTAMP, RIPSAWBEAN_MAX_TIMESTAMP) == RIPSAWBEAN_OK);
    CHECK(rows(&replica, "row a 1\nrow b %20\n") == RIPSAWBEAN_OK);
    CHECK(found(&replica, "a", "1") == RIPSAWBEAN_OK && found(&replica, "b", " ") == RIPSAWBEAN_OK);
    CHECK(found(&replica, "c", "") == RIPSAWBEAN_NOVALUE && found(&replica, "", "") == RIPSAWBEAN_KEYLENGTH);
    static char key[258];
    memset(key, 'k', 257);
    CHECK(found(&replica, key, "") == RIPSAWBEAN_KEYLENGTH && found(&replica, key + 1, "") == RIPSAWBEAN_NOVALUE);
    ripsawbean_replica_close(&replica);
    ripsawbean_replica_close(&replica);
    CHECK(!replica.is_open);
}

// One function of a replica, which takes memory.
typedef uint8_t action(ripsawbean_replica *replica);

static const char long_row[] =
    "{\"after\":\"MQ==\",\"key\":\"YWFhYWFhYWFhYWFhYWFhYWFhYWFhYWFhYWFh\",\"updated\":\"9\"}\n";
static const char long_key[] = "aaaaaaaaaaaaaaaaaaaaaaaaaaa";
static const char long_rows[] = "row aaaaaaaaaaaaaaaaaaaaaaaaaaa 1\n";

static uint8_t open_it(ripsawbean_replica *replica) {
    return opened(replica, "0 open - - 5\n");
}

static uint8_t begin_it(ripsawbean_replica *replica) {
    return begun(replica, "0 open - - 5\n", long_rows);
}

static uint8_t ask_ready(ripsawbean_replica *replica) {
    uint64_t time = 12345;
    uint8_t status = ripsawbean_replica_ready(replica, line_of(long_row, strlen(long_row)), strlen(long_row), &time);
    CHECK(time == (status == RIPSAWBEAN_OK ? 8 : RIPSAWBEAN_NONE));
    return status;
}

static uint8_t take_row(ripsawbean_replica *replica) {
    return taken(replica, long_row);
}

static uint8_t get_value(ripsawbean_replica *replica) {
    const uint8_t *key = line_of(long_key, strlen(long_key));
    size_t length = 12345;
    uint8_t *out = out_of(3), status = ripsawbean_replica_get(replica, key, strlen(long_key), out, 3, &length);
    CHECK(length == (status == RIPSAWBEAN_OK ? 1 : 0) && (length == 0 || *out == '1') && is_sand(out, length, 3));
    return status;
}

static uint8_t show_rows(ripsawbean_replica *replica) {
    size_t length = 12345;
    uint8_t *out = out_of(9), status = ripsawbean_replica_rows(replica, out, 9, &length);
    CHECK(length == (status == RIPSAWBEAN_OK ? strlen(long_rows) : 0));
    CHECK(status == RIPSAWBEAN_OK ? memcmp(out, long_rows, 9) == 0 : is_sand(out, 0, 9));
    return status;
}

// Each growth of memory of the action is refused in turn: nothing changes then, and at last it is done.
static void refuse_each(ripsawbean_replica *replica, action *act, bool is_open, const char *rows_before) {
    for (unsigned long before = 0;; before++) {
        refuse_after(before);
        uint8_t status = act(replica);
        if (!refuse_none()) {
            CHECK(status == RIPSAWBEAN_OK);
            CHECK(before > 0);
            return;
        }
        CHECK(status == RIPSAWBEAN_NOMEMORY && replica->is_open == is_open);
        if (is_open) CHECK(rows(replica, rows_before) == RIPSAWBEAN_OK);
        if (is_open && *rows_before == '\0') CHECK(complete(replica, 5, 5) == RIPSAWBEAN_OK);
    }
}

static void want_of_memory(void) {
    doing = "out of memory";
    ripsawbean_replica replica = RIPSAWBEAN_REPLICA_INITIALIZER;
    refuse_each(&replica, begin_it, false, "");
    CHECK(complete(&replica, 5, 5) == RIPSAWBEAN_OK && rows(&replica, long_rows) == RIPSAWBEAN_OK);
    ripsawbean_replica_close(&replica);
    refuse_each(&replica, open_it, false, "");
    refuse_each(&replica, ask_ready, true, "");
    refuse_each(&replica, take_row, true, "");
    CHECK(complete(&replica, 8, RIPSAWBEAN_NONE) == RIPSAWBEAN_OK);
    refuse_each(&replica, get_value, true, long_rows);
    refuse_each(&replica, show_rows, true, long_rows);
    ripsawbean_replica_close(&replica);
}

int main(void) {
    make_guarded(300, 4096);
    closed_ones();
    rows_to_begin_with();
    messages();
    want_of_memory();
    printf("replica edges: %lu checks, %lu growths refused\n", checks, growths_refused);
    return 0;
}
