// Random calls on a few databases at a time, by lines, by many lines at once and without lines, with buffers of random
// room, faulty lines, refused growths, and handles that are closed and opened anew. `random SEED FOLDER` makes one
// round, always the same for a seed, and writes the transcript of each database into the folder, for `mvfeed check`. It
// compares what each call leaves with what ripsawbean.h promises, and each text with that of a second database, which is
// called by single lines alone. It ends at the first difference, and else writes its counts. `embed/random` makes
// rounds for as long as it is told to.
#include "drawing.h"
#include "reading.h"

enum {
    SLOTS = 3,
    DATABASES = 12,
    MOST_TEXT = 64000000,
    MOST_AT_ONCE = 40, // lines
};

static struct {
    unsigned long databases, events, faults, refusals, asked, unwritten, no_memory, closed, repeats, typed, batches, bytes;
} counts;

static const char *folder;
static uint64_t seed;

// ---- calls

static size_t random_room(const database *db) {
    switch (below(8)) {
    case 0: return 0;
    case 1: return 1;
    case 2: return below(30);
    case 3: return db->length;
    case 4: return db->length > 0 ? db->length - 1 : 0;
    default: return below(5000);
    }
}

static void may_refuse(void) {
    if (one_in(6)) refuse_after(below(one_in(2) ? 3 : 20));
}

// Asks for the text with some room, and refuses a growth now and then. Whether it was shown: then `length` is its
// length.
static bool ask(database *db, uint8_t *out, size_t room, size_t *length) {
    *length = 12345;
    may_refuse();
    uint8_t status = ripsawbean_text(&db->handle, out, room, length);
    bool was_refused = refuse_none();
    if (status == RIPSAWBEAN_UNWRITTEN) {
        CHECK(was_refused && *length == 0 && is_sand(out, 0, room));
        counts.unwritten++;
        return false;
    }
    CHECK(status == RIPSAWBEAN_OK);
    CHECK(is_sand(out, *length < room ? *length : room, room));
    return true;
}

// The last event's text is still there, whatever was refused since.
static void ask_again(database *db) {
    size_t room = random_room(db), length;
    uint8_t *out = out_of(room);
    if (!ask(db, out, room, &length)) return;
    CHECK(length == db->length);
    size_t shown = length < room ? length : room;
    CHECK(shown == 0 || memcmp(out, db->last, shown) == 0);
    counts.repeats++;
}

// What an answer tells of what is there from here on.
static void learn(database *db, const char *answer) {
    unsigned seat = (unsigned)strtoul(line, NULL, 10);
    const char *command = strchr(line, ' ') + 1;
    if (strncmp(answer, "started", 7) == 0) {
        uint64_t ts = strtoull(command + strlen("begin "), NULL, 10);
        unsigned at = db->begun++ % TRANSACTIONS;
        db->transactions[at].ts = ts;
        db->transactions[at].seat = seat;
        if (ts > db->clock && ts < UINT64_C(9223372036854775000)) db->clock = ts;
    } else if (strncmp(answer, "opened ", 7) == 0) {
        if (db->opened < FEEDS) db->owners[db->opened] = seat;
        db->opened++;
        CHECK(strtoull(answer + 7, NULL, 10) == db->opened);
    } else if (strncmp(answer, "protected ", 10) == 0) {
        db->protected++;
        CHECK(strtoull(answer + 10, NULL, 10) == db->protected);
    } else if (strncmp(answer, "nomemory", 8) == 0) {
        counts.no_memory++;
    }
}

// The second database makes the call of the line too, whose text is the same. Its growths are never refused: where the
// first one was answered "nomemory", which changed nothing, it makes another call that changes nothing.
static void see_twin(database *db, const char *text, size_t length) {
    static uint8_t twins[MOST_TEXT];
    size_t told;
    if (has_name(words_of(text), "nomemory")) {
        CHECK(length == strlen(text) && strchr(text, '\n') == text + length - 1);
        CHECK(ripsawbean_call(&db->twin, (const uint8_t *)"0 stats\n", 8, twins, sizeof twins, &told) == RIPSAWBEAN_OK);
        return;
    }
    CHECK(ripsawbean_call(&db->twin, (const uint8_t *)line, line_length, twins, sizeof twins, &told) == RIPSAWBEAN_OK);
    CHECK(told == length && memcmp(twins, text, length) == 0);
}

// The second database finds the same fault in the line.
static void see_twins_fault(database *db, uint8_t status) {
    size_t told;
    CHECK(ripsawbean_call(&db->twin, (const uint8_t *)line, line_length, (uint8_t *)line, 0, &told) == status);
}

// Takes the text of the call of the line: it is the next event, of this very line.
// The last event in numbers is that of its text.
static void see_record(database *db) {
    static uint8_t bytes[MOST_TEXT];
    ripsawbean_record known = record_numbers(db->last, answer_bytes(db->last, bytes)), record;
    memset(&record, 0xa5, sizeof record);
    CHECK(ripsawbean_last(&db->handle, &record) == RIPSAWBEAN_OK && record.position >= known.position);
    // Of many lines that were called at once, the last one's event alone is told.
    if (record.position == known.position) CHECK(is_record(&record, &known));
}

static void take_text(database *db, const uint8_t *text, size_t length) {
    char position[32];
    size_t digits = (size_t)snprintf(position, sizeof position, "%" PRIu64 " ", db->made);
    CHECK(length > digits + line_length + 3);
    CHECK(memcmp(text, position, digits) == 0);
    CHECK(memcmp(text + digits, line, line_length - 1) == 0);
    CHECK(memcmp(text + digits + line_length - 1, " => ", 4) == 0);
    CHECK(text[length - 1] == '\n');
    CHECK(fwrite(text, 1, length, db->transcript) == length);
    free(db->last);
    db->last = malloc(length + 1);
    CHECK(db->last != NULL);
    memcpy(db->last, text, length);
    db->last[length] = '\0';
    db->length = length;
    see_twin(db, db->last, length);
    see_record(db);
    db->made++;
    counts.events++;
    learn(db, db->last + digits + line_length - 1 + 4);
}

// Asks for the text of the call that was made, of which `shown` bytes were seen, and takes it.
static void take_event(database *db, const uint8_t *seen, size_t shown) {
    char *beginning = malloc(shown + 1);
    CHECK(beginning != NULL);
    memcpy(beginning, seen, shown);
    size_t room = shown, length;
    uint8_t *out;
    for (;;) {
        out = out_of(room);
        if (!ask(db, out, room, &length)) continue;
        if (length <= room) break;
        counts.asked++;
        room = one_in(3) ? room + 1 + below(30) : one_in(2) ? length : length + below(100);
    }
    CHECK(memcmp(out, beginning, shown) == 0);
    free(beginning);
    take_text(db, out, length);
}

// Makes the call of the line, and again where there was no memory for it. `expected` is its fault, 0 for none, 255
// where it may have one.
static void call(database *db, uint8_t expected) {
    line[line_length] = '\0';
    uint8_t *at = line_of(line, line_length);
    for (;;) {
        size_t room = random_room(db), length = 12345;
        uint8_t *out = out_of(room);
        may_refuse();
        uint8_t status = ripsawbean_call(&db->handle, at, line_length, out, room, &length);
        bool was_refused = refuse_none();
        CHECK(memcmp(at, line, line_length) == 0);
        if (status == RIPSAWBEAN_OK) {
            size_t shown = length < room ? length : room;
            CHECK(expected == 0 || expected == 255);
            CHECK(length > 0 && is_sand(out, shown, room));
            take_event(db, out, shown);
            CHECK(length == db->length);
            return;
        }
        CHECK(length == 0 && is_sand(out, 0, room));
        if (status == RIPSAWBEAN_UNWRITTEN) {
            CHECK(was_refused && (expected == 0 || expected == 255));
            counts.unwritten++;
            take_event(db, out, 0);
            return;
        }
        if (status == RIPSAWBEAN_NOMEMORY) {
            CHECK(was_refused);
            counts.refusals++;
            ask_again(db);
            continue;
        }
        CHECK(expected == 255 ? status <= RIPSAWBEAN_BADBYTE : status == expected);
        see_twins_fault(db, status);
        counts.faults++;
        return;
    }
}

// ---- calls without lines

// The parts of the line, where it is of a command that can be called so.
static struct {
    const char *name;
    unsigned seat;
    uint64_t number, most;
    uint8_t key[300], value[70000]; // of a scan its bounds
    size_t key_length, value_length;
    bool has_high, is_within; // of a poll, whether it has a bound, which lets all through
} parts;

static bool has_parts(void) {
    static const struct {
        const char *name;
        size_t words;
    } commands[] = {
        {"begin", 1}, {"get", 2}, {"put", 3}, {"del", 2}, {"commit", 1}, {"abort", 1}, {"close", 1}, {"readat", 2}, {"poll", 2},
        {"scan", 3},  {"scanat", 3},
    };
    char *at;
    parts.seat = (unsigned)strtoul(line, &at, 10);
    at++;
    for (size_t i = 0; i < sizeof commands / sizeof *commands; i++) {
        if (!has_name(at, commands[i].name)) continue;
        parts.name = commands[i].name;
        parts.is_within = false;
        parts.number = strtoull(at + strlen(parts.name) + 1, &at, 10);
        if (strcmp(parts.name, "poll") == 0) {
            parts.most = strtoull(at, NULL, 10);
            parts.is_within = one_in(2);
        } else if (commands[i].words > 1) {
            parts.key_length = unspell(++at, parts.key);
            if (commands[i].words > 2) {
                const char *last = strchr(at, ' ') + 1;
                parts.value_length = unspell(last, parts.value);
                parts.has_high = strcmp(last, "-\n") != 0;
            }
        }
        return true;
    }
    return false;
}

// Whether the parts, or a look, may want memory before the call.
static bool is_long(void) {
    if (parts.name[0] == 's') return true;
    if (strcmp(parts.name, "poll") == 0) return parts.is_within;
    bool has_key = strchr("gpdr", parts.name[0]) != NULL;
    return has_key && (parts.key_length > 24 || (strcmp(parts.name, "put") == 0 && parts.value_length > 24));
}

// Makes the call of the parts. The functions that show bytes change `length`.
static uint8_t call_parts(database *db, uint8_t *out, size_t room, size_t *length, ripsawbean_answer *answer) {
    ripsawbean *handle = &db->handle;
    uint8_t seat = (uint8_t)parts.seat;
    const uint8_t *key = line_of(parts.key, parts.key_length), *value = other_of(parts.value, parts.value_length);
    switch (parts.name[0]) {
    case 'b': return ripsawbean_begin(handle, seat, parts.number, answer);
    case 'g': return ripsawbean_get(handle, seat, parts.number, key, parts.key_length, out, room, length, answer);
    case 'd': return ripsawbean_delete(handle, seat, parts.number, key, parts.key_length, answer);
    case 'a': return ripsawbean_abort(handle, seat, parts.number, answer);
    case 'r': return ripsawbean_read_at(handle, seat, parts.number, key, parts.key_length, out, room, length, answer);
    case 's':
        return (strcmp(parts.name, "scan") == 0 ? ripsawbean_scan : ripsawbean_scan_at)(
            handle, seat, parts.number, key, parts.key_length, value, parts.value_length, parts.has_high, UINT64_MAX, UINT64_MAX, out, room,
            length, answer);
    case 'c':
        if (parts.name[1] == 'o') return ripsawbean_commit(handle, seat, parts.number, answer);
        return ripsawbean_close_to(handle, seat, parts.number, answer);
    default:
        if (parts.is_within && parts.name[1] == 'o')
            return ripsawbean_poll_within(handle, seat, parts.number, parts.most, UINT64_MAX, out, room, length, answer);
        if (parts.name[1] == 'o') return ripsawbean_poll(handle, seat, parts.number, parts.most, out, room, length, answer);
        return ripsawbean_put(handle, seat, parts.number, key, parts.key_length, value, parts.value_length, answer);
    }
}

// The bytes of the last event's answer, by its text.
static size_t known_bytes(const database *db, const uint8_t **known) {
    static uint8_t bytes[MOST_TEXT];
    *known = bytes;
    return db->length == 0 ? 0 : answer_bytes(db->last, bytes);
}

// Asks for the bytes of the last event's answer, which are those that its text tells, whatever was refused since.
static void ask_bytes(database *db) {
    const uint8_t *known;
    size_t known_length = known_bytes(db, &known), room = one_in(2) ? below(40) : known_length + below(3), length = 12345;
    uint8_t *out = out_of(room);
    may_refuse();
    uint8_t status = ripsawbean_bytes(&db->handle, out, room, &length);
    bool was_refused = refuse_none();
    counts.bytes++;
    if (status == RIPSAWBEAN_UNWRITTEN) {
        CHECK(was_refused && length == 0 && is_sand(out, 0, room));
        CHECK(has_name(words_of(db->last), "messages") || has_name(words_of(db->last), "rows"));
        counts.unwritten++;
        return;
    }
    CHECK(status == RIPSAWBEAN_OK && length == known_length);
    size_t shown = length < room ? length : room;
    CHECK(memcmp(out, known, shown) == 0 && is_sand(out, shown, room));
}

// Sees that a call that was made told what its text says.
static void see_answer(database *db, const uint8_t *beginning, size_t shown, size_t length, bool has_shown,
                       const ripsawbean_answer *answer) {
    const uint8_t *known;
    size_t known_length = known_bytes(db, &known);
    ripsawbean_answer numbers = answer_numbers(db->last, known_length);
    CHECK(is_answer(answer, numbers.kind, numbers.number, numbers.other));
    if (!has_shown) return;
    CHECK(length == known_length && memcmp(beginning, known, shown) == 0);
}

// Makes the call of the line by its parts, and again where there was no memory for it. `expected` is the parts' fault.
static void call_typed(database *db, uint8_t expected) {
    bool shows = strchr("grs", parts.name[0]) != NULL || strcmp(parts.name, "poll") == 0;
    line[line_length] = '\0';
    for (;;) {
        size_t room = random_room(db), length = shows ? 12345 : 0;
        uint8_t *out = out_of(room);
        ripsawbean_answer answer = other_answer();
        may_refuse();
        uint8_t status = call_parts(db, out, room, &length, &answer);
        bool was_refused = refuse_none();
        if (status == RIPSAWBEAN_OK || status == RIPSAWBEAN_UNWRITTEN) {
            CHECK(expected == 0 && (status == RIPSAWBEAN_OK || (was_refused && answer.kind == (parts.name[0] == 's' ? 9 : 8))));
            CHECK(status == RIPSAWBEAN_OK || length == 0);
            size_t shown = length < room ? length : room;
            CHECK(is_sand(out, shown, room));
            uint8_t *beginning = malloc(shown + 1);
            CHECK(beginning != NULL);
            memcpy(beginning, out, shown);
            // Of a feed that doesn't live no messages find room, and one is asked for.
            if (parts.is_within && (answer.kind == RIPSAWBEAN_ANSWER_NOFEED || answer.kind == RIPSAWBEAN_ANSWER_FEEDCANCELLED))
                line_length = (size_t)sprintf(line, "%u poll %llu %d\n", parts.seat, (unsigned long long)parts.number, parts.most > 0);
            take_event(db, out, 0);
            see_answer(db, beginning, shown, length, status == RIPSAWBEAN_OK, &answer);
            free(beginning);
            if (one_in(2)) ask_bytes(db);
            counts.typed++;
            return;
        }
        CHECK((shows ? length == 0 : true) && is_sand(out, 0, room) && is_answer(&answer, 0, 0, 0));
        if (status == RIPSAWBEAN_NOMEMORY) {
            CHECK(was_refused && expected == 0 && is_long());
            counts.refusals++;
            ask_again(db);
            continue;
        }
        CHECK(status == expected);
        counts.faults++;
        return;
    }
}

// Spoils a part, or two of which the first is told, and makes the call.
static void call_faulty(database *db) {
    uint8_t expected = 0;
    bool has_key = strchr("gdr", parts.name[0]) != NULL || strcmp(parts.name, "put") == 0;
    if (strcmp(parts.name, "put") == 0 && one_in(2)) {
        parts.value_length = 65537 + below(1000);
        expected = RIPSAWBEAN_VALUELENGTH;
    }
    if (has_key && one_in(2)) {
        parts.key_length = one_in(2) ? 0 : 257 + below(40);
        expected = RIPSAWBEAN_KEYLENGTH;
    }
    if (parts.name[0] == 's' && one_in(2)) {
        parts.key_length = 258 + below(40);
        expected = RIPSAWBEAN_KEYLENGTH;
    }
    if (expected == 0 || one_in(4)) {
        parts.seat = 64 + (unsigned)below(192);
        expected = RIPSAWBEAN_SESSION;
    }
    call_typed(db, expected);
}

// ---- many lines at once

// Takes what became of the first lines, up to a line whose text isn't shown.
static void take_lines(database *db, const char *all, size_t all_length, const uint8_t *texts, const ripsawbean_done *done,
                       const ripsawbean_taken *taken) {
    size_t from = 0, shown = 0;
    for (size_t i = 0; i < taken->lines; i++) {
        const char *end = memchr(all + from, '\n', all_length - from);
        line_length = end == NULL ? all_length - from : (size_t)(end - (all + from)) + 1;
        memcpy(line, all + from, line_length);
        line[line_length] = '\0';
        from += line_length;
        if (done[i].status == RIPSAWBEAN_OK) {
            CHECK(done[i].length > 0 && done[i].length <= taken->length - shown);
            take_text(db, texts + shown, done[i].length);
            shown += done[i].length;
        } else if (done[i].status == RIPSAWBEAN_UNWRITTEN) {
            CHECK(i + 1 == taken->lines);
            size_t told = done[i].length;
            take_event(db, texts, 0);
            CHECK(told == 0 || told == db->length);
            counts.unwritten++;
        } else {
            CHECK(done[i].length == 0 && done[i].status <= RIPSAWBEAN_BADBYTE);
            see_twins_fault(db, done[i].status);
            counts.faults++;
        }
    }
    CHECK(from == taken->bytes && shown == taken->length);
}

// Makes the calls of lines, and goes on behind what was taken until all are.
static void call_all(database *db, const char *all, size_t all_length) {
    static ripsawbean_done done[MOST_AT_ONCE + 3];
    for (size_t from = 0; from < all_length;) {
        size_t room = one_in(2) ? 100 + below(8000) : random_room(db), places = one_in(3) ? below(6) : MOST_AT_ONCE + 2;
        size_t left = all_length - from;
        uint8_t *at = line_of(all + from, left), *out = out_of(room);
        ripsawbean_done *told = notes_of(places);
        ripsawbean_taken taken = {12345, 12345, 12345};
        may_refuse();
        uint8_t status = ripsawbean_calls(&db->handle, at, left, out, room, told, places, UINT64_MAX, &taken);
        bool was_refused = refuse_none();
        CHECK(memcmp(at, all + from, left) == 0);
        CHECK(taken.lines <= places && taken.bytes <= left && taken.length <= room);
        CHECK(is_sand(out, taken.length, room) && are_untouched(told, taken.lines, places));
        memcpy(done, told, taken.lines * sizeof *done);
        uint8_t last = taken.lines > 0 ? done[taken.lines - 1].status : 0;
        CHECK((status == RIPSAWBEAN_UNWRITTEN) == (last == RIPSAWBEAN_UNWRITTEN));
        if (last == RIPSAWBEAN_UNWRITTEN) {
            size_t length = done[taken.lines - 1].length;
            CHECK(length == 0 ? was_refused : length > room - taken.length);
        } else if (status == RIPSAWBEAN_OK) {
            CHECK(taken.bytes == left || taken.lines == places);
        } else {
            CHECK(status == RIPSAWBEAN_NOMEMORY && was_refused);
        }
        uint8_t *texts = malloc(taken.length + 1);
        CHECK(texts != NULL);
        memcpy(texts, out, taken.length);
        take_lines(db, all + from, left, texts, done, &taken);
        free(texts);
        counts.refusals += status == RIPSAWBEAN_NOMEMORY;
        counts.batches++;
        from += taken.bytes;
    }
}

static uint8_t make_any(database *db) {
    if (one_in(12)) return make_fault(db);
    if (one_in(12)) mangle(db);
    else make_line(db);
    return 255;
}

static void call_several(database *db) {
    static char all[MOST_LINE];
    size_t length = 0;
    for (uint64_t count = 1 + below(MOST_AT_ONCE); count > 0; count--) {
        make_any(db);
        if (length + line_length > sizeof all) break;
        memcpy(all + length, line, line_length);
        length += line_length;
    }
    call_all(db, all, length);
}

// ---- handles

static void open_slot(database *db) {
    static const uint32_t rings[] = {1, 2, 3, 1024, 65536};
    *db = (database){.handle = db->handle, .clock = 1, .most = 1 + below(one_in(3) ? 40 : 700)};
    CHECK(ripsawbean_open(&db->twin, rings[below(5)]) == RIPSAWBEAN_OK);
    while (ripsawbean_open(&db->handle, one_in(4) ? (one_in(2) ? 0 : 65537 + (uint32_t)below(9)) : rings[below(5)]) != RIPSAWBEAN_OK)
        CHECK(!db->handle.is_open);
    char path[4096];
    snprintf(path, sizeof path, "%s/%" PRIu64 "-%lu", folder, seed, counts.databases++);
    db->transcript = fopen(path, "w");
    CHECK(db->transcript != NULL);
    fputs("mvfeed 2\n", db->transcript);
}

static void close_slot(database *db) {
    ripsawbean_close(&db->twin);
    ripsawbean_close(&db->handle);
    if (one_in(2)) ripsawbean_close(&db->handle);
    CHECK(!db->handle.is_open);
    CHECK(fclose(db->transcript) == 0);
    free(db->last);
    *db = (database){.handle = db->handle, .last = NULL};
}

static void use_closed(database *db) {
    size_t room = below(20), length = 12345;
    uint8_t *out = out_of(room);
    ripsawbean_answer answer = other_answer();
    ripsawbean_taken taken = {1, 2, 3};
    ripsawbean_done *told = notes_of(2);
    switch (below(4)) {
    case 0: CHECK(ripsawbean_text(&db->handle, out, room, &length) == RIPSAWBEAN_CLOSED); break;
    case 1: CHECK(ripsawbean_call(&db->handle, (const uint8_t *)"0 stats\n", below(9), out, room, &length) == RIPSAWBEAN_CLOSED); break;
    case 2:
        CHECK(ripsawbean_poll(&db->handle, (uint8_t)below(256), 1, 9, out, room, &length, &answer) == RIPSAWBEAN_CLOSED);
        CHECK(is_answer(&answer, 0, 0, 0));
        break;
    default:
        CHECK(ripsawbean_calls(&db->handle, (const uint8_t *)"0 stats\n", below(9), out, room, told, below(3), below(9), &taken) == RIPSAWBEAN_CLOSED);
        CHECK(taken.lines == 0 && taken.bytes == 0 && taken.length == 0 && are_untouched(told, 0, 2));
        length = 0;
    }
    CHECK(length == 0 && is_sand(out, 0, room));
    counts.closed++;
}

static void use_open(database *db) {
    if (one_in(100)) {
        CHECK(ripsawbean_open(&db->handle, 1 + (uint32_t)below(65536)) == RIPSAWBEAN_OPEN);
        CHECK(ripsawbean_open(&db->handle, 65537) == RIPSAWBEAN_RING);
    } else if (one_in(15)) {
        if (one_in(2)) ask_again(db);
        else ask_bytes(db);
    } else if (one_in(30)) {
        call_several(db);
    } else if (one_in(8)) {
        call(db, make_fault(db));
    } else if (one_in(12)) {
        mangle(db);
        call(db, 255);
    } else {
        make_line(db);
        line[line_length] = '\0';
        if (!has_parts() || one_in(3)) call(db, 0);
        else if (one_in(10)) call_faulty(db);
        else call_typed(db, 0);
    }
}

int main(int count, char **words) {
    if (count != 3) {
        fputs("random SEED FOLDER\n", stderr);
        return 1;
    }
    seed = strtoull(words[1], NULL, 10);
    folder = words[2];
    doing = words[1];
    set_dice(seed);
    make_guarded(MOST_LINE, MOST_TEXT);
    static database slots[SLOTS];
    unsigned open = 0;
    while (counts.databases < DATABASES || open > 0) {
        database *db = &slots[below(SLOTS)];
        if (db->transcript == NULL) {
            if (one_in(3)) use_closed(db);
            if (counts.databases == DATABASES || !one_in(2)) continue;
            open_slot(db);
            open++;
        } else if (db->made >= db->most) {
            close_slot(db);
            open--;
        } else {
            use_open(db);
        }
    }
    printf("databases %lu events %lu faults %lu answered_nomemory %lu refused_calls %lu unwritten %lu asked_again %lu repeated %lu "
           "closed %lu typed %lu batches %lu bytes %lu growths_refused %lu checks %lu\n",
           counts.databases, counts.events, counts.faults, counts.no_memory, counts.refusals, counts.unwritten, counts.asked, counts.repeats,
           counts.closed, counts.typed, counts.batches, counts.bytes, growths_refused, checks);
    return 0;
}
