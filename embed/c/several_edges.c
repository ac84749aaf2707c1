// Tests at their edges what ripsawbean.h promises of many lines at once. What each line is to tell stands beside it,
// written by hand. It says how many checks passed, and ends at the first that doesn't.
//
// Not tested: RIPSAWBEAN_SPENT, which takes 18446744073709551615 calls.
#include "testing.h"

typedef struct {
    const char *line;
    uint8_t fault;
    const char *text; // of its event
} step;

#define FEW 17
static const step script[FEW] = {
    {"0 begin 10\n", 0, "0 0 begin 10 => started\n"},
    {"\n", RIPSAWBEAN_WORDCOUNT, ""},
    {"0 put 10 a 1\n", 0, "1 0 put 10 a 1 => written\n"},
    {"0 put 10 b\n", RIPSAWBEAN_WORDCOUNT, ""},
    {"0 fly\n", RIPSAWBEAN_UNKNOWNCOMMAND, ""},
    {"0 scan 10 - -\n", 0, "2 0 scan 10 - - => rows 1\nrow a 1\n"},
    {"0 begin x\n", RIPSAWBEAN_NUMBER, ""},
    {"0 get 10 -\n", RIPSAWBEAN_KEYLENGTH, ""},
    {"1 get 10 a\n", 0, "3 1 get 10 a => notowner\n"},
    {"64 stats\n", RIPSAWBEAN_SESSION, ""},
    {"0 get 10 \x01\n", RIPSAWBEAN_BADBYTE, ""},
    {"0 commit 10\n", 0, "4 0 commit 10 => committed 1\n"},
    {"0 close 10\n", 0, "5 0 close 10 => closed 10 0\n"},
    {"2 open - - 0\n", 0, "6 2 open - - 0 => opened 1\n"},
    {"2 poll 1 9\n", 0, "7 2 poll 1 9 => messages 2\n{\"after\":\"MQ==\",\"key\":\"YQ==\",\"updated\":\"10\"}\n{\"resolved\":\"10\"}\n"},
    {"0 stats\n", 0, "8 0 stats => stats 1 0 1 10 0\n"},
    {"0 stats", RIPSAWBEAN_NONEWLINE, ""},
};

static char all[1000];
static size_t all_length, all_texts;

static void see_text(ripsawbean *db, const char *text) {
    size_t length = 12345, room = strlen(text);
    uint8_t *out = out_of(room + 1);
    CHECK(ripsawbean_text(db, out, room + 1, &length) == RIPSAWBEAN_OK);
    CHECK(length == room && memcmp(out, text, room) == 0 && is_sand(out, room, room + 1));
}

static bool are(const ripsawbean_taken *taken, size_t lines, size_t bytes, size_t length) {
    return taken->lines == lines && taken->bytes == bytes && taken->length == length;
}

// Calls from one line on, and sees all that is left by it. Returns the first line that was not taken.
static size_t call_from(ripsawbean *db, size_t first, size_t from, size_t room, size_t places) {
    uint8_t *at = line_of(all + from, all_length - from), *out = out_of(room), expected = RIPSAWBEAN_OK;
    ripsawbean_done *told = notes_of(places);
    ripsawbean_taken taken = {1, 2, 3};
    uint8_t status = ripsawbean_calls(db, at, all_length - from, out, room, told, places, UINT64_MAX, &taken);
    size_t line = first, bytes = 0, shown = 0;
    CHECK(memcmp(at, all + from, all_length - from) == 0);
    for (; line < FEW && line - first < places && expected == RIPSAWBEAN_OK; line++) {
        const step *s = &script[line];
        const ripsawbean_done *note = &told[line - first];
        size_t length = strlen(s->text);
        bytes += strlen(s->line);
        CHECK(note->length == length);
        if (s->fault != 0) {
            CHECK(note->status == s->fault);
        } else if (length > room - shown) {
            CHECK(note->status == (expected = RIPSAWBEAN_UNWRITTEN));
            see_text(db, s->text);
        } else {
            CHECK(note->status == RIPSAWBEAN_OK);
            CHECK(memcmp(out + shown, s->text, length) == 0);
            shown += length;
        }
    }
    CHECK(status == expected && are(&taken, line - first, bytes, shown));
    CHECK(are_untouched(told, taken.lines, places));
    if (expected == RIPSAWBEAN_OK) CHECK(is_sand(out, shown, room));
    return line;
}

// All lines, with each room and each number of notes. What was not taken is called next, with all the room there is.
static void rooms_of_each_size(void) {
    doing = "rooms";
    for (size_t room = 0; room <= all_texts + 2; room++) {
        for (size_t places = 0; places <= FEW + 1; places += places < 3 || places >= FEW - 1 ? 1 : 5) {
            ripsawbean db = RIPSAWBEAN_INITIALIZER;
            CHECK(ripsawbean_open(&db, 4) == RIPSAWBEAN_OK);
            size_t line = call_from(&db, 0, 0, room, places), from = 0;
            for (size_t i = 0; i < line; i++) from += strlen(script[i].line);
            if (places > 0 && room % 3 == 0) {
                while (line < FEW) {
                    line = call_from(&db, line, from, room, places);
                    from = 0;
                    for (size_t i = 0; i < line; i++) from += strlen(script[i].line);
                }
            } else {
                CHECK(line == FEW || call_from(&db, line, from, all_texts, FEW) == FEW);
            }
            see_text(&db, script[FEW - 2].text); // the last line is faulty, and made no call
            ripsawbean_close(&db);
        }
    }
}

// A text that finds no room leaves the rest of the buffer as it was.
static void the_rest_of_the_buffer(void) {
    doing = "the rest of the buffer";
    ripsawbean db = RIPSAWBEAN_INITIALIZER;
    ripsawbean_taken taken;
    CHECK(ripsawbean_open(&db, 4) == RIPSAWBEAN_OK);
    size_t room = strlen(script[0].text) + 25;
    uint8_t *out = out_of(room);
    ripsawbean_done *told = notes_of(9);
    CHECK(ripsawbean_calls(&db, line_of(all, all_length), all_length, out, room, told, 9, UINT64_MAX, &taken) == RIPSAWBEAN_UNWRITTEN);
    CHECK(are(&taken, 3, 25, 24) && told[2].length == 26 && told[2].status == RIPSAWBEAN_UNWRITTEN);
    CHECK(memcmp(out, script[0].text, 24) == 0 && is_sand(out, 24, room) && are_untouched(told, 3, 9));
    ripsawbean_close(&db);
}

// Lines at the limits of their length, one behind another.
static void long_lines(void) {
    doing = "long lines";
    static char text[900000];
    size_t length = 0;
    for (int i = 0; i < 4; i++) {
        size_t digits = i == 3 ? 5 : i == 1 ? 200001 : 200000;
        memset(text + length, '0', digits);
        length += digits;
        text[length++] = '\n';
    }
    ripsawbean db = RIPSAWBEAN_INITIALIZER;
    ripsawbean_taken taken;
    CHECK(ripsawbean_open(&db, 4) == RIPSAWBEAN_OK);
    ripsawbean_done *told = notes_of(4);
    uint8_t *out = out_of(3);
    CHECK(ripsawbean_calls(&db, line_of(text, length), length, out, 3, told, 4, UINT64_MAX, &taken) == RIPSAWBEAN_OK);
    CHECK(are(&taken, 4, length, 0) && is_sand(out, 0, 3));
    static const uint8_t faults[] = {RIPSAWBEAN_WORDCOUNT, RIPSAWBEAN_LINETOOLONG, RIPSAWBEAN_WORDCOUNT, RIPSAWBEAN_WORDCOUNT};
    for (int i = 0; i < 4; i++) CHECK(told[i].status == faults[i] && told[i].length == 0);
    see_text(&db, "");
    // No line, and many lines.
    CHECK(ripsawbean_calls(&db, line_of("", 0), 0, out, 3, told, 4, UINT64_MAX, &taken) == RIPSAWBEAN_OK && are(&taken, 0, 0, 0));
    memset(text, '\n', 4096);
    told = notes_of(4096);
    CHECK(ripsawbean_calls(&db, line_of(text, 4096), 4096, out, 3, told, 4096, UINT64_MAX, &taken) == RIPSAWBEAN_OK && are(&taken, 4096, 4096, 0));
    for (size_t i = 0; i < 4096; i++) CHECK(told[i].status == RIPSAWBEAN_WORDCOUNT && told[i].length == 0);
    ripsawbean_close(&db);
}

static void see_closed(void) {
    doing = "closed";
    ripsawbean db = RIPSAWBEAN_INITIALIZER;
    for (int opened = 0; opened < 2; opened++) {
        for (size_t length = 0; length <= all_length; length += all_length) {
            ripsawbean_taken taken = {1, 2, 3};
            uint8_t *out = out_of(9);
            ripsawbean_done *told = notes_of(3);
            CHECK(ripsawbean_calls(&db, line_of(all, length), length, out, 9, told, 3, UINT64_MAX, &taken) == RIPSAWBEAN_CLOSED);
            CHECK(are(&taken, 0, 0, 0) && is_sand(out, 0, 9) && are_untouched(told, 0, 3) && !db.is_open);
        }
        CHECK(ripsawbean_open(&db, 1) == RIPSAWBEAN_OK);
        ripsawbean_close(&db);
    }
}

// ---- out of memory

// Each line that makes a call makes it once, whichever growth is refused: its position is the next one. Some answers
// are "nomemory", and so others may be of what is then missing.
static const char *const refused[] = {
    "0 begin 10\n",
    "0 put 10 a%00key%20of%20more%20than%2024%20bytes a%20value%20of%20more%20than%2024%20bytes\n",
    "0 put 10 b 2\n",
    "0 put\n",
    "0 scan 10 - -\n",
    "0 commit 10\n",
    "0 close 10\n",
    "0 open - - 0\n",
    "0 poll 1 9\n",
    "0 stats\n",
};

enum { REFUSED = sizeof refused / sizeof *refused };

// The text of the next line's call, which has this position.
static void see_event(const char *text, size_t length, size_t line, unsigned position) {
    char begins[200];
    size_t count = (size_t)snprintf(begins, sizeof begins, "%u %.*s => ", position, (int)strlen(refused[line]) - 1, refused[line]);
    CHECK(length > count && memcmp(text, begins, count) == 0 && text[length - 1] == '\n');
}

// Calls all lines, with the growth behind `before` others refused in each second call, until all are taken.
static bool plays_with_refusals(unsigned long before, size_t room) {
    static char text[1000], last[1000];
    ripsawbean db = RIPSAWBEAN_INITIALIZER;
    CHECK(ripsawbean_open(&db, 2) == RIPSAWBEAN_OK);
    size_t line = 0, from = 0, length = 0, told_length = 0;
    unsigned position = 0;
    bool any = false;
    for (size_t i = 0; i < REFUSED; i++) length += (size_t)sprintf(text + length, "%s", refused[i]);
    for (unsigned long left = before; line < REFUSED; left = left == before ? 1000000 : before) {
        uint8_t *out = out_of(room);
        ripsawbean_done *told = notes_of(REFUSED);
        ripsawbean_taken taken = {1, 2, 3};
        refuse_after(left);
        uint8_t status = ripsawbean_calls(&db, line_of(text + from, length - from), length - from, out, room, told, REFUSED, UINT64_MAX, &taken);
        bool was_refused = refuse_none();
        any = any || was_refused;
        CHECK(is_sand(out, taken.length, room) && are_untouched(told, taken.lines, REFUSED));
        size_t shown = 0, bytes = 0;
        for (size_t i = 0; i < taken.lines; i++, line++) {
            bytes += strlen(refused[line]);
            if (strcmp(refused[line], "0 put\n") == 0) {
                CHECK(told[i].status == RIPSAWBEAN_WORDCOUNT && told[i].length == 0);
                continue;
            }
            told_length = told[i].length;
            if (told[i].status == RIPSAWBEAN_OK) {
                CHECK(told_length <= sizeof last);
                memcpy(last, out + shown, told_length);
                shown += told_length;
            } else {
                CHECK(i + 1 == taken.lines && told[i].status == RIPSAWBEAN_UNWRITTEN && status == RIPSAWBEAN_UNWRITTEN);
                CHECK(told_length > room - shown || (told_length == 0 && was_refused));
                CHECK(ripsawbean_text(&db, (uint8_t *)last, sizeof last, &told_length) == RIPSAWBEAN_OK);
                CHECK(told[i].length == 0 || told_length == told[i].length);
            }
            see_event(last, told_length, line, position++);
        }
        CHECK(taken.bytes == bytes && taken.length == shown);
        from += bytes;
        if (status == RIPSAWBEAN_OK) CHECK(line == REFUSED);
        else CHECK(status == RIPSAWBEAN_UNWRITTEN || (status == RIPSAWBEAN_NOMEMORY && was_refused));
        // The last event's text stands, whatever came behind it.
        if (position > 0) {
            char again[sizeof last];
            size_t again_length;
            CHECK(ripsawbean_text(&db, (uint8_t *)again, sizeof again, &again_length) == RIPSAWBEAN_OK);
            CHECK(again_length == told_length && memcmp(again, last, told_length) == 0);
        }
    }
    CHECK(position == REFUSED - 1);
    ripsawbean_close(&db);
    return any;
}

int main(void) {
    make_guarded(900000, 70000);
    for (size_t i = 0; i < FEW; i++) {
        memcpy(all + all_length, script[i].line, strlen(script[i].line));
        all_length += strlen(script[i].line);
        all_texts += strlen(script[i].text);
    }
    see_closed();
    rooms_of_each_size();
    the_rest_of_the_buffer();
    long_lines();
    unsigned long before = 0;
    while (plays_with_refusals(before, 4000)) before++;
    CHECK(before > 0);
    for (before = 0; plays_with_refusals(before, 60);) before++;
    printf("several_edges: %lu checks, %lu growths refused\n", checks, growths_refused);
    return 0;
}
