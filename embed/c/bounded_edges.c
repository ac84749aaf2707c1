// Tests at their edges what ripsawbean.h promises of answers with a bound. What each event is to say stands beside the
// call, written by hand; its bytes are read from that text. It says how many checks passed, and ends at the first that
// doesn't.
//
// Not tested: RIPSAWBEAN_SPENT, which takes 18446744073709551615 calls.
#include "reading.h"

#define ALL UINT64_MAX

static ripsawbean db;
static uint64_t made;

// The line of a call that only prepares.
static void line(const char *text) {
    uint8_t out[200];
    size_t length;
    CHECK(ripsawbean_call(&db, line_of(text, strlen(text)), strlen(text), out, sizeof out, &length) == RIPSAWBEAN_OK);
    made++;
}

// The last event's text is this, behind its position; its bytes and its answer are those of the text.
static void see(const char *text, const uint8_t *out, size_t room, size_t length, const ripsawbean_answer *answer) {
    static char whole[2000], told[2000];
    static uint8_t bytes[2000];
    CHECK(snprintf(whole, sizeof whole, "%llu %s", (unsigned long long)made++, text) < (int)sizeof whole);
    size_t told_length, known = answer_bytes(whole, bytes), shown = length < room ? length : room;
    ripsawbean_answer numbers = answer_numbers(whole, known);
    CHECK(is_answer(answer, numbers.kind, numbers.number, numbers.other));
    CHECK(length == known && memcmp(out, bytes, shown) == 0 && is_sand(out, shown, room));
    CHECK(ripsawbean_text(&db, (uint8_t *)told, sizeof told, &told_length) == RIPSAWBEAN_OK);
    CHECK(told_length == strlen(whole) && memcmp(told, whole, told_length) == 0);
    uint8_t *again = out_of(known + 1);
    CHECK(ripsawbean_bytes(&db, again, known + 1, &length) == RIPSAWBEAN_OK);
    CHECK(length == known && memcmp(again, bytes, known) == 0 && is_sand(again, known, known + 1));
}

typedef struct {
    const char *low, *high; // NULL where there is no high bound
    uint64_t rows, bytes;
    const char *text;
} scan;

typedef uint8_t scanning(ripsawbean *, uint8_t, uint64_t, const uint8_t *, size_t, const uint8_t *, size_t, uint8_t, uint64_t, uint64_t,
                         uint8_t *, size_t, size_t *, ripsawbean_answer *);

// A scan, with rooms of several sizes.
static void scan_each(scanning *function, uint8_t seat, uint64_t timestamp, const scan *s) {
    const size_t rooms[] = {0, 1, 20, 41, 400};
    for (size_t i = 0; i < sizeof rooms / sizeof *rooms; i++) {
        doing = s->text;
        const char *high = s->high == NULL ? "" : s->high;
        size_t length = 12345;
        ripsawbean_answer answer = other_answer();
        uint8_t *out = out_of(rooms[i]);
        CHECK(function(&db, seat, timestamp, line_of(s->low, strlen(s->low)), strlen(s->low), other_of(high, strlen(high)), strlen(high),
                       s->high != NULL, s->rows, s->bytes, out, rooms[i], &length, &answer) == RIPSAWBEAN_OK);
        see(s->text, out, rooms[i], length, &answer);
    }
}

#define EACH(function, seat, timestamp, scans)                                                                                      \
    for (size_t i = 0; i < sizeof scans / sizeof *scans; i++) scan_each(function, seat, timestamp, &scans[i])

// The rows have 23, 28 and 19 bytes; b was deleted, so it has none.
static void scans_of_a_transaction(void) {
    const scan own[] = {
        {"", NULL, 9, 70, "0 scan 10 - - => rows 3\nrow a 12345\nrow c 1234567890\nrow d 1\n"},
        {"", NULL, 9, 69, "0 scan 10 - d => rows 2\nrow a 12345\nrow c 1234567890\n"},
        {"", NULL, 9, 51, "0 scan 10 - d => rows 2\nrow a 12345\nrow c 1234567890\n"},
        {"", NULL, 9, 50, "0 scan 10 - c => rows 1\nrow a 12345\n"},
        {"", NULL, 9, 23, "0 scan 10 - c => rows 1\nrow a 12345\n"},
        {"", NULL, 9, 22, "0 scan 10 - a%00 => rows 1\nrow a 12345\n"}, // the first row is told in any case
        {"", NULL, 9, 0, "0 scan 10 - a%00 => rows 1\nrow a 12345\n"},
        {"", NULL, 0, ALL, "0 scan 10 - a%00 => rows 1\nrow a 12345\n"},
        {"", NULL, 0, 0, "0 scan 10 - a%00 => rows 1\nrow a 12345\n"},
        {"", NULL, 1, ALL, "0 scan 10 - c => rows 1\nrow a 12345\n"},
        {"", NULL, 2, ALL, "0 scan 10 - d => rows 2\nrow a 12345\nrow c 1234567890\n"},
        {"", NULL, 3, ALL, "0 scan 10 - - => rows 3\nrow a 12345\nrow c 1234567890\nrow d 1\n"},
        {"", NULL, ALL, ALL, "0 scan 10 - - => rows 3\nrow a 12345\nrow c 1234567890\nrow d 1\n"},
        {"", "d", 2, 51, "0 scan 10 - d => rows 2\nrow a 12345\nrow c 1234567890\n"},
        {"", "d", 1, 51, "0 scan 10 - c => rows 1\nrow a 12345\n"},
        {"b", NULL, 1, ALL, "0 scan 10 b d => rows 1\nrow c 1234567890\n"},
        {"c", NULL, 9, 28, "0 scan 10 c d => rows 1\nrow c 1234567890\n"},
        {"d", NULL, 1, 19, "0 scan 10 d - => rows 1\nrow d 1\n"},
        {"d", NULL, 1, 18, "0 scan 10 d d%00 => rows 1\nrow d 1\n"},
        {"b", "d", 0, 0, "0 scan 10 b c%00 => rows 1\nrow c 1234567890\n"},
        {"b", "c", 0, 0, "0 scan 10 b c => rows 0\n"}, // a key without a value needs no room
        {"x", NULL, 0, 0, "0 scan 10 x - => rows 0\n"},
        {"d", "a", 0, 0, "0 scan 10 d a => rows 0\n"},
    };
    const scan foreign[] = {{"", NULL, 1, ALL, "1 scan 10 - c => notowner\n"}, {"", NULL, 9, ALL, "1 scan 10 - - => notowner\n"}};
    EACH(ripsawbean_scan, 0, 10, own);
    EACH(ripsawbean_scan, 1, 10, foreign);
}

// Key 0 is the reader's own, and a is another's, undecided.
static void blocked_scans(void) {
    line("1 begin 20\n");
    const scan bare[] = {{"", NULL, 0, 0, "1 scan 20 - - => blocked 10\n"}};
    EACH(ripsawbean_scan, 1, 20, bare);
    line("1 put 20 0 x\n");
    const scan before[] = {
        {"", NULL, 1, ALL, "1 scan 20 - - => blocked 10\n"},
        {"", NULL, 9, 19, "1 scan 20 - - => blocked 10\n"},
        {"", NULL, 9, 18, "1 scan 20 - 0%00 => rows 1\nrow 0 x\n"},
        {"", NULL, 0, ALL, "1 scan 20 - 0%00 => rows 1\nrow 0 x\n"},
        {"", "a", 9, ALL, "1 scan 20 - a => rows 1\nrow 0 x\n"},
    };
    EACH(ripsawbean_scan, 1, 20, before);
}

static void scans_at_a_timestamp(void) {
    const scan at[] = {
        {"", NULL, 9, 70, "5 scanat 15 - - => rows 3\nrow a 12345\nrow c 1234567890\nrow d 1\n"},
        {"", NULL, 9, 69, "5 scanat 15 - d => rows 2\nrow a 12345\nrow c 1234567890\n"},
        {"", NULL, 0, ALL, "5 scanat 15 - a%00 => rows 1\nrow a 12345\n"},
        {"b", "d", 0, ALL, "5 scanat 15 b c%00 => rows 1\nrow c 1234567890\n"},
    };
    const scan above[] = {{"", NULL, 9, ALL, "5 scanat 40 - - => notclosed 30\n"}};
    EACH(ripsawbean_scan_at, 5, 15, at);
    EACH(ripsawbean_scan_at, 5, 40, above);
    line("5 collect 30\n");
    const scan below_it[] = {{"", NULL, 0, 0, "5 scanat 15 - - => belowhorizon 30\n"}};
    const scan ended[] = {{"", NULL, 0, 0, "0 scan 10 - - => ended\n"}};
    EACH(ripsawbean_scan_at, 5, 15, below_it);
    EACH(ripsawbean_scan, 0, 10, ended);
}

// The messages have 23, 18, 28, 19, 19 and 17 bytes.
static void polls(void) {
#define A "{\"after\":\"MTIzNDU=\",\"key\":\"YQ==\",\"updated\":\"10\"}\n"
#define B "{\"after\":null,\"key\":\"Yg==\",\"updated\":\"10\"}\n"
#define C "{\"after\":\"MTIzNDU2Nzg5MA==\",\"key\":\"Yw==\",\"updated\":\"10\"}\n"
#define D "{\"after\":\"MQ==\",\"key\":\"ZA==\",\"updated\":\"10\"}\n"
#define ZERO "{\"after\":\"eA==\",\"key\":\"MA==\",\"updated\":\"20\"}\n"
#define RESOLVED "{\"resolved\":\"30\"}\n"
    static const struct {
        uint8_t seat;
        uint64_t feed, most, bytes;
        const char *text;
    } each[] = {
        {3, 1, 9, 40, "3 poll 1 1 => messages 1\n" A},
        {3, 1, 9, 46, "3 poll 1 2 => messages 2\n" B C},
        {3, 1, 0, ALL, "3 poll 1 0 => messages 0\n"},
        {3, 1, 1, 19, "3 poll 1 1 => messages 1\n" D},
        {3, 1, 9, 35, "3 poll 1 1 => messages 1\n" ZERO},
        {3, 1, 9, 17, "3 poll 1 9 => messages 1\n" RESOLVED},
        {3, 1, 9, 0, "3 poll 1 9 => messages 0\n"}, // all that is left has room
        {3, 2, 9, 0, "3 poll 2 1 => messages 1\n" A}, // the first message is told in any case
        {3, 2, 1, 17, "3 poll 2 1 => messages 1\n" B},
        {3, 2, 0, 0, "3 poll 2 0 => messages 0\n"},
        {3, 2, 9, 27, "3 poll 2 1 => messages 1\n" C},
        {3, 2, 9, 38, "3 poll 2 2 => messages 2\n" D ZERO},
        {3, 2, 9, 16, "3 poll 2 1 => messages 1\n" RESOLVED},
        {3, 2, 9, 0, "3 poll 2 9 => messages 0\n"},
        {3, 3, 9, ALL, "3 poll 3 1 => nofeed\n"},
        {0, 1, 9, ALL, "0 poll 1 9 => notowner\n"},
        {4, 4, 4, 99, "4 poll 4 1 => nofeed\n"},
    };
    for (size_t i = 0; i < sizeof each / sizeof *each; i++) {
        doing = each[i].text;
        size_t length = 12345;
        ripsawbean_answer answer = other_answer();
        uint8_t *out = out_of(400);
        CHECK(ripsawbean_poll_within(&db, each[i].seat, each[i].feed, each[i].most, each[i].bytes, out, 400, &length, &answer) ==
              RIPSAWBEAN_OK);
        see(each[i].text, out, 400, length, &answer);
    }
}

// A poll of more messages than are looked at first.
static void long_polls(void) {
    doing = "long polls";
    for (uint64_t room = 0; room <= 100; room++) {
        ripsawbean one = RIPSAWBEAN_INITIALIZER;
        uint8_t out[4000];
        char text[100];
        size_t length;
        ripsawbean_answer answer;
        CHECK(ripsawbean_open(&one, 1) == RIPSAWBEAN_OK);
        CHECK(ripsawbean_call(&one, (const uint8_t *)"0 open - - 0\n", 13, out, sizeof out, &length) == RIPSAWBEAN_OK);
        CHECK(ripsawbean_begin(&one, 0, 1, &answer) == RIPSAWBEAN_OK);
        for (int i = 0; i < 99; i++) {
            int size = snprintf(text, sizeof text, "%02d", i);
            CHECK(ripsawbean_put(&one, 0, 1, (const uint8_t *)text, (size_t)size, (const uint8_t *)text, 1, &answer) == RIPSAWBEAN_OK);
        }
        CHECK(ripsawbean_commit(&one, 0, 1, &answer) == RIPSAWBEAN_OK);
        CHECK(ripsawbean_close_to(&one, 0, 1, &answer) == RIPSAWBEAN_OK);
        // 99 rows of 20 bytes and a resolved message
        CHECK(ripsawbean_poll_within(&one, 0, 1, 1000, 20 * room + 3, out, sizeof out, &length, &answer) == RIPSAWBEAN_OK);
        uint64_t told = room == 0 ? 1 : room;
        CHECK(is_answer(&answer, RIPSAWBEAN_ANSWER_MESSAGES, told, 0));
        CHECK(length == (told < 100 ? 20 * told : 99 * 20 + 17));
        ripsawbean_close(&one);
    }
}

// Scans without any room, each from where the one before ended, tell each row once, and come to an end.
static void scans_without_room(void) {
    doing = "scans without room";
    static uint8_t key[256], low[257];
    memset(key, 'z', sizeof key);
    const size_t lengths[] = {1, 2, 254, 255, 256}; // each key begins the next one
    enum { KEYS = sizeof lengths / sizeof *lengths };
    ripsawbean one = RIPSAWBEAN_INITIALIZER;
    ripsawbean_answer answer;
    CHECK(ripsawbean_open(&one, 1) == RIPSAWBEAN_OK);
    CHECK(ripsawbean_begin(&one, 0, 10, &answer) == RIPSAWBEAN_OK);
    for (int i = 0; i < KEYS; i++) CHECK(ripsawbean_put(&one, 0, 10, key, lengths[i], low, 0, &answer) == RIPSAWBEAN_OK);
    CHECK(ripsawbean_delete(&one, 0, 10, key, 3, &answer) == RIPSAWBEAN_OK);
    for (uint64_t rows = 0; rows < 2; rows++) {
        size_t low_length = 0, length;
        for (int i = 0; i < KEYS; i++) {
            uint8_t *out = out_of(800);
            ripsawbean_message message;
            CHECK(ripsawbean_scan(&one, 0, 10, low, low_length, low, 0, 0, rows, 0, out, 800, &length, &answer) == RIPSAWBEAN_OK);
            CHECK(is_answer(&answer, RIPSAWBEAN_ANSWER_ROWS, 1, 0));
            size_t end = ripsawbean_read_message(out, length, &message);
            CHECK(message.kind == RIPSAWBEAN_MESSAGE_ROW && message.key_length == lengths[i] && message.value_length == 0);
            CHECK(ripsawbean_read_message(out + end, length - end, &message) == length - end);
            CHECK(message.kind == RIPSAWBEAN_MESSAGE_END && message.key_length == lengths[i] + 1);
            memcpy(low, message.key, low_length = message.key_length);
        }
        CHECK(ripsawbean_scan(&one, 0, 10, low, low_length, low, 0, 0, rows, 0, out_of(1), 1, &length, &answer) == RIPSAWBEAN_OK);
        CHECK(is_answer(&answer, RIPSAWBEAN_ANSWER_ROWS, 0, 0) && length == 0);
    }
    ripsawbean_close(&one);
}

static uint8_t faulty(uint8_t seat, size_t low, size_t high, uint8_t has_high) {
    static char bytes[300];
    memset(bytes, 'z', sizeof bytes);
    size_t length = 12345;
    ripsawbean_answer answer = other_answer();
    uint8_t *out = out_of(9);
    uint8_t status = ripsawbean_scan(&db, seat, 10, line_of(bytes, low), low, other_of(bytes, high), high, has_high, 9, ALL, out, 9, &length,
                                     &answer);
    if (status != RIPSAWBEAN_OK) CHECK(length == 0 && is_sand(out, 0, 9) && is_answer(&answer, 0, 0, 0));
    return status;
}

static void faults(void) {
    doing = "faults";
    CHECK(faulty(0, 258, 0, 0) == RIPSAWBEAN_KEYLENGTH);
    CHECK(faulty(0, 0, 258, 1) == RIPSAWBEAN_KEYLENGTH);
    CHECK(faulty(0, 0, 0, 1) == RIPSAWBEAN_KEYLENGTH);
    CHECK(faulty(64, 258, 0, 1) == RIPSAWBEAN_SESSION);
    CHECK(faulty(255, 0, 0, 0) == RIPSAWBEAN_SESSION);
    refuse_after(0);
    CHECK(faulty(0, 257, 258, 1) == RIPSAWBEAN_KEYLENGTH); // a fault is told before memory is asked for
    CHECK(faulty(0, 257, 0, 0) == RIPSAWBEAN_NOMEMORY);
    CHECK(refuse_none());
    // No call was made so far: positions say so below. These are right.
    CHECK(faulty(0, 257, 257, 255) == RIPSAWBEAN_OK);
    CHECK(faulty(0, 0, 258, 0) == RIPSAWBEAN_OK);
    made += 2;
}

// A high bound of the greatest length stands behind the rows, whole.
static void a_long_end(void) {
    doing = "a long end";
    static uint8_t high[257];
    memset(high, 'z', sizeof high);
    size_t length = 12345;
    ripsawbean_answer answer = other_answer();
    ripsawbean_message message;
    uint8_t *out = out_of(400);
    CHECK(ripsawbean_scan(&db, 0, 10, high, 0, other_of(high, 257), 257, 1, 1, 23, out, 400, &length, &answer) == RIPSAWBEAN_OK);
    made++;
    CHECK(length == 23 + 18 && ripsawbean_read_message(out + 23, 18, &message) == 18);
    CHECK(message.kind == RIPSAWBEAN_MESSAGE_END && message.timestamp == 10 && message.key_length == 1 && *message.key == 'c');
    CHECK(ripsawbean_scan(&db, 0, 10, high, 0, other_of(high, 257), 257, 1, 9, ALL, out, 400, &length, &answer) == RIPSAWBEAN_OK);
    made++;
    CHECK(length == 70 + 17 + 257 && ripsawbean_read_message(out + 70, 17 + 257, &message) == 17 + 257);
    CHECK(message.kind == RIPSAWBEAN_MESSAGE_END && message.key_length == 257 && message.value_length == 0);
    CHECK(memcmp(message.key, high, 257) == 0);
}

// Lines whose answers would be too long make no call, and those behind them are taken. One that is refused makes its call.
static void several(void) {
    static const struct {
        const char *line;
        uint64_t most; // that is too little
    } each[] = {
        {"0 scan 10 - -\n", 69}, {"0 get 10 a\n", 0}, {"0 scan 10 x -\n", 0}, {"0 scan 10 a c\n", 22}, {"0 scan 10\n", 0}, {"0 poll 1 9\n", 0},
        {"0 stats\n", 0}, {"1 scan 10 - -\n", 0}, {"0 scan 11 - -\n", 0}, {"0 scanat 10 - -\n", 0},
    };
    enum { EACH_LINE = sizeof each / sizeof *each };
    const uint64_t bounds[] = {0, 1, 21, 22, 23, 68, 69, 70, 71, ALL - 1, ALL};
    char text[200] = "";
    for (size_t i = 0; i < EACH_LINE; i++) strcat(text, each[i].line);
    for (size_t b = 0; b < sizeof bounds / sizeof *bounds; b++) {
        doing = "several";
        ripsawbean_taken taken;
        uint8_t *out = out_of(1000);
        ripsawbean_done *told = notes_of(EACH_LINE);
        CHECK(ripsawbean_calls(&db, line_of(text, strlen(text)), strlen(text), out, 1000, told, EACH_LINE, bounds[b], &taken) == RIPSAWBEAN_OK);
        CHECK(taken.lines == EACH_LINE && taken.bytes == strlen(text));
        size_t shown = 0;
        for (size_t i = 0; i < EACH_LINE; i++) {
            bool too_long = strncmp(each[i].line, "0 scan 10 ", 10) == 0 && each[i].most > 0 && bounds[b] <= each[i].most;
            uint8_t status = too_long ? RIPSAWBEAN_ANSWERTOOLONG : i == 4 ? RIPSAWBEAN_WORDCOUNT : RIPSAWBEAN_OK;
            CHECK(told[i].status == status && (status == RIPSAWBEAN_OK) == (told[i].length > 0));
            if (status != RIPSAWBEAN_OK) continue;
            CHECK(strtoull((const char *)out + shown, NULL, 10) == made++);
            shown += told[i].length;
        }
        CHECK(taken.length == shown && is_sand(out, shown, 1000));
    }
}

// The same of a poll: what it would tell is still there. Another seat's poll, or one of no feed, is refused.
static void several_polls(void) {
    doing = "several polls";
    const char *text = "3 poll 1 9\n3 poll 7 9\n4 poll 1 9\n";
    for (uint64_t most = 0; most < 124; most += 41) {
        ripsawbean_taken taken;
        ripsawbean_done *told = notes_of(3);
        CHECK(ripsawbean_calls(&db, line_of(text, 33), 33, out_of(1000), 1000, told, 3, most, &taken) == RIPSAWBEAN_OK);
        CHECK(told[0].status == RIPSAWBEAN_ANSWERTOOLONG && told[0].length == 0 && taken.lines == 3);
        CHECK(told[1].status == RIPSAWBEAN_OK && told[2].status == RIPSAWBEAN_OK);
        made += 2;
    }
}

// A scan of more rows is too long, however many bytes are let through, unless all are.
static void many_rows(void) {
    doing = "many rows";
    CHECK(ripsawbean_open(&db, 1) == RIPSAWBEAN_OK);
    made = 0;
    line("0 begin 10\n");
    for (unsigned row = 0; row <= RIPSAWBEAN_MOST_ROWS; row++) {
        char key[9];
        snprintf(key, sizeof key, "k%05u", row);
        ripsawbean_answer answer;
        CHECK(ripsawbean_put(&db, 0, 10, line_of(key, 6), 6, other_of("", 0), 0, &answer) == RIPSAWBEAN_OK);
        made++;
    }
    const char *text = "0 scan 10 - k32768\n0 scan 10 - -\n0 scan 10 k00001 -\n";
    const size_t of_a_row = strlen("row k00000 -\n"), bounds[] = {ALL - 1, 24 * RIPSAWBEAN_MOST_ROWS, ALL};
    for (size_t b = 0; b < sizeof bounds / sizeof *bounds; b++) {
        ripsawbean_taken taken;
        ripsawbean_done *told = notes_of(3);
        uint8_t *out = out_of(2000000);
        CHECK(ripsawbean_calls(&db, line_of(text, strlen(text)), strlen(text), out, 2000000, told, 3, bounds[b], &taken) == RIPSAWBEAN_OK);
        size_t rows = 0;
        for (size_t i = 0; i < 3; i++) {
            bool is_long = i == 1 && bounds[b] != ALL;
            CHECK(told[i].status == (is_long ? RIPSAWBEAN_ANSWERTOOLONG : RIPSAWBEAN_OK));
            if (is_long) CHECK(told[i].length == 0);
            else rows += RIPSAWBEAN_MOST_ROWS + (i == 1);
        }
        CHECK(taken.lines == 3 && taken.length > rows * of_a_row && taken.length < rows * of_a_row + 200);
    }
    ripsawbean_close(&db);
}

static void a_closed_handle(void) {
    doing = "a closed handle";
    ripsawbean closed = RIPSAWBEAN_INITIALIZER;
    size_t length = 12345;
    ripsawbean_answer answer = other_answer();
    uint8_t *out = out_of(9);
    CHECK(ripsawbean_scan(&closed, 64, 10, out, 0, out, 0, 0, 9, 9, out, 9, &length, &answer) == RIPSAWBEAN_CLOSED);
    CHECK(length == 0 && is_sand(out, 0, 9) && is_answer(&answer, 0, 0, 0));
    CHECK(ripsawbean_scan_at(&closed, 0, 10, out, 0, out, 0, 1, 9, 9, out, 9, &length, &answer) == RIPSAWBEAN_CLOSED);
    CHECK(ripsawbean_poll_within(&closed, 0, 10, 9, 9, out, 9, &length, &answer) == RIPSAWBEAN_CLOSED);
}

int main(void) {
    make_guarded(1000, 2000000);
    CHECK(ripsawbean_open(&db, 4) == RIPSAWBEAN_OK);
    line("3 open - - 0\n");
    line("3 open - - 0\n");
    line("0 begin 10\n");
    line("0 put 10 a 12345\n");
    line("0 del 10 b\n");
    line("0 put 10 c 1234567890\n");
    line("0 put 10 d 1\n");
    scans_of_a_transaction();
    faults();
    a_long_end();
    several();
    blocked_scans();
    line("0 commit 10\n");
    line("1 commit 20\n");
    line("5 close 30\n");
    several_polls();
    polls();
    scans_at_a_timestamp();
    a_closed_handle();
    ripsawbean_close(&db);
    scans_without_room();
    long_polls();
    many_rows();
    printf("bounded_edges: %lu checks\n", checks);
    return 0;
}
