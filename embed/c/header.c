// A program that names all that the header has. `embed/test` builds it in each dialect of C and C++.
#include "ripsawbean.h"
#include "ripsawbean.h"
ripsawbean one = RIPSAWBEAN_INITIALIZER;
int main(void) {
    size_t length = RIPSAWBEAN_MAX_KEY + RIPSAWBEAN_MAX_BOUND + RIPSAWBEAN_MAX_VALUE + RIPSAWBEAN_MAX_LINE +
                    RIPSAWBEAN_SEATS;
    uint8_t out[1], status = ripsawbean_open(&one, RIPSAWBEAN_MAX_RING + 1);
    if (status != RIPSAWBEAN_RING || ripsawbean_text(&one, out, 1, &length) != RIPSAWBEAN_CLOSED || length != 0)
        return 1;
    if (ripsawbean_call(&one, out, 0, out, 0, &length) != RIPSAWBEAN_CLOSED) return 2;
    if (ripsawbean_state(&one, out, 1, &length) != RIPSAWBEAN_CLOSED || length != 0) return 4;
    ripsawbean_record record;
    if (ripsawbean_last(&one, &record) != RIPSAWBEAN_CLOSED || record.command != 0) return 8;
    ripsawbean_answer answer;
    ripsawbean_done note;
    ripsawbean_taken taken;
    ripsawbean_message message;
    if (ripsawbean_begin(&one, 0, 1, &answer) != RIPSAWBEAN_CLOSED || answer.kind != RIPSAWBEAN_ANSWER_MISSING)
        return 5;
    if (ripsawbean_calls(&one, out, 0, out, 0, &note, 1, UINT64_MAX, &taken) != RIPSAWBEAN_CLOSED || taken.lines != 0)
        return 6;
    if (ripsawbean_read_message(out, 1, &message) != 0) return 7;
    if (RIPSAWBEAN_VERSION < 0x000100 || RIPSAWBEAN_ABI != 0) return 9;
    if (ripsawbean_answer_name(RIPSAWBEAN_ANSWER_GAPRANGE)[0] != 'g' || ripsawbean_answer_name(47)[0] != 'u') return 8;
    ripsawbean_standing standing;
    uint64_t version;
    ripsawbean_held held;
    if (ripsawbean_places(&one, 1, &standing) != RIPSAWBEAN_CLOSED || standing.closed != 0) return 9;
    if (ripsawbean_versions_at(&one, 1, out, 0, &version, 1, &length) != RIPSAWBEAN_CLOSED || length != 0) return 10;
    if (ripsawbean_held_by(&one, 0, &held, 1, &length) != RIPSAWBEAN_CLOSED || length != 0) return 11;
    if (ripsawbean_version() == 0 || RIPSAWBEAN_HELD_PROTECTION != 3) return 12;
    ripsawbean_dump_place place = {0, 0, 0};
    uint8_t key[RIPSAWBEAN_MAX_KEY];
    status = ripsawbean_dump(&one, 0, 1, &place, key, sizeof key, out, 1, &length);
    if (status != RIPSAWBEAN_CLOSED || place.ended) return 13;
    status = RIPSAWBEAN_RING;
    ripsawbean_close(&one);
    return RIPSAWBEAN_MAX_TIMESTAMP == (uint64_t)INT64_MAX && ripsawbean_status_name(status)[0] == 'r' ? 0 : 3;
}
