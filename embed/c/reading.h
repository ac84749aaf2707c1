// What an event's text says of its answer, read by itself, for tests to compare with what the calls without lines tell:
// the answer in numbers, and the bytes of a value, of messages or of a scan's rows.
#ifndef READING_H
#define READING_H

#include "testing.h"

// The answer's words of a text: those behind the last "=>" of its first line, since a key may be spelled so too.
static inline const char *words_of(const char *text) {
    const char *end = strchr(text, '\n'), *found = NULL;
    for (const char *at = strstr(text, " => "); at != NULL && at < end; at = strstr(at + 1, " => ")) found = at + 4;
    CHECK(found != NULL);
    return found;
}

static inline bool has_name(const char *words, const char *name) {
    size_t length = strlen(name);
    return strncmp(words, name, length) == 0 && (words[length] == ' ' || words[length] == '\n');
}

// ---- bytes that are spelled

static inline uint8_t digit(char c) {
    CHECK((c >= '0' && c <= '9') || (c >= 'A' && c <= 'F'));
    return (uint8_t)(c <= '9' ? c - '0' : c - 'A' + 10);
}

// The bytes of a word that ends at a space or a newline.
static inline size_t unspell(const char *word, uint8_t *out) {
    size_t length = 0;
    if (word[0] == '-' && (word[1] == ' ' || word[1] == '\n')) return 0;
    for (const char *c = word; *c != ' ' && *c != '\n'; c++) {
        if (*c == '%') {
            out[length++] = (uint8_t)(digit(c[1]) << 4 | digit(c[2]));
            c += 2;
        } else {
            out[length++] = (uint8_t)*c;
        }
    }
    return length;
}

// The bytes of base64 up to a quote.
static inline size_t decode(const char *text, uint8_t *out) {
    static const char symbols[] = "ABCDEFGHIJKLMNOPQRSTUVWXYZabcdefghijklmnopqrstuvwxyz0123456789+/";
    size_t length = 0;
    uint32_t bits = 0;
    unsigned count = 0;
    for (const char *c = text; *c != '"' && *c != '='; c++) {
        const char *symbol = strchr(symbols, *c);
        CHECK(symbol != NULL);
        bits = bits << 6 | (uint32_t)(symbol - symbols);
        count += 6;
        if (count >= 8) {
            count -= 8;
            out[length++] = (uint8_t)(bits >> count);
        }
    }
    return length;
}

// ---- messages

static inline size_t put_number(uint64_t number, size_t bytes, uint8_t *out) {
    for (size_t i = 0; i < bytes; i++) out[i] = (uint8_t)(number >> 8 * i);
    return bytes;
}

static inline size_t put_head(uint8_t kind, uint64_t timestamp, size_t key_length, size_t value_length, uint8_t *out) {
    size_t at = put_number(kind, 1, out);
    at += put_number(timestamp, 8, out + at);
    at += put_number(key_length, 4, out + at);
    return at + put_number(value_length, 4, out + at);
}

// The bytes of the message of a line.
static inline size_t message_of(const char *line, uint8_t *out) {
    static uint8_t key[300], value[70000];
    const char *resolved = "{\"resolved\":\"", *after = "{\"after\":";
    if (strncmp(line, resolved, strlen(resolved)) == 0) return put_head(0, strtoull(line + strlen(resolved), NULL, 10), 0, 0, out);
    CHECK(strncmp(line, after, strlen(after)) == 0);
    const char *told = line + strlen(after), *key_at = strstr(told, "\"key\":\""), *updated = strstr(told, "\"updated\":\"");
    CHECK(key_at != NULL && updated != NULL);
    bool is_delete = *told == 'n';
    size_t key_length = decode(key_at + strlen("\"key\":\""), key), value_length = is_delete ? 0 : decode(told + 1, value);
    size_t at = put_head(is_delete ? 2 : 1, strtoull(updated + strlen("\"updated\":\""), NULL, 10), key_length, value_length, out);
    memcpy(out + at, key, key_length);
    memcpy(out + at + key_length, value, value_length);
    return at + key_length + value_length;
}

// ---- rows

// The bytes of a row, or of an end where there is no value, whose words stand there.
static inline size_t row_of(uint8_t kind, uint64_t timestamp, const char *key_word, const char *value_word, uint8_t *out) {
    static uint8_t key[300], value[70000];
    size_t key_length = unspell(key_word, key), value_length = value_word == NULL ? 0 : unspell(value_word, value);
    size_t at = put_head(kind, timestamp, key_length, value_length, out);
    memcpy(out + at, key, key_length);
    memcpy(out + at + key_length, value, value_length);
    return at + key_length + value_length;
}

// The bytes of the rows of a scan's text, and of its end.
static inline size_t rows_of(const char *text, uint8_t *out) {
    const char *word = text;
    for (int i = 0; i < 3; i++) word = strchr(word, ' ') + 1; // behind the position, the seat and the name
    uint64_t timestamp = strtoull(word, NULL, 10);
    for (int i = 0; i < 2; i++) word = strchr(word, ' ') + 1; // the high bound
    size_t length = 0;
    for (const char *line = strchr(text, '\n') + 1; *line != '\0'; line = strchr(line, '\n') + 1) {
        const char *key = line + strlen("row ");
        length += row_of(1, timestamp, key, strchr(key, ' ') + 1, out + length);
    }
    if (word[0] == '-' && word[1] == ' ') return length;
    return length + row_of(3, timestamp, word, NULL, out + length);
}

// ---- answers

// The bytes of the answer of a text: a value, messages, or rows.
static inline size_t answer_bytes(const char *text, uint8_t *out) {
    const char *words = words_of(text);
    size_t length = 0;
    if (has_name(words, "value")) return unspell(words + strlen("value "), out);
    if (has_name(words, "rows")) return rows_of(text, out);
    if (!has_name(words, "messages")) return 0;
    for (const char *line = strchr(text, '\n') + 1; *line != '\0'; line = strchr(line, '\n') + 1) length += message_of(line, out + length);
    return length;
}

// The answer of a text in numbers. A value's is counted in its bytes.
static inline ripsawbean_answer answer_numbers(const char *text, size_t bytes) {
    static const struct {
        uint8_t kind;
        const char *name;
    } kinds[] = {
        {1, "started"},      {2, "none"},           {3, "value"},     {4, "written"},       {5, "committed"}, {6, "aborted"},
        {7, "closed"},       {8, "messages"},       {9, "rows"},      {10, "protected"},    {11, "released"}, {12, "collected"},
        {13, "opened"},      {14, "cancelled"},     {15, "stats"},    {32, "belowclosed"}, {33, "tsused"},    {34, "tsrange"},  {35, "blocked"},
        {36, "notxn"},       {37, "notowner"},      {38, "ended"},    {39, "toolate"},      {40, "notclosed"}, {41, "belowhorizon"},
        {42, "noprotection"}, {43, "nofeed"},       {44, "feedcancelled"}, {45, "nomemory"}, {46, "gaprange"},
    };
    const char *words = words_of(text);
    ripsawbean_answer answer = {0, 0, 0};
    for (size_t i = 0; i < sizeof kinds / sizeof *kinds; i++) {
        if (!has_name(words, kinds[i].name)) continue;
        answer.kind = kinds[i].kind;
        CHECK(strcmp(ripsawbean_answer_name(answer.kind), kinds[i].name) == 0);
    }
    CHECK(answer.kind != 0);
    if (answer.kind == 3) {
        answer.number = bytes;
    } else if (words[strlen(ripsawbean_answer_name(answer.kind))] == ' ') {
        char *end;
        answer.number = strtoull(words + strlen(ripsawbean_answer_name(answer.kind)), &end, 10);
        if (*end == ' ') answer.other = strtoull(end, NULL, 10);
    }
    return answer;
}

// The record of an event's text.
static inline ripsawbean_record record_numbers(const char *text, size_t bytes) {
    static const char *const commands[] = {
        "begin", "get",     "scan",    "put",  "del",         "commit",    "abort",            "close", "closehard", "readat", "scanat",
        "protect", "release", "collect", "open", "openinitial", "openevery", "openinitialevery", "poll",  "cancel",    "stats",
    };
    ripsawbean_answer answer = answer_numbers(text, bytes);
    ripsawbean_record record = {.number = answer.number, .other = answer.other, .kind = answer.kind};
    char *at;
    record.position = strtoull(text, &at, 10);
    record.seat = (uint8_t)strtoull(at, &at, 10);
    const char *word = at + 1;
    for (uint8_t i = 0; i < sizeof commands / sizeof *commands; i++)
        if (has_name(word, commands[i])) record.command = i + 1;
    CHECK(record.command != 0);
    bool is_open = strncmp(word, "open", 4) == 0;
    for (int i = 0; i < (is_open ? 3 : 1); i++) word = strchr(word, ' ') + 1; // behind the name, and an open's bounds
    if (record.command != 21) record.at = strtoull(word, NULL, 10);
    return record;
}

static inline bool is_record(const ripsawbean_record *one, const ripsawbean_record *other) {
    return one->position == other->position && one->at == other->at && one->number == other->number && one->other == other->other &&
           one->seat == other->seat && one->command == other->command && one->kind == other->kind;
}

static inline bool is_answer(const ripsawbean_answer *one, uint8_t kind, uint64_t number, uint64_t other) {
    return one->kind == kind && one->number == number && one->other == other;
}

// What stands in an answer before a call.
static inline ripsawbean_answer other_answer(void) {
    return (ripsawbean_answer){99, 12345, 54321};
}

#endif
