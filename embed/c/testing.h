// What the test programs share: checks, buffers that end at a page which nobody may touch, growths of memory that are
// refused, and dice.
#ifndef TESTING_H
#define TESTING_H

#include "ripsawbean.h"

#include <stdio.h>
#include <stdlib.h>
#include <string.h>
#include <sys/mman.h>
#include <unistd.h>

static const char *doing = "";
static unsigned long checks;

#define CHECK(condition)                                                                                                            \
    do {                                                                                                                            \
        checks++;                                                                                                                   \
        if (!(condition)) {                                                                                                         \
            fprintf(stderr, "%s:%d: not so: %s (%s)\n", __FILE__, __LINE__, #condition, doing);                                     \
            exit(1);                                                                                                                \
        }                                                                                                                           \
    } while (0)

// Bytes with a page behind them that ends the program where it is touched. The library isn't built with a sanitizer, so
// this is what finds a byte that it reads or writes too far.
typedef struct {
    uint8_t *first, *end;
} guarded;

static inline guarded guarded_new(size_t most) {
    size_t page = (size_t)sysconf(_SC_PAGESIZE), length = (most + page - 1) / page * page;
    uint8_t *at = mmap(NULL, length + page, PROT_READ | PROT_WRITE, MAP_PRIVATE | MAP_ANONYMOUS, -1, 0);
    CHECK(at != MAP_FAILED);
    CHECK(mprotect(at + length, page, PROT_NONE) == 0);
    return (guarded){at, at + length};
}

// The last `length` bytes before the page.
static inline uint8_t *guarded_last(const guarded *g, size_t length) {
    CHECK(length <= (size_t)(g->end - g->first));
    return g->end - length;
}

// What stands in a buffer before a call, so that a byte that is written besides the text is seen.
static inline uint8_t sand(size_t i) {
    return (uint8_t)(i * 7 + 3);
}

static inline uint8_t *sanded_last(const guarded *g, size_t length) {
    uint8_t *at = guarded_last(g, length);
    for (size_t i = 0; i < length; i++) at[i] = sand(i);
    return at;
}

static inline bool is_sand(const uint8_t *at, size_t from, size_t to) {
    for (size_t i = from; i < to; i++)
        if (at[i] != sand(i)) return false;
    return true;
}

// Where lines are read and buffers written, each up to its page: keys too, and the notes of several lines.
static guarded lines, others, outs, notes;

static inline void make_guarded(size_t longest_line, size_t most_room) {
    lines = guarded_new(longest_line);
    others = guarded_new(longest_line);
    outs = guarded_new(most_room);
    notes = guarded_new(4096 * sizeof(ripsawbean_done));
}

// Bytes for the library to read: a line, or a key.
static inline uint8_t *line_of(const void *bytes, size_t length) {
    uint8_t *at = guarded_last(&lines, length);
    if (length > 0) memcpy(at, bytes, length);
    return at;
}

// More bytes to read in the same call: a value.
static inline uint8_t *other_of(const void *bytes, size_t length) {
    uint8_t *at = guarded_last(&others, length);
    if (length > 0) memcpy(at, bytes, length);
    return at;
}

static inline uint8_t *out_of(size_t room) {
    return sanded_last(&outs, room);
}

static inline ripsawbean_done *notes_of(size_t room) {
    return (ripsawbean_done *)(void *)sanded_last(&notes, room * sizeof(ripsawbean_done));
}

// Whether the notes from one on are as they were before.
static inline bool are_untouched(const ripsawbean_done *at, size_t from, size_t to) {
    return is_sand((const uint8_t *)at, from * sizeof *at, to * sizeof *at);
}

// The program is linked with --wrap for malloc and realloc, the library's calls of them too. Where a refusal is due,
// the growth whose turn it is fails, as with a machine that has no memory left.
void *__real_malloc(size_t size);
void *__real_realloc(void *block, size_t size);

static bool refuses, has_refused;
static unsigned long growths_before; // that are let through before one is refused
static unsigned long growths_refused;

static inline bool is_refused(void) {
    if (!refuses || growths_before-- > 0) return false;
    refuses = false;
    has_refused = true;
    growths_refused++;
    return true;
}

void *__wrap_malloc(size_t size);
void *__wrap_malloc(size_t size) {
    return is_refused() ? NULL : __real_malloc(size);
}

void *__wrap_realloc(void *block, size_t size);
void *__wrap_realloc(void *block, size_t size) {
    return is_refused() ? NULL : __real_realloc(block, size);
}

// Has the growth behind `before` others be refused, until `refuse_none`.
static inline void refuse_after(unsigned long before) {
    refuses = true;
    growths_before = before;
}

// From here on no growth is refused. Whether one was since the last time.
static inline bool refuse_none(void) {
    bool was_refused = has_refused;
    refuses = has_refused = false;
    return was_refused;
}

// Dice that fall alike for a seed.
static uint64_t dice;

static inline uint64_t below(uint64_t limit) {
    dice ^= dice << 13;
    dice ^= dice >> 7;
    dice ^= dice << 17;
    return (dice >> 11) % limit;
}

static inline bool one_in(uint64_t n) {
    return below(n) == 0;
}

static inline void set_dice(uint64_t seed) {
    dice = (seed + 1) * UINT64_C(0x9E3779B97F4A7C15) | 1;
    for (int i = 0; i < 10; i++) below(2);
}

#endif
