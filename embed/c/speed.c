// The C part of embed/speed: writes `WORKLOAD RATE` a line, in calls or operations a second, the best of so many runs.
//
//     speed TRANSACTIONS REFUSED RUNS
#define _POSIX_C_SOURCE 200809L
#include "ripsawbean.h"

#include <stdio.h>
#include <stdlib.h>
#include <string.h>
#include <time.h>

enum { KEYS = 100, BUCKETS = 256 };

static double now(void) {
    struct timespec t;
    clock_gettime(CLOCK_MONOTONIC, &t);
    return (double)t.tv_sec + (double)t.tv_nsec / 1e9;
}

static void *or_fail(void *block) {
    if (block == NULL) exit(1);
    return block;
}

static uint8_t out[4096];

static void call(ripsawbean *db, const char *line, int line_length, uint8_t expected) {
    size_t length;
    if (ripsawbean_call(db, (const uint8_t *)line, (size_t)line_length, out, sizeof out, &length) != expected) exit(1);
}

// begin, put, get and commit of one drawn key each, the lines written here.
static double transactions(long count) {
    ripsawbean db = RIPSAWBEAN_INITIALIZER;
    if (ripsawbean_open(&db, 1024) != RIPSAWBEAN_OK) exit(1);
    char line[100];
    double from = now();
    for (long i = 1; i <= count; i++) {
        call(&db, line, sprintf(line, "0 begin %ld\n", i), RIPSAWBEAN_OK);
        call(&db, line, sprintf(line, "0 put %ld k%ld v%ld\n", i, i * 7 % KEYS, i), RIPSAWBEAN_OK);
        call(&db, line, sprintf(line, "0 get %ld k%ld\n", i, i * 7 % KEYS), RIPSAWBEAN_OK);
        call(&db, line, sprintf(line, "0 commit %ld\n", i), RIPSAWBEAN_OK);
    }
    double took = now() - from;
    ripsawbean_close(&db);
    return (double)(4 * count) / took;
}

// The same calls without lines.
static double typed(long count) {
    ripsawbean db = RIPSAWBEAN_INITIALIZER;
    ripsawbean_answer answer;
    size_t length;
    if (ripsawbean_open(&db, 1024) != RIPSAWBEAN_OK) exit(1);
    double from = now();
    for (long i = 1; i <= count; i++) {
        char key_text[30], value_text[30];
        const uint8_t *key = (const uint8_t *)key_text, *value = (const uint8_t *)value_text;
        size_t key_length = (size_t)sprintf(key_text, "k%ld", i * 7 % KEYS), value_length = (size_t)sprintf(value_text, "v%ld", i);
        if (ripsawbean_begin(&db, 0, (uint64_t)i, &answer) != RIPSAWBEAN_OK) exit(1);
        if (ripsawbean_put(&db, 0, (uint64_t)i, key, key_length, value, value_length, &answer) != RIPSAWBEAN_OK) exit(1);
        if (ripsawbean_get(&db, 0, (uint64_t)i, key, key_length, out, sizeof out, &length, &answer) != RIPSAWBEAN_OK) exit(1);
        if (ripsawbean_commit(&db, 0, (uint64_t)i, &answer) != RIPSAWBEAN_OK || answer.number != 1) exit(1);
    }
    double took = now() - from;
    ripsawbean_close(&db);
    return (double)(4 * count) / took;
}

// The same calls by lines, 1,000 at once.
static double several(long count) {
    static char lines[100000];
    static uint8_t texts[200000];
    static ripsawbean_done notes[1000];
    ripsawbean db = RIPSAWBEAN_INITIALIZER;
    ripsawbean_taken taken;
    if (ripsawbean_open(&db, 1024) != RIPSAWBEAN_OK) exit(1);
    double from = now();
    for (long i = 1; i <= count;) {
        size_t length = 0, made = 0;
        for (; i <= count && made < 1000; i++, made += 4)
            length += (size_t)sprintf(lines + length, "0 begin %ld\n0 put %ld k%ld v%ld\n0 get %ld k%ld\n0 commit %ld\n", i, i,
                                      i * 7 % KEYS, i, i, i * 7 % KEYS, i);
        uint8_t status = ripsawbean_calls(&db, (const uint8_t *)lines, length, texts, sizeof texts, notes, 1000, UINT64_MAX, &taken);
        if (status != RIPSAWBEAN_OK || taken.lines != made) exit(1);
    }
    double took = now() - from;
    ripsawbean_close(&db);
    return (double)(4 * count) / took;
}

// A line with too few words.
static double refused(long count) {
    ripsawbean db = RIPSAWBEAN_INITIALIZER;
    if (ripsawbean_open(&db, 1024) != RIPSAWBEAN_OK) exit(1);
    double from = now();
    for (long i = 0; i < count; i++) call(&db, "0 put 10 apple\n", 15, RIPSAWBEAN_WORDCOUNT);
    double took = now() - from;
    ripsawbean_close(&db);
    return (double)count / took;
}

// ---- a plain map of lists, and a log

typedef struct {
    long ts;
    char *value;
} version;

typedef struct list {
    struct list *next;
    char *key;
    version *versions;
    size_t count, room;
} list;

static list *buckets[BUCKETS];

static list *list_of(const char *key) {
    uint32_t hash = 2166136261u;
    for (const char *c = key; *c != '\0'; c++) hash = (hash ^ (uint8_t)*c) * 16777619u;
    list **bucket = &buckets[hash % BUCKETS];
    for (list *l = *bucket; l != NULL; l = l->next)
        if (strcmp(l->key, key) == 0) return l;
    list *l = or_fail(calloc(1, sizeof *l));
    l->key = or_fail(strdup(key));
    l->next = *bucket;
    return *bucket = l;
}

static void put(list *l, long ts, const char *value) {
    if (l->count == l->room) {
        l->room = l->room == 0 ? 8 : 2 * l->room;
        l->versions = or_fail(realloc(l->versions, l->room * sizeof *l->versions));
    }
    l->versions[l->count++] = (version){ts, or_fail(strdup(value))};
}

static void clear_map(void) {
    for (size_t i = 0; i < BUCKETS; i++) {
        for (list *l = buckets[i], *next; l != NULL; l = next) {
            next = l->next;
            for (size_t j = 0; j < l->count; j++) free(l->versions[j].value);
            free(l->versions);
            free(l->key);
            free(l);
        }
        buckets[i] = NULL;
    }
}

static double plain(long count) {
    list log = {0};
    char key[30], value[30];
    double from = now();
    for (long i = 1; i <= count; i++) {
        sprintf(key, "k%ld", i * 7 % KEYS);
        sprintf(value, "v%ld", i);
        put(list_of(key), i, value);
        put(&log, i, value);
        list *l = list_of(key);
        if (strcmp(l->versions[l->count - 1].value, value) != 0) exit(1);
    }
    double took = now() - from;
    for (size_t i = 0; i < log.count; i++) free(log.versions[i].value);
    free(log.versions);
    clear_map();
    return (double)(2 * count) / took;
}

static double best(double (*work)(long), long count, int runs) {
    double most = 0;
    for (int i = 0; i < runs; i++) {
        double rate = work(count);
        if (rate > most) most = rate;
    }
    return most;
}

int main(int count, char **words) {
    if (count != 4) return 1;
    long made = atol(words[1]), faulty = atol(words[2]);
    int runs = atoi(words[3]);
    printf("transactions %.0f\n", best(transactions, made, runs));
    printf("typed %.0f\n", best(typed, made, runs));
    printf("several %.0f\n", best(several, made, runs));
    printf("refused %.0f\n", best(refused, faulty, runs));
    printf("plain %.0f\n", best(plain, made, runs));
    return 0;
}
