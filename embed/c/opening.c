// Opens a handle where the processor can run the library, whose code is for x86-64-v2. This file's is for any x86-64, so
// an older one is told by a status, and meets no instruction that it doesn't have. `build` gives the proved functions
// the names that are called here.
#include "ripsawbean.h"

#include <cpuid.h>

uint8_t proved_ripsawbean_open(ripsawbean *db, uint32_t ring);
uint8_t proved_ripsawbean_replica_open(ripsawbean_replica *replica, const uint8_t *line, size_t line_length);
uint8_t proved_ripsawbean_replica_begin(ripsawbean_replica *replica, const uint8_t *line, size_t line_length,
                                        const uint8_t *rows, size_t rows_length);

// What x86-64-v2 has beside the first x86-64, as the first leaf of cpuid tells it.
static const unsigned int wanted = bit_SSE3 | bit_SSSE3 | bit_SSE4_1 | bit_SSE4_2 | bit_CMPXCHG16B | bit_POPCNT;

static bool can_run(void) {
    unsigned int eax, ebx, ecx, edx;
    return __get_cpuid(1, &eax, &ebx, &ecx, &edx) && (ecx & wanted) == wanted;
}

uint8_t ripsawbean_open(ripsawbean *db, uint32_t ring) {
    return can_run() ? proved_ripsawbean_open(db, ring) : RIPSAWBEAN_PROCESSOR;
}

uint8_t ripsawbean_replica_open(ripsawbean_replica *replica, const uint8_t *line, size_t line_length) {
    return can_run() ? proved_ripsawbean_replica_open(replica, line, line_length) : RIPSAWBEAN_PROCESSOR;
}

uint8_t ripsawbean_replica_begin(ripsawbean_replica *replica, const uint8_t *line, size_t line_length,
                                 const uint8_t *rows, size_t rows_length) {
    if (!can_run()) return RIPSAWBEAN_PROCESSOR;
    return proved_ripsawbean_replica_begin(replica, line, line_length, rows, rows_length);
}
