// What the proved library asks of C, for ARM64: the kit has these three functions for x86-64 alone. They are written
// from their contracts in the kit's crate libc. No proof covers this file.
#include <stdlib.h>

// Whether there is a block, and where.
typedef struct {
    size_t ok;
    void *at;
} tried;

// Where there is none the place is still one that no block has and that every alignment fits.
static _Alignas(16) char nowhere[16];

static tried tried_of(void *at) {
    return (tried){at != NULL, at != NULL ? at : nowhere};
}

// A block of no bytes has as many as its alignment, since malloc may answer null for none.
tried rattle_alloc(size_t size, size_t align) {
    return tried_of(malloc(size ? size : align));
}

tried rattle_realloc(void *at, size_t kept, size_t size, size_t align) {
    (void)kept;
    return tried_of(realloc(at, size ? size : align));
}

void rattle_dealloc(void *at) {
    free(at);
}
