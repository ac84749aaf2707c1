// Tests heap.c, which is part of it, as a program of this machine, over pages that this file hands out: random blocks,
// each full of bytes of its own, that grow, shrink and are freed; in the second half with little memory left. web/test
// builds and runs it. Its last line says what it did; a wrong byte or place ends it with status 1.
#include <stdio.h>
#include <stdlib.h>

enum { PAGE_SIZE = 65536, PAGES = 256, BLOCKS = 1000, STEPS = 200000 };
unsigned char memory[PAGES * PAGE_SIZE] __attribute__((aligned(PAGE_SIZE)));
static unsigned long pages; // counted from the address 0 on, as those of a module are

static unsigned long grown(unsigned long more) {
    if ((pages + more) * PAGE_SIZE > (unsigned long)memory + sizeof memory) return -1ul;
    pages += more;
    return pages - more;
}

#define __builtin_wasm_memory_size(memory) pages
#define __builtin_wasm_memory_grow(memory, more) grown(more)
#define __heap_base memory
#include "heap.c"

static struct {
    unsigned char *at;
    unsigned long size, mark;
} blocks[BLOCKS];

static unsigned long drawn(unsigned long below) {
    static unsigned long state = 1;
    state = state * 6364136223846793005ul + 1442695040888963407ul;
    return (state >> 33) % below;
}

static unsigned long drawn_size(void) {
    static const unsigned long most[] = {3, 20000, 2000, 200, 200, 200, 200, 200, 200, 200};
    return drawn(most[drawn(sizeof most / sizeof *most)]);
}

static void expect(int is_so, const char *what) {
    if (is_so) return;
    printf("heap: %s\n", what);
    exit(1);
}

static unsigned char byte_of(int i, unsigned long j) {
    return (unsigned char)(blocks[i].mark + 7 * j);
}

static void see(int i, unsigned long size) {
    for (unsigned long j = 0; j < size; j++) expect(blocks[i].at[j] == byte_of(i, j), "a byte is lost");
}

static void fill(int i, void *at, unsigned long size) {
    static unsigned long marks;
    blocks[i].at = at;
    blocks[i].size = size;
    blocks[i].mark = ++marks;
    expect((unsigned long)at % 16 == 0, "a block isn't aligned");
    expect((unsigned long)at + size <= pages * PAGE_SIZE, "a block lies outside of the memory");
    for (unsigned long j = 0; j < size; j++) blocks[i].at[j] = byte_of(i, j);
}

// One random step. The answer is whether it found memory.
static int step(void) {
    int i = (int)drawn(BLOCKS);
    unsigned long size = drawn_size(), kept = blocks[i].size;
    if (blocks[i].at && drawn(2)) {
        see(i, kept);
        rattle_dealloc(blocks[i].at);
        blocks[i].at = 0;
        return 1;
    }
    if (blocks[i].at && drawn(3) && kept < 10000) size = 2 * kept;
    tried it = blocks[i].at ? rattle_realloc(blocks[i].at, kept, size, 8) : rattle_alloc(size, 8);
    if (!it.ok) {
        if (blocks[i].at) see(i, kept);
        return 0;
    }
    if (blocks[i].at) {
        blocks[i].at = it.at;
        see(i, kept < size ? kept : size);
    }
    fill(i, it.at, size);
    return 1;
}

int main(void) {
    pages = (unsigned long)memory / PAGE_SIZE + 1;
    for (unsigned long size = 1; size < 3000000; size++) {
        unsigned long class = class_of(size);
        expect(class < CLASSES && size <= size_of(class), "a class is too small");
        expect(class == 0 || size > size_of(class - 1), "a class is too large");
    }
    long refused = 0;
    for (long i = 0; i < STEPS / 2; i++) expect(step(), "memory is wanting");
    pages = (unsigned long)end / PAGE_SIZE + 1;
    limit(pages * PAGE_SIZE);
    for (long i = 0; i < STEPS / 2; i++) refused += !step();
    expect(refused > 0, "no memory is wanting");
    expect((unsigned long)end <= allowed, "the limit is passed");
    printf("heap: %d steps, %ld of them without memory\n", STEPS, refused);
    return 0;
}
