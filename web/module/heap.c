// The heap of the WebAssembly module: what the proved code asks of `malloc`, `realloc` and `free`, over the module's
// own memory.
//
// No proof covers this file. The proofs take from it what they take from any allocator: blocks that don't overlap, are
// aligned to 16, and stay as they are until they are freed; and a growth that finds no memory says so and changes
// nothing.
//
// A block is a head of 8 bytes, which tell its class, and behind it the bytes that are handed out:
//
//     | class | 8, 24, 40 .. 1016 bytes, and above that four sizes to each doubling |
//             ^ a multiple of 16
//
// A freed block waits in the list of its class. What no list has is cut off the end of the memory, which grows as it is
// needed. The host gets no memory back.
typedef unsigned long u64;
typedef unsigned char u8;

// What rattle_alloc and rattle_realloc answer: whether there is a block, and where.
typedef struct {
    u64 ok;
    void *at;
} tried;

enum {
    HEAD = 8,
    STEP = 16,                        // from one small class to the next
    SMALL = 64,                       // how many small classes there are
    LEAST_LARGE = 10,                 // the first doubling of large ones: 1024 bytes with their head
    DOUBLINGS = 40,
    CLASSES = SMALL + 4 * DOUBLINGS,
    PAGE = 65536,
};
#define MOST (1ul << 48)

extern u8 __heap_base[];          // the linker's name for the first byte that the module doesn't use
static u8 *end;                       // what no block has begins here, 8 below a multiple of 16
static u64 allowed;                   // how many bytes of memory there may be; 0 for as many as the host has
static void *waiting[CLASSES];        // of each class a freed block, whose first bytes tell the next one

static u64 class_of(u64 size) {
    if (size <= STEP * SMALL - HEAD) return (size + HEAD - 1) / STEP;
    u64 last = size + HEAD - 1, doubling = 63 - (u64)__builtin_clzl(last);
    return SMALL + 4 * (doubling - LEAST_LARGE) + (last >> (doubling - 2) & 3);
}

static u64 size_of(u64 class) {
    if (class < SMALL) return STEP * class + HEAD;
    u64 doubling = (class - SMALL) / 4 + LEAST_LARGE, quarter = (class - SMALL) % 4;
    return ((5 + quarter) << (doubling - 2)) - HEAD;
}

static u64 *head_of(void *block) {
    return (u64 *)((u8 *)block - HEAD);
}

// Whether the memory reaches so far, for which it may have to grow: by a quarter at once, or else by what is needed.
static _Bool reaches(u64 to) {
    u64 has = __builtin_wasm_memory_size(0), wants = (to + PAGE - 1) / PAGE, likes = has + has / 4;
    if (wants <= has) return 1;
    if (allowed != 0 && to > allowed) return 0;
    _Bool may_have_more = likes > wants && (allowed == 0 || likes * PAGE <= allowed);
    if (may_have_more && __builtin_wasm_memory_grow(0, likes - has) != (u64)-1) return 1;
    return __builtin_wasm_memory_grow(0, wants - has) != (u64)-1;
}

static void *cut(u64 class) {
    if (!end) end = (u8 *)(((u64)__heap_base + STEP - 1) / STEP * STEP + HEAD);
    u8 *block = end + HEAD;
    if (!reaches((u64)block + size_of(class))) return 0;
    *head_of(block) = class;
    end = block + size_of(class);
    return block;
}

static void *get(u64 size) {
    if (size > MOST) return 0;
    u64 class = class_of(size);
    void *block = waiting[class];
    if (!block) return cut(class);
    waiting[class] = *(void **)block;
    return block;
}

static void put(void *block) {
    u64 class = *head_of(block);
    *(void **)block = waiting[class];
    waiting[class] = block;
}

// The last block of the memory grows where it is.
static _Bool widen_last(void *block, u64 size) {
    u64 class = class_of(size);
    if (!reaches((u64)block + size_of(class))) return 0;
    *head_of(block) = class;
    end = (u8 *)block + size_of(class);
    return 1;
}

static void *resize(void *block, u64 kept, u64 size) {
    u64 has = size_of(*head_of(block));
    if (size > MOST) return 0;
    if (size <= has && (size > has / 4 || has == HEAD)) return block;
    if (size > has && (u8 *)block + has == end) return widen_last(block, size) ? block : 0;
    void *other = get(size);
    if (!other) return 0;
    __builtin_memcpy(other, block, kept < size ? kept : size);
    put(block);
    return other;
}

static tried tried_of(void *block) {
    return (tried){block != 0, block ? block : (void *)STEP};
}

// A block of no bytes has as many as its alignment, so that it has a place of its own.
tried rattle_alloc(u64 size, u64 align) {
    return tried_of(get(size ? size : align));
}

tried rattle_realloc(void *block, u64 kept, u64 size, u64 align) {
    return tried_of(resize(block, kept, size ? size : align));
}

void rattle_dealloc(void *block) {
    put(block);
}

// For the host, that is JavaScript: room for handles, lines and texts. 0 says that there is none.
void *room(u64 size) {
    return get(size ? size : 1);
}

void unroom(void *block) {
    if (block) put(block);
}

// The memory grows to so many bytes at most; 0 takes the limit away.
void limit(u64 bytes) {
    allowed = bytes;
}
