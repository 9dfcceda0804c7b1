// The heap, of which Rattle's crate libc asks three functions, for a module that has no C library under it.
// Blocks come in classes of sizes, four to each power of two, and are aligned to 16 bytes. Each has a head before it with its class. A block
// that was given back waits in the list of its class, and is taken again for a block of that class; memory itself only grows, since an
// instance lives for one answer.
typedef unsigned long size_t;

// What an allocation answers. Where it failed, `p` still has to point into some memory, which nobody uses.
typedef struct {
    _Bool ok;
    void *p;
} Tried;

// The head of a block: 16 bytes, so that the block after it is aligned as the head is.
typedef struct Head {
    struct Head *next; // the next free block of the class, while this one is free
    size_t class;
} Head;

extern unsigned char __heap_base; // where the linker's data and the stack end
static Head *free_blocks[256];
static size_t top, end; // the memory from top to end was never taken; both are 0 before the first block
static char nowhere[16];

// The least class whose blocks have n bytes: 1 to 4 are of 16, 32, 48 and 64 bytes, 5 to 8 of 80, 96, 112 and 128, 9 of 160, and so on.
static size_t class_of(size_t n) {
    if (n <= 64) return (n + 15) / 16;
    int log = 63 - __builtin_clzl(n - 1); // 2^log <= n - 1 < 2^(log + 1)
    size_t quarter = ((n - 1) >> (log - 2)) & 3;
    return 5 + (size_t)(log - 6) * 4 + quarter;
}

static size_t size_of(size_t class) {
    if (class <= 4) return class * 16;
    size_t log = 6 + (class - 5) / 4, quarter = (class - 5) % 4;
    return ((size_t)1 << log) + (quarter + 1) * ((size_t)1 << (log - 2));
}

// A block of n bytes at least, or 0.
static void *take(size_t n) {
    // no memory of 32-bit addresses has so many, and fewer are a number of pages that has 32 bits
    if (n > (size_t)1 << 40) return 0;
    size_t class = class_of(n ? n : 1);
    Head *head = free_blocks[class];
    if (head) {
        free_blocks[class] = head->next;
        return head + 1;
    }
    size_t size = sizeof(Head) + size_of(class);
    if (!top) {
        top = ((size_t)&__heap_base + 15) & ~(size_t)15;
        end = __builtin_wasm_memory_size(0) << 16;
    }
    if (end - top < size) {
        size_t pages = (size - (end - top) + 65535) >> 16;
        __builtin_wasm_memory_grow(0, pages < 16 ? 16 : pages);
        // the answer of a growth is not looked at: of a module lowered to 32 bits it need not be -1 where there was no room
        end = __builtin_wasm_memory_size(0) << 16;
        if (end - top < size) return 0;
    }
    head = (Head *)top;
    top += size;
    head->class = class;
    return head + 1;
}

void rattle_dealloc(void *p) {
    Head *head = (Head *)p - 1;
    head->next = free_blocks[head->class];
    free_blocks[head->class] = head;
}

// The alignment is a divisor of 16, and so each block has it. A block of no bytes gets as many as its alignment says.
Tried rattle_alloc(size_t n, size_t alignment) {
    void *p = take(n ? n : alignment);
    return (Tried){p != 0, p ? p : nowhere};
}

// The first `kept` bytes, which are at most n, stay as they were. Where there is no room the block stays too.
Tried rattle_realloc(void *p, size_t kept, size_t n, size_t alignment) {
    size_t size = n ? n : alignment;
    if (size <= size_of(((Head *)p - 1)->class)) return (Tried){1, p};
    void *larger = take(size);
    if (!larger) return (Tried){0, nowhere};
    __builtin_memcpy(larger, p, kept);
    rattle_dealloc(p);
    return (Tried){1, larger};
}
