// What the programs ask of the C library and of Rattle's crate os, for a module in a page: three functions that the page gives, and
// answers for all else. There is no environment, and no file in which one could seek.
typedef unsigned long size_t;
#define OF_PAGE(name) __attribute__((import_module("page"), import_name(name)))

enum { INPUT_OUTPUT_ERROR = 5, CANNOT_SEEK = 29 }; // as Linux numbers them

// The page gives the number of bytes that it put or took; of an argument that does not fit -2, and of one that is not there -1.
OF_PAGE("read") long page_read(int file, void *into, size_t most);
OF_PAGE("write") long page_write(int file, const void *from, size_t count);
OF_PAGE("arg") long page_arg(size_t index, void *into, size_t most);

static int error;

int rattle_errno(void) { return error; }

void rattle_set_errno(int number) { error = number; }

long read(int file, void *into, size_t most) {
    long count = page_read(file, into, most);
    if (count < 0) error = INPUT_OUTPUT_ERROR;
    return count;
}

long write(int file, const void *from, size_t count) {
    long taken = page_write(file, from, count);
    if (taken < 0) error = INPUT_OUTPUT_ERROR;
    return taken;
}

long lseek(int file, long at, int from) {
    (void)file, (void)at, (void)from;
    error = CANNOT_SEEK;
    return -1;
}

long rattle_arg(size_t index, void *into, size_t most) { return page_arg(index, into, most); }

long rattle_env(const void *name, void *into, size_t most) {
    (void)name, (void)into, (void)most;
    return -1;
}

long rattle_env_at(size_t index, void *into, size_t most) {
    (void)index, (void)into, (void)most;
    return -1;
}

// The product of two numbers of 128 bits, which clang calls where one of two numbers of 64 bits may be too large.
__int128 __multi3(__int128 first, __int128 second) {
    unsigned long mask = 0xffffffff, a = first, b = second;
    unsigned long low = (a & mask) * (b & mask), left = (a >> 32) * (b & mask), right = (a & mask) * (b >> 32);
    unsigned long middle = (low >> 32) + (left & mask) + (right & mask);
    unsigned long high = (a >> 32) * (b >> 32) + (left >> 32) + (right >> 32) + (middle >> 32);
    high += (unsigned long)(first >> 64) * b + a * (unsigned long)(second >> 64);
    return ((__int128)high << 64) | (middle << 32) | (low & mask);
}
