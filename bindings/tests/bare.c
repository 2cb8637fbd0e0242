/* A program with no C library: it has what the archive asks for, and starts and ends by the system's calls. Linked with -nostdlib
 * -ffreestanding; the library's memory is from an array, by guillotiere_set_memory, or with -DOWN_HEAP by a malloc of its own.
 * It ends with the line of the first check that fails, or 0. */
#include <guillotiere.h>

enum { SIDE = 256, BOX = 32, COUNT = (SIDE / BOX) * (SIDE / BOX), ALIGNED = 16, ROOM = 1 << 20 };

_Noreturn void abort(void);
void *memcpy(void *restrict to, const void *restrict from, size_t size);
void *memmove(void *to, const void *from, size_t size);
void *memset(void *at, int byte, size_t size);
void *malloc(size_t size);
void *realloc(void *block, size_t size);
void free(void *block);

static _Noreturn void leave(int status) {
#if defined(__x86_64__)
    __asm__ volatile("syscall" : : "a"(60), "D"(status) : "rcx", "r11", "memory");
#elif defined(__aarch64__)
    register long number __asm__("x8") = 93;
    register long first __asm__("x0") = status;
    __asm__ volatile("svc 0" : : "r"(number), "r"(first) : "memory");
#else
#error another processor
#endif
    for (;;) {}
}

void abort(void) {
    leave(255);
}

void *memmove(void *to, const void *from, size_t size) {
    volatile unsigned char *const t = to;
    const unsigned char *const f = from;
    if ((uintptr_t)to < (uintptr_t)from) {
        for (size_t i = 0; i < size; i++) t[i] = f[i];
    } else {
        while (size-- > 0) t[size] = f[size];
    }
    return to;
}

void *memcpy(void *restrict to, const void *restrict from, size_t size) {
    return memmove(to, from, size);
}

void *memset(void *at, int byte, size_t size) {
    volatile unsigned char *const bytes = at;
    for (size_t i = 0; i < size; i++) bytes[i] = (unsigned char)byte;
    return at;
}

/* Blocks from an array, one behind another, that aren't used again. */
static _Alignas(ALIGNED) unsigned char memory[ROOM];
static size_t taken;
static long blocks;

static void *resize(void *user, void *block, size_t size_before, size_t size) {
    if (user != memory) abort();
    if (size == 0) {
        blocks--;
        return NULL;
    }
    if (size > ROOM - ALIGNED || taken > ROOM - ALIGNED - size) return NULL;
    void *const moved = memory + taken;
    taken += (size + ALIGNED - 1) / ALIGNED * ALIGNED;
    blocks += block == NULL;
    return block == NULL ? moved : memcpy(moved, block, size_before < size ? size_before : size);
}

#ifdef OWN_HEAP
/* Each block begins with its size. */
void *malloc(size_t size) {
    size_t *const head = resize(memory, NULL, 0, size + ALIGNED);
    if (head == NULL) return NULL;
    *head = size;
    return (char *)head + ALIGNED;
}

void *realloc(void *block, size_t size) {
    void *const moved = malloc(size);
    if (block == NULL || moved == NULL) return moved;
    const size_t before = *(size_t *)((char *)block - ALIGNED);
    memcpy(moved, block, before < size ? before : size);
    free(block);
    return moved;
}

void free(void *block) {
    if (block != NULL) resize(memory, block, 0, 0);
}
#else
void *malloc(size_t size) {
    (void)size;
    abort();
}

void *realloc(void *block, size_t size) {
    (void)block;
    (void)size;
    abort();
}

void free(void *block) {
    (void)block;
    abort();
}
#endif

#define CHECK(condition)                                                                                               \
    do {                                                                                                               \
        if (!(condition)) leave(__LINE__ % 254 + 1);                                                                   \
    } while (0)

static void fill_an_atlas(void) {
    guillotiere_atlas atlas = GUILLOTIERE_NONE;
    guillotiere_allocation granted[COUNT + 1];
    guillotiere_areas areas;
    CHECK(guillotiere_atlas_new(SIDE, SIDE, &atlas) == GUILLOTIERE_DONE && blocks > 0);
    for (int i = 0; i < COUNT; i++) CHECK(guillotiere_atlas_allocate(&atlas, BOX, BOX, &granted[i]) == GUILLOTIERE_DONE);
    CHECK(guillotiere_atlas_allocate(&atlas, 1, 1, &granted[COUNT]) == GUILLOTIERE_NO_ROOM);
    CHECK(guillotiere_atlas_areas(&atlas, &areas) == GUILLOTIERE_DONE && areas.allocated == SIDE * SIDE && areas.free == 0);
    for (int i = 0; i < COUNT; i++) CHECK(guillotiere_atlas_deallocate(&atlas, granted[i].id) == GUILLOTIERE_DONE);
    CHECK(guillotiere_atlas_is_empty(&atlas));
    guillotiere_atlas_free(&atlas);
    CHECK(blocks == 0);
}

void run(void);
void run(void) {
#ifndef OWN_HEAP
    guillotiere_set_memory(resize, memory);
#endif
    fill_an_atlas();
    leave(0);
}

#if defined(__x86_64__)
__asm__(".globl _start\n_start:\n\tcall run\n");
#else
__asm__(".globl _start\n_start:\n\tbl run\n");
#endif
