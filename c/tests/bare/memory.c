/* Memory for a module of WebAssembly without a C library: blocks by powers of two, and those that were given back are used again. */
#include <stdint.h>
#include <stdlib.h>

enum { HEAD = 16, CLASSES = 32, PAGE = 65536 };

typedef struct block {
    uint32_t kind; /* it has 2 to the power of this bytes behind its head */
    struct block *next;
} block;

extern unsigned char __heap_base;
static block *unused[CLASSES];
static uintptr_t top, end;

void *memcpy(void *restrict to, const void *restrict from, size_t size);
void *memmove(void *to, const void *from, size_t size);
void *memset(void *at, int byte, size_t size);

void *malloc(size_t size) {
    uint32_t kind = 4;
    block *found;
    while (kind < CLASSES - 1 && ((size_t)1 << kind) < size) kind++;
    if (kind == CLASSES - 1) return NULL;
    if (unused[kind] != NULL) {
        found = unused[kind];
        unused[kind] = found->next;
        return (char *)found + HEAD;
    }
    if (top == 0) end = top = ((uintptr_t)&__heap_base + 15) & ~(uintptr_t)15;
    while (end - top < ((size_t)1 << kind) + HEAD) {
        if (end == top) end = (uintptr_t)__builtin_wasm_memory_size(0) * PAGE;
        if (end - top >= ((size_t)1 << kind) + HEAD) break;
        if (__builtin_wasm_memory_grow(0, (((size_t)1 << kind) + HEAD) / PAGE + 1) == (size_t)-1) return NULL;
        end = (uintptr_t)__builtin_wasm_memory_size(0) * PAGE;
    }
    found = (block *)top;
    top += ((size_t)1 << kind) + HEAD;
    found->kind = kind;
    return (char *)found + HEAD;
}

void free(void *at) {
    block *const it = (block *)((char *)at - HEAD);
    if (at == NULL) return;
    it->next = unused[it->kind];
    unused[it->kind] = it;
}

void *realloc(void *at, size_t size) {
    void *const made = malloc(size);
    if (at == NULL || made == NULL) return made;
    const size_t before = (size_t)1 << ((block *)((char *)at - HEAD))->kind;
    memcpy(made, at, before < size ? before : size);
    free(at);
    return made;
}

void abort(void) { __builtin_trap(); }

void *memmove(void *to, const void *from, size_t size) {
    volatile unsigned char *const t = to;
    const unsigned char *const f = from;
    if ((uintptr_t)to < (uintptr_t)from) {
        for (size_t i = 0; i < size; i++) t[i] = f[i];
    } else {
        while (size-- > 0) t[size] = f[size];
    }
    return to;
}

void *memcpy(void *restrict to, const void *restrict from, size_t size) { return memmove(to, from, size); }

void *memset(void *at, int byte, size_t size) {
    volatile unsigned char *const bytes = at;
    for (size_t i = 0; i < size; i++) bytes[i] = (unsigned char)byte;
    return at;
}
