/* What guillotiere.c takes of the C library, for a machine that has none: memory.c has it. */
#ifndef STDLIB_H
#define STDLIB_H
#include <stddef.h>
void *malloc(size_t size);
void *realloc(void *block, size_t size);
void free(void *block);
void abort(void);
#endif
