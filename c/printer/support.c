/* guillotiere.c: printed by c/printer from what the prover proved. Don't edit.
 *
 * It needs a compiler for C99 or C++17 and guillotiere.h. Of the C library it needs malloc, realloc and free, in place of which
 * guillotiere_set_memory may name another function. Each function has its file in the sources above it; numbers are without signs, and
 * where one is compared or divided with its sign it is cast. */
#include "guillotiere.h"
#include <stdlib.h>

/* Where a variant holds less than others the rest of its bytes stays as it is, and is copied so, but never looked at. */
#if defined(__GNUC__) && !defined(__clang__)
#pragma GCC diagnostic ignored "-Wmaybe-uninitialized"
#endif

/* What has no bytes has this address. */
static uint64_t nothing;

/* Compiled for size, without optimization or with a sanitizer, each function stays one, which compilers take in much less time. */
#if !defined(__OPTIMIZE__) || defined(__OPTIMIZE_SIZE__) || defined(__SANITIZE_ADDRESS__) || defined(__SANITIZE_THREAD__)
#define IN_PLACE unused
#elif !defined(__has_feature)
#define IN_PLACE always_inline
#elif __has_feature(address_sanitizer) || __has_feature(memory_sanitizer) || __has_feature(thread_sanitizer)
#define IN_PLACE unused
#else
#define IN_PLACE always_inline
#endif

/* MAKER: makes a value of its parts. SMALL: has few lines. COLD: is seldom called, as its source says, and never put in place. PART: any
 * other function, where GCC by measurement does better with a hint. */
#if defined(__clang__)
#define MAKER static inline __attribute__((IN_PLACE, unused))
#define SMALL static inline __attribute__((IN_PLACE))
#define COLD static __attribute__((noinline))
#define PART static
#define UNREACHABLE() __builtin_unreachable()
#elif defined(__GNUC__)
#define MAKER static inline __attribute__((IN_PLACE, unused))
#define SMALL static inline __attribute__((IN_PLACE))
#define COLD static __attribute__((noinline))
#define PART static inline
#define UNREACHABLE() __builtin_unreachable()
#else
#define MAKER static inline
#define SMALL static inline
#define COLD static
#define PART static
#define UNREACHABLE() abort()
#endif

MAKER uint32_t count_ones_64(uint64_t of) {
    uint32_t count = 0;
    for (; of != 0; of &= of - 1) count++;
    return count;
}

MAKER uint32_t leading_zeros_64(uint64_t of) {
#if defined(__GNUC__)
    return of == 0 ? 64u : (uint32_t)__builtin_clzll(of);
#else
    uint32_t count = 64;
    for (; of != 0; of >>= 1) count--;
    return count;
#endif
}

MAKER uint32_t trailing_zeros_64(uint64_t of) {
#if defined(__GNUC__)
    return of == 0 ? 64u : (uint32_t)__builtin_ctzll(of);
#else
    uint32_t count = 0;
    if (of == 0) return 64;
    for (; (of & 1) == 0; of >>= 1) count++;
    return count;
#endif
}

MAKER uint32_t count_ones_32(uint32_t of) { return count_ones_64(of); }
MAKER uint32_t leading_zeros_32(uint32_t of) { return leading_zeros_64(of) - 32u; }
MAKER uint32_t trailing_zeros_32(uint32_t of) { return of == 0 ? 32u : trailing_zeros_64(of); }

/* A number of 128 bits. */
typedef struct wide_number {
    uint64_t low;
    uint64_t high;
} wide_number;

MAKER wide_number wide(uint64_t high, uint64_t low) {
    wide_number it;
    it.low = low;
    it.high = high;
    return it;
}

MAKER wide_number wide_sum(wide_number one, wide_number other) {
    const uint64_t low = one.low + other.low;
    return wide(one.high + other.high + (low < one.low ? 1u : 0u), low);
}

MAKER wide_number wide_product(wide_number one, wide_number other) {
    const uint64_t a = one.low >> 32, b = one.low & 0xffffffffu, c = other.low >> 32, d = other.low & 0xffffffffu;
    const uint64_t middle = a * d + (b * d >> 32), inner = b * c + (middle & 0xffffffffu);
    const uint64_t high = a * c + (middle >> 32) + (inner >> 32);
    return wide(high + one.high * other.low + one.low * other.high, one.low * other.low);
}

MAKER wide_number wide_and(wide_number one, wide_number other) { return wide(one.high & other.high, one.low & other.low); }

MAKER wide_number wide_right(wide_number of, uint64_t by) {
    if (by >= 64) return wide(0, of.high >> (by - 64));
    return by == 0 ? of : wide(of.high >> by, of.low >> by | of.high << (64 - by));
}

MAKER bool is_less(wide_number one, wide_number other) {
    return one.high != other.high ? one.high < other.high : one.low < other.low;
}

MAKER bool is_at_most(wide_number one, wide_number other) { return !is_less(other, one); }
