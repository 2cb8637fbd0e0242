/* Sixteen bytes at once: 255 where two are equal and else 0, and the highest bit of each. */
#if defined(__SSE2__)
#include <emmintrin.h>

MAKER __m128i lanes_of(const array_u8_16 *of) { return _mm_loadu_si128((const __m128i *)(const void *)of->at); }

MAKER array_u8_16 equal_lanes(array_u8_16 one, array_u8_16 other) {
    array_u8_16 it;
    _mm_storeu_si128((__m128i *)(void *)it.at, _mm_cmpeq_epi8(lanes_of(&one), lanes_of(&other)));
    return it;
}

MAKER uint64_t lane_bits(array_u8_16 of) { return (uint64_t)_mm_movemask_epi8(lanes_of(&of)); }
#else
MAKER uint64_t word_of(const uint8_t *at) {
    return (uint64_t)at[0] | (uint64_t)at[1] << 8 | (uint64_t)at[2] << 16 | (uint64_t)at[3] << 24 | (uint64_t)at[4] << 32
        | (uint64_t)at[5] << 40 | (uint64_t)at[6] << 48 | (uint64_t)at[7] << 56;
}

/* 255 for each byte that is 0: no sum of seven bits and 127 reaches the next byte. */
MAKER uint64_t zeros_in(uint64_t word) {
    const uint64_t seven = UINT64_C(0x7f7f7f7f7f7f7f7f);
    return (~(((word & seven) + seven) | word | seven) >> 7) * 255u;
}

MAKER array_u8_16 equal_lanes(array_u8_16 one, array_u8_16 other) {
    const uint64_t low = zeros_in(word_of(one.at) ^ word_of(other.at)), high = zeros_in(word_of(one.at + 8) ^ word_of(other.at + 8));
    array_u8_16 it;
    int i;
    for (i = 0; i < 8; i++) it.at[i] = (uint8_t)(low >> 8 * i);
    for (i = 0; i < 8; i++) it.at[8 + i] = (uint8_t)(high >> 8 * i);
    return it;
}

/* Bit 8 * i of the first factor and bit 56 - 7 * i of the other one give bit 56 + i, and no other two give one there. */
MAKER uint64_t highest_of(uint64_t word) {
    return (word >> 7 & UINT64_C(0x0101010101010101)) * UINT64_C(0x0102040810204080) >> 56;
}

MAKER uint64_t lane_bits(array_u8_16 of) { return highest_of(word_of(of.at)) | highest_of(word_of(of.at + 8)) << 8; }
#endif
