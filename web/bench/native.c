/* The first of bench.js by C: a freeing and a grant, and a hit of a cache. */
#include <guillotiere.h>
#include <stdio.h>
#include <time.h>

enum { BOXES = 3000, ROUNDS = 500, PAIRS = 4000, HITS = 16000, KEYS = 1000 };

static uint32_t state = 12345;
static uint32_t live[BOXES];
static guillotiere_atlas atlas;
static guillotiere_cache cache;

static uint32_t below(uint32_t bound) {
    state = state * 1103515245u + 12345u;
    return (state >> 8) % bound;
}

static double now(void) {
    struct timespec time;
    clock_gettime(CLOCK_MONOTONIC, &time);
    return (double)time.tv_sec * 1e9 + (double)time.tv_nsec;
}

static uint32_t granted(void) {
    guillotiere_allocation box = {0, {0, 0, 0, 0}};
    const int32_t width = 5 + (int32_t)below(40), height = 5 + (int32_t)below(40);
    guillotiere_atlas_allocate(&atlas, width, height, &box);
    return box.id;
}

static void pairs(void) {
    for (int i = 0; i < PAIRS; i++) {
        const uint32_t at = below(BOXES);
        guillotiere_atlas_deallocate(&atlas, live[at]);
        live[at] = granted();
    }
}

static void hits(void) {
    guillotiere_place place;
    for (uint64_t i = 0; i < HITS; i++) guillotiere_cache_get(&cache, i % KEYS, &place);
}

static double least(void (*round)(void), int calls) {
    double found = 1e18;
    for (int i = 0; i < ROUNDS; i++) {
        const double begun = now();
        round();
        const double time = now() - begun;
        if (time < found) found = time;
    }
    return found / calls;
}

int main(void) {
    const guillotiere_cache_options options = {{1024, 1024}, {1024, 1024}, 4, 1, GUILLOTIERE_DEFAULT_OPTIONS};
    guillotiere_place place;
    uint32_t sum = 0;
    if (guillotiere_atlas_new(2048, 2048, &atlas) || guillotiere_cache_new(&options, &cache)) return 1;
    for (int i = 0; i < BOXES; i++) live[i] = granted();
    for (uint64_t i = 0; i < KEYS; i++) guillotiere_cache_insert(&cache, i, 10, 20, &place);
    const double pair = least(pairs, PAIRS), hit = least(hits, HITS);
    for (int i = 0; i < BOXES; i++) sum = sum * 31 + live[i];
    printf("{\"pair\": {\"time\": %f, \"sum\": %u}, \"numbers\": {\"time\": %f}}\n", pair, (unsigned)sum, hit);
    guillotiere_atlas_free(&atlas);
    guillotiere_cache_free(&cache);
    return 0;
}
