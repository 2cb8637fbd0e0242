/* What a cache answers where the slots of a page don't suffice, and what helps, over a library whose atlases may use 64 slots and no more
 * (bindings/test makes it of a copy of the sources). Two pages of 64 by 64; single pixels use up the slots of the first. */
#include "check.h"

static const guillotiere_cache_options two_pages = {{64, 64}, {64, 64}, 2, 0, GUILLOTIERE_DEFAULT_OPTIONS};

enum { OF_BOTH = 1, NEXT = 2 };

static uint32_t insert(guillotiere_cache *cache, uint64_t key, int32_t side) {
    guillotiere_place place;
    return guillotiere_cache_insert(cache, key, side, side, &place);
}

/* The second page is taken by key 1. On the first lie keys from 2 on, until one is refused: the number of that one. */
static uint64_t fill(guillotiere_cache *cache) {
    guillotiere_cache_change change;
    uint64_t key = NEXT;
    CHECK(guillotiere_cache_new(&two_pages, cache) == GUILLOTIERE_DONE);
    CHECK(insert(cache, 0, 64) == GUILLOTIERE_DONE && insert(cache, OF_BOTH, 64) == GUILLOTIERE_DONE);
    CHECK(guillotiere_cache_remove(cache, 0, NULL) == GUILLOTIERE_DONE);
    while (guillotiere_cache_next_change(cache, &change) == GUILLOTIERE_DONE) continue;
    uint32_t status = insert(cache, key, 1);
    while (status == GUILLOTIERE_DONE) status = insert(cache, ++key, 1);
    CHECK(status == GUILLOTIERE_SLOTS && key > NEXT + 10 && key < NEXT + 64);
    return key;
}

static void nothing(guillotiere_cache *cache, uint64_t last) {
    (void)cache;
    (void)last;
}

static void a_new_frame(guillotiere_cache *cache, uint64_t last) {
    (void)last;
    CHECK(guillotiere_cache_begin_frame(cache) == GUILLOTIERE_DONE);
}

/* The second page has room from now on. */
static void room_elsewhere(guillotiere_cache *cache, uint64_t last) {
    (void)last;
    CHECK(guillotiere_cache_remove(cache, OF_BOTH, NULL) == GUILLOTIERE_DONE);
}

static void one_removed(guillotiere_cache *cache, uint64_t last) {
    CHECK(guillotiere_cache_remove(cache, last, NULL) == GUILLOTIERE_DONE);
}

static void all_trimmed(guillotiere_cache *cache, uint64_t last) {
    guillotiere_cache_change change;
    (void)last;
    CHECK(guillotiere_cache_trim(cache, 0) == GUILLOTIERE_DONE);
    while (guillotiere_cache_next_change(cache, &change) == GUILLOTIERE_DONE) CHECK(change.kind == GUILLOTIERE_EVICTED);
}

static void cleared(guillotiere_cache *cache, uint64_t last) {
    (void)last;
    CHECK(guillotiere_cache_clear(cache) == GUILLOTIERE_DONE);
}

/* What is done after SLOTS, and what the same key is answered then. */
static const struct {
    void (*does)(guillotiere_cache *cache, uint64_t last);
    uint32_t status;
} rows[] = {
    {nothing, GUILLOTIERE_SLOTS},     {a_new_frame, GUILLOTIERE_SLOTS}, {room_elsewhere, GUILLOTIERE_SLOTS},
    {one_removed, GUILLOTIERE_DONE},  {all_trimmed, GUILLOTIERE_DONE},  {cleared, GUILLOTIERE_DONE},
};

int main(void) {
    for (size_t row = 0; row < sizeof rows / sizeof *rows; row++) {
        guillotiere_cache cache = GUILLOTIERE_NONE;
        guillotiere_cache_change change;
        const uint64_t key = fill(&cache);
        rows[row].does(&cache, key - 1);
        CHECK(insert(&cache, key, 1) == rows[row].status);
        CHECK(guillotiere_cache_next_change(&cache, &change) == GUILLOTIERE_NO_CHANGE);
        /* A key that is held, and one of an empty size, need no slots. */
        CHECK(insert(&cache, key, 1) == (rows[row].status == GUILLOTIERE_DONE ? GUILLOTIERE_HELD : GUILLOTIERE_SLOTS));
        CHECK(insert(&cache, key + 1, 0) == GUILLOTIERE_DONE);
        guillotiere_cache_free(&cache);
    }
    guillotiere_cache cache = GUILLOTIERE_NONE;
    fill(&cache);
    CHECK(guillotiere_cache_reserve_slots(&cache, 0) == GUILLOTIERE_DONE);
    CHECK(guillotiere_cache_reserve_slots(&cache, 64) == GUILLOTIERE_SLOTS);
    guillotiere_cache_free(&cache);
    return 0;
}
