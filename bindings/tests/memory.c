/* Each request for memory is refused in turn: then nothing changed, and nothing is lost. The program is linked so that
 * malloc, realloc and free are those below (-Wl,--wrap=malloc,--wrap=realloc,--wrap=free). */
#include "check.h"

#include <string.h>

void *__real_malloc(size_t size);
void *__real_realloc(void *block, size_t size);
void __real_free(void *block);
void *__wrap_malloc(size_t size);
void *__wrap_realloc(void *block, size_t size);
void __wrap_free(void *block);

static long left = -1; /* how many requests are granted before one is refused; below 0: all */
static long blocks;    /* how many blocks are out */
static long refusals;
static bool is_shut; /* whether each request is refused */

static bool refuses(void) {
    if (!is_shut && (left < 0 || left-- > 0)) return false;
    refusals++;
    return true;
}

void *__wrap_malloc(size_t size) {
    void *const block = refuses() ? NULL : __real_malloc(size);
    blocks += block != NULL;
    return block;
}

void *__wrap_realloc(void *block, size_t size) {
    void *const moved = refuses() ? NULL : __real_realloc(block, size);
    blocks += block == NULL && moved != NULL;
    return moved;
}

void __wrap_free(void *block) {
    blocks -= block != NULL;
    __real_free(block);
}

enum { ROOM = 100 };

/* What an atlas holds, as far as C sees it. */
typedef struct {
    guillotiere_allocation live[ROOM];
    guillotiere_rectangle free_boxes[ROOM];
    guillotiere_size size;
    guillotiere_slots slots;
    size_t live_count, free_count;
} view;

/* Takes what `left` says away for its time. */
static view view_of(guillotiere_atlas *atlas) {
    view seen;
    const long kept = left;
    memset(&seen, 0, sizeof seen);
    left = -1;
    CHECK(guillotiere_atlas_live(atlas, seen.live, ROOM, &seen.live_count) == GUILLOTIERE_DONE);
    CHECK(guillotiere_atlas_free_boxes(atlas, seen.free_boxes, ROOM, &seen.free_count) == GUILLOTIERE_DONE);
    CHECK(guillotiere_atlas_size(atlas, &seen.size) == GUILLOTIERE_DONE);
    CHECK(guillotiere_atlas_slots(atlas, &seen.slots) == GUILLOTIERE_DONE);
    left = kept;
    return seen;
}

/* A status of a call that may be refused memory. After a refusal the atlas is as it was. */
static bool is_done(uint32_t status, const view *before, guillotiere_atlas *atlas) {
    CHECK(status == GUILLOTIERE_DONE || status == GUILLOTIERE_MEMORY);
    if (status == GUILLOTIERE_DONE) return true;
    const view after = view_of(atlas);
    CHECK(memcmp(before, &after, sizeof after) == 0);
    return false;
}

static void use(guillotiere_atlas *atlas, guillotiere_atlas *copy, guillotiere_simple *simple) {
    static guillotiere_change changes[ROOM];
    static guillotiere_allocation found[ROOM];
    guillotiere_allocation granted;
    guillotiere_rectangle taken = {7, 7, 7, 7};
    guillotiere_change_count moved;
    uint32_t ids[12];
    size_t count = 77;
    if (guillotiere_atlas_new(512, 512, atlas) != GUILLOTIERE_DONE) return;
    const view empty = view_of(atlas);
    if (!is_done(guillotiere_atlas_reserve(atlas, 11), &empty, atlas)) return;
    for (int32_t i = 0; i < 12; i++) {
        const view before = view_of(atlas);
        granted.id = 99;
        if (!is_done(guillotiere_atlas_allocate(atlas, 20 + i, 30 + 2 * i, &granted), &before, atlas)) {
            CHECK(granted.id == 99);
            return;
        }
        ids[i] = granted.id;
    }
    const view full = view_of(atlas);
    if (!is_done(guillotiere_atlas_grow(atlas, 600, 700), &full, atlas)) return;
    const view grown = view_of(atlas);
    if (!is_done(guillotiere_atlas_clone(atlas, copy), &grown, atlas)) {
        CHECK(copy->at == NULL);
        return;
    }
    if (!is_done(guillotiere_atlas_live(atlas, found, ROOM, &count), &grown, atlas)) {
        CHECK(count == 77);
        return;
    }
    if (!is_done(guillotiere_atlas_free_boxes(atlas, &taken, 1, &count), &grown, atlas)) {
        CHECK(taken.min_x == 7);
        return;
    }
    if (!is_done(guillotiere_atlas_rearrange(atlas, changes, ROOM, found, ROOM, &moved), &grown, atlas)) return;
    if (guillotiere_simple_new(64, 64, simple) != GUILLOTIERE_DONE) {
        CHECK(simple->at == NULL);
        return;
    }
    const view packed = view_of(atlas);
    if (!is_done(guillotiere_simple_init_from_allocator(simple, atlas), &packed, atlas)) {
        CHECK(guillotiere_simple_is_empty(simple));
        return;
    }
    if (guillotiere_simple_allocate(simple, 10, 10, &taken) != GUILLOTIERE_DONE) return;
    if (guillotiere_simple_grow(simple, 1000, 1000) != GUILLOTIERE_DONE) return;
    if (guillotiere_simple_reset(simple, 100, 100, &(guillotiere_options)GUILLOTIERE_DEFAULT_OPTIONS) != GUILLOTIERE_DONE) return;
    const view last = view_of(copy);
    if (!is_done(guillotiere_atlas_deallocate_all(copy, ids, 12), &last, copy)) return;
    CHECK(guillotiere_atlas_is_empty(copy));
}

/* With 4 slots in reserve for each no request is refused memory, and with 3 no growth. */
static void reserve(void) {
    guillotiere_atlas atlas = GUILLOTIERE_NONE;
    guillotiere_allocation granted;
    CHECK(guillotiere_atlas_new(512, 512, &atlas) == GUILLOTIERE_DONE);
    const view before = view_of(&atlas);
    left = 0;
    CHECK(!is_done(guillotiere_atlas_reserve(&atlas, 12 * 4 + 3), &before, &atlas));
    left = -1;
    CHECK(guillotiere_atlas_reserve(&atlas, 12 * 4 + 3) == GUILLOTIERE_DONE);
    const view after = view_of(&atlas);
    CHECK(memcmp(&before, &after, sizeof after) == 0);
    left = 0;
    const long refused = refusals;
    for (int32_t i = 0; i < 12; i++)
        CHECK(guillotiere_atlas_allocate(&atlas, 20 + i, 30 + 2 * i, &granted) == GUILLOTIERE_DONE);
    CHECK(guillotiere_atlas_grow(&atlas, 600, 700) == GUILLOTIERE_DONE);
    CHECK(guillotiere_atlas_deallocate(&atlas, granted.id) == GUILLOTIERE_DONE);
    CHECK(refusals == refused);
    left = -1;
    guillotiere_atlas_free(&atlas);
}

/* Each request of a packing is refused in turn: it is answered, or done without; then nothing is written, and nothing is
 * lost. */
static void pack(uint32_t (*packing)(const guillotiere_size *, size_t, const guillotiere_sheet_options *, guillotiere_placed *,
                                     size_t, guillotiere_size *, size_t *)) {
    guillotiere_size sprites[40], size;
    guillotiere_sheet_options options = GUILLOTIERE_DEFAULT_SHEET_OPTIONS;
    guillotiere_placed places[40], untouched[40];
    size_t sprite = 99;
    long counted = 0;
    for (int32_t i = 0; i < 40; i++) sprites[i] = (guillotiere_size){5 + 7 * i % 31, 4 + 11 * i % 23};
    options.effort = 4;
    for (uint32_t kind = 0; kind < 4; kind++) {
        options.allowed = kind;
        options.width = options.height = 256;
        options.turn = kind % 2;
        for (long nth = 0;; nth++) {
            const long before = blocks, refused = refusals;
            memset(places, 0x55, sizeof places);
            memcpy(untouched, places, sizeof places);
            size.width = 77;
            left = nth;
            const uint32_t status = packing(sprites, 40, &options, places, 40, &size, &sprite);
            left = -1;
            CHECK(blocks == before && sprite == 99);
            CHECK(status == GUILLOTIERE_DONE || status == GUILLOTIERE_MEMORY);
            CHECK((size.width == 77) == (status == GUILLOTIERE_MEMORY));
            CHECK((memcmp(untouched, places, sizeof places) == 0) == (status == GUILLOTIERE_MEMORY));
            if (refusals == refused) break;
            counted += status == GUILLOTIERE_MEMORY;
        }
    }
    CHECK(counted > 100);
}

/* The same of several sheets, without and with groups, and of one that is filled: all the sprites of the packing into 64 by 64. */
static void pages_and_fill(void) {
    guillotiere_size sprites[40], sizes[40], size;
    guillotiere_sheet_options options = GUILLOTIERE_DEFAULT_SHEET_OPTIONS;
    guillotiere_on_page places[40];
    guillotiere_maybe_placed filled[40];
    uint32_t groups[40];
    long counted = 0;
    for (int32_t i = 0; i < 40; i++) {
        sprites[i] = (guillotiere_size){5 + 7 * i % 31, 4 + 11 * i % 23};
        groups[i] = i % 3 == 0 ? GUILLOTIERE_NO_GROUP : (uint32_t)i % 5;
    }
    options.greatest = 64;
    options.effort = 4;
    for (int which = 0; which < 3; which++) {
        for (long nth = 0;; nth++) {
            const long before = blocks, refused = refusals;
            size_t sprite = 99, told = 77;
            uint32_t status;
            left = nth;
            if (which == 0) status = guillotiere_pack_pages(sprites, 40, &options, places, 40, sizes, 40, &told, &sprite);
            else if (which == 1) status = guillotiere_fill(sprites, 40, &options, filled, 40, &told, &size, &sprite);
            else status = guillotiere_pack_groups(sprites, 40, groups, 40, &options, places, 40, sizes, 40, &told, &sprite);
            left = -1;
            CHECK(blocks == before && sprite == 99);
            CHECK(status == GUILLOTIERE_DONE || status == GUILLOTIERE_MEMORY);
            CHECK((told == 77) == (status == GUILLOTIERE_MEMORY));
            if (refusals == refused) break;
            counted += status == GUILLOTIERE_MEMORY;
        }
    }
    CHECK(counted > 60);
}

/* What a refused request, growth or list leaves is what was there: as many pages, and the same boxes on each. */
static void use_pages(guillotiere_paged *paged) {
    guillotiere_page_allocation granted[24];
    guillotiere_allocation found[24];
    guillotiere_rectangle box;
    guillotiere_size size;
    uint32_t pages = 0, held = 0, status = guillotiere_paged_new(64, 64, 6, paged);
    CHECK(status == (paged->at == NULL ? GUILLOTIERE_MEMORY : GUILLOTIERE_DONE));
    if (status != GUILLOTIERE_DONE) return;
    for (int32_t i = 0; i < 24; i++) {
        const uint32_t before = pages;
        granted[held].id = 99;
        status = guillotiere_paged_allocate(paged, 20 + i % 5, 30 + i % 3, &granted[held]);
        CHECK(status == GUILLOTIERE_DONE || status == GUILLOTIERE_MEMORY);
        CHECK(guillotiere_paged_page_count(paged, &pages) == GUILLOTIERE_DONE);
        if (status == GUILLOTIERE_DONE) held++;
        else CHECK(granted[held].id == 99 && pages == before);
        for (uint32_t k = 0; k < held; k++) {
            CHECK(guillotiere_paged_get(paged, granted[k].page, granted[k].id, &box) == GUILLOTIERE_DONE);
            CHECK(are_same(&box, &granted[k].rectangle));
        }
    }
    status = guillotiere_paged_grow(paged, 0, 80, 90);
    CHECK(status == GUILLOTIERE_DONE || status == GUILLOTIERE_MEMORY);
    CHECK(guillotiere_paged_page_size(paged, 0, &size) == GUILLOTIERE_DONE && size.width == (status == GUILLOTIERE_DONE ? 80 : 64));
    size_t count = 77;
    status = guillotiere_paged_live(paged, 0, found, 24, &count);
    CHECK(status == GUILLOTIERE_DONE || (status == GUILLOTIERE_MEMORY && count == 77));
    const long refused = refusals, kept = left;
    left = 0; /* a freeing, a clearing and a shrinking ask for nothing */
    for (uint32_t k = 1; k < held; k++)
        CHECK(guillotiere_paged_deallocate(paged, granted[k].page, granted[k].id) == GUILLOTIERE_DONE);
    CHECK(guillotiere_paged_shrink(paged, &pages) == GUILLOTIERE_DONE && pages == granted[0].page + 1);
    CHECK(guillotiere_paged_clear(paged) == GUILLOTIERE_DONE);
    CHECK(guillotiere_paged_shrink(paged, &pages) == GUILLOTIERE_DONE && pages == 0 && refusals == refused);
    left = kept;
}

static void several_pages(void) {
    for (long nth = 0;; nth++) {
        guillotiere_paged paged = GUILLOTIERE_NONE;
        const long before = blocks, refused = refusals;
        left = nth;
        use_pages(&paged);
        left = -1;
        guillotiere_paged_free(&paged);
        CHECK(blocks == before);
        if (refusals == refused) {
            CHECK(nth > 10);
            return;
        }
    }
}

static size_t keys_of(guillotiere_cache *cache) {
    size_t len = 0;
    CHECK(guillotiere_cache_len(cache, &len) == GUILLOTIERE_DONE);
    return len;
}

/* A key that is refused isn't held, and the others are; a refused trim lets none go. */
static void use_cache(guillotiere_cache *cache) {
    const guillotiere_cache_options options = {{16, 16}, {64, 64}, 2, 0, GUILLOTIERE_DEFAULT_OPTIONS};
    guillotiere_cache_change change;
    guillotiere_place place;
    size_t held = 0, told = 0;
    uint32_t status = guillotiere_cache_new(&options, cache);
    CHECK(status == (cache->at == NULL ? GUILLOTIERE_MEMORY : GUILLOTIERE_DONE));
    if (status != GUILLOTIERE_DONE) return;
    for (uint64_t key = 0; key < 40; key++) {
        status = guillotiere_cache_insert(cache, key, 10, 10, &place);
        CHECK(status == GUILLOTIERE_DONE || status == GUILLOTIERE_MEMORY);
        held += status == GUILLOTIERE_DONE;
        CHECK(keys_of(cache) == held);
        CHECK(guillotiere_cache_peek(cache, key, &place) == (status == GUILLOTIERE_DONE ? status : GUILLOTIERE_NOT_HELD));
    }
    status = guillotiere_cache_reserve(cache, 1000);
    CHECK(status == GUILLOTIERE_DONE || status == GUILLOTIERE_MEMORY);
    CHECK(keys_of(cache) == held);
    status = guillotiere_cache_reserve_slots(cache, 100);
    CHECK(status == GUILLOTIERE_DONE || status == GUILLOTIERE_MEMORY);
    status = guillotiere_cache_reserve_changes(cache, 100);
    CHECK(status == GUILLOTIERE_DONE || status == GUILLOTIERE_MEMORY);
    CHECK(keys_of(cache) == held);
    uint64_t area = 77;
    status = guillotiere_cache_unusable_area(cache, 0, 10, 10, &area);
    CHECK(status == GUILLOTIERE_DONE || status == GUILLOTIERE_MEMORY || (status == GUILLOTIERE_NO_PAGE && held == 0));
    CHECK((area == 77) == (status != GUILLOTIERE_DONE));
    held -= guillotiere_cache_remove(cache, 5, &place) == GUILLOTIERE_DONE;
    uint64_t moved = 77;
    status = guillotiere_cache_compact(cache, 1000, &moved);
    CHECK(status == GUILLOTIERE_DONE ? moved <= 1000 : status == GUILLOTIERE_MEMORY && moved == 77);
    CHECK(keys_of(cache) == held);
    while (guillotiere_cache_next_change(cache, &change) == GUILLOTIERE_DONE) CHECK(change.kind != GUILLOTIERE_EVICTED);
    guillotiere_cache copy = GUILLOTIERE_NONE;
    status = guillotiere_cache_clone(cache, &copy);
    CHECK(status == (copy.at == NULL ? GUILLOTIERE_MEMORY : GUILLOTIERE_DONE));
    CHECK(copy.at == NULL || keys_of(&copy) == held);
    guillotiere_cache_free(&copy);
    status = guillotiere_cache_repack(cache, 0);
    CHECK(status == GUILLOTIERE_DONE || status == GUILLOTIERE_MEMORY || (status == GUILLOTIERE_NO_PAGE && held == 0));
    while (guillotiere_cache_next_change(cache, &change) == GUILLOTIERE_DONE) held -= change.kind == GUILLOTIERE_EVICTED;
    CHECK(keys_of(cache) == held);
    status = guillotiere_cache_trim(cache, 0);
    CHECK(status == GUILLOTIERE_DONE || status == GUILLOTIERE_MEMORY);
    CHECK(keys_of(cache) == (status == GUILLOTIERE_DONE ? 0 : held));
    while (guillotiere_cache_next_change(cache, &change) == GUILLOTIERE_DONE) told += change.kind == GUILLOTIERE_EVICTED;
    CHECK(told == (status == GUILLOTIERE_DONE ? held : 0));
}

static void caches(void) {
    for (long nth = 0;; nth++) {
        guillotiere_cache cache = GUILLOTIERE_NONE;
        const long before = blocks, refused = refusals;
        left = nth;
        use_cache(&cache);
        left = -1;
        guillotiere_cache_free(&cache);
        CHECK(blocks == before);
        if (refusals == refused) {
            CHECK(nth > 10);
            return;
        }
    }
}

/* Frames of a text in pages of one size, each made full of 16 by 16 boxes at first: after the three calls that reserve no frame asks
 * for memory, though keys come and go. The requests are refused, so that one would be told by its status. */
static void frames(void) {
    enum { SIDE = 128, PAGES = 2, BOX = 16, ROOM_FOR = PAGES * (SIDE / BOX) * (SIDE / BOX), IN_A_FRAME = 40, FRAMES = 200 };
    const guillotiere_cache_options options = {{SIDE, SIDE}, {SIDE, SIDE}, PAGES, 0, GUILLOTIERE_DEFAULT_OPTIONS};
    guillotiere_cache cache = GUILLOTIERE_NONE;
    guillotiere_cache_change change;
    guillotiere_place place;
    CHECK(guillotiere_cache_new(&options, &cache) == GUILLOTIERE_DONE);
    for (uint64_t key = 0; key < ROOM_FOR; key++) CHECK(guillotiere_cache_insert(&cache, key, BOX, BOX, &place) == GUILLOTIERE_DONE);
    CHECK(guillotiere_cache_clear(&cache) == GUILLOTIERE_DONE);
    while (guillotiere_cache_next_change(&cache, &change) == GUILLOTIERE_DONE) continue;
    CHECK(guillotiere_cache_reserve(&cache, 4 * ROOM_FOR) == GUILLOTIERE_DONE);
    CHECK(guillotiere_cache_reserve_slots(&cache, 4 * ROOM_FOR * FRAMES) == GUILLOTIERE_DONE);
    CHECK(guillotiere_cache_reserve_changes(&cache, 4 * ROOM_FOR) == GUILLOTIERE_DONE);
    const long refused = refusals;
    left = 0;
    for (uint64_t frame = 0; frame < FRAMES; frame++) {
        CHECK(guillotiere_cache_begin_frame(&cache) == GUILLOTIERE_DONE);
        for (uint64_t i = 0; i < IN_A_FRAME; i++) {
            const uint64_t key = frame * 7 + i * i % 61;
            const uint32_t status = guillotiere_cache_insert(&cache, key, 5 + (int32_t)(key % 12), 9, &place);
            CHECK(status == GUILLOTIERE_DONE || status == GUILLOTIERE_HELD);
            while (guillotiere_cache_next_change(&cache, &change) == GUILLOTIERE_DONE) CHECK(change.kind == GUILLOTIERE_EVICTED);
        }
    }
    left = -1;
    CHECK(refusals == refused);
    guillotiere_cache_free(&cache);
}

/* "Another page that has room isn't tried" where the first that has room is refused memory: the second page has room and memory, which a
 * key shows that the first has no room for. */
static void no_other_page(void) {
    const guillotiere_cache_options options = {{128, 128}, {128, 128}, 2, 0, GUILLOTIERE_DEFAULT_OPTIONS};
    guillotiere_cache cache = GUILLOTIERE_NONE;
    guillotiere_cache_change change;
    guillotiere_counts counts;
    guillotiere_place place;
    uint64_t key = 3;
    CHECK(guillotiere_cache_new(&options, &cache) == GUILLOTIERE_DONE);
    CHECK(guillotiere_cache_insert(&cache, 1, 128, 128, &place) == GUILLOTIERE_DONE && place.page == 0);
    CHECK(guillotiere_cache_insert(&cache, 2, 128, 128, &place) == GUILLOTIERE_DONE && place.page == 1);
    while (guillotiere_cache_next_change(&cache, &change) == GUILLOTIERE_DONE) continue;
    CHECK(guillotiere_cache_remove(&cache, 1, NULL) == GUILLOTIERE_DONE);
    CHECK(guillotiere_cache_reserve(&cache, 20000) == GUILLOTIERE_DONE);
    CHECK(guillotiere_cache_reserve_changes(&cache, 20000) == GUILLOTIERE_DONE);
    CHECK(guillotiere_cache_reserve_slots(&cache, 100) == GUILLOTIERE_DONE);
    CHECK(guillotiere_cache_begin_frame(&cache) == GUILLOTIERE_DONE);
    is_shut = true;
    while (guillotiere_cache_insert(&cache, key, 1, 1, &place) == GUILLOTIERE_DONE) key++;
    CHECK(key > 3 && key < 128 * 128);
    CHECK(guillotiere_cache_remove(&cache, 2, NULL) == GUILLOTIERE_DONE);
    CHECK(guillotiere_cache_insert(&cache, key, 1, 1, &place) == GUILLOTIERE_MEMORY);
    CHECK(guillotiere_cache_insert(&cache, 1, 128, 128, &place) == GUILLOTIERE_DONE && place.page == 1);
    CHECK(guillotiere_cache_remove(&cache, 1, NULL) == GUILLOTIERE_DONE);
    CHECK(guillotiere_cache_insert(&cache, key, 1, 1, &place) == GUILLOTIERE_MEMORY);
    CHECK(guillotiere_cache_next_change(&cache, &change) == GUILLOTIERE_NO_CHANGE);
    CHECK(guillotiere_cache_statistics(&cache, &counts) == GUILLOTIERE_DONE && counts.evictions == 0 && counts.forced == 0);
    is_shut = false;
    CHECK(guillotiere_cache_insert(&cache, key, 1, 1, &place) == GUILLOTIERE_DONE && place.page == 0);
    guillotiere_cache_free(&cache);
}

int main(void) {
    several_pages();
    caches();
    frames();
    no_other_page();
    reserve();
    pack(guillotiere_pack);
    pack(guillotiere_pack_dense);
    pages_and_fill();
    for (long nth = 0;; nth++) {
        guillotiere_atlas atlas = GUILLOTIERE_NONE, copy = GUILLOTIERE_NONE;
        guillotiere_simple simple = GUILLOTIERE_NONE;
        const long before = blocks, refused = refusals;
        left = nth;
        use(&atlas, &copy, &simple);
        left = -1;
        guillotiere_atlas_free(&atlas);
        guillotiere_atlas_free(&copy);
        guillotiere_simple_free(&simple);
        CHECK(blocks == before);
        if (refusals == refused) break;
    }
    CHECK(refusals > 20);
    return 0;
}
