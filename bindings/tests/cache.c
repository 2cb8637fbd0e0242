/* A cache of rectangles under keys: what each call answers, what it tells, and a random session beside a plain list. */
#include "check.h"

#include <string.h>

/* New pages of 16 by 16, which grow to 16 by 32, two of them at most. */
static const guillotiere_cache_options two_pages = {{16, 16}, {16, 32}, 2, 0, GUILLOTIERE_DEFAULT_OPTIONS};

static void make(const guillotiere_cache_options *options, guillotiere_cache *cache) {
    CHECK(guillotiere_cache_new(options, cache) == GUILLOTIERE_DONE);
}

static guillotiere_place inserted(guillotiere_cache *cache, uint64_t key, int32_t width, int32_t height) {
    guillotiere_place place;
    CHECK(guillotiere_cache_insert(cache, key, width, height, &place) == GUILLOTIERE_DONE);
    CHECK(place.inner.max_x - place.inner.min_x == width && place.inner.max_y - place.inner.min_y == height);
    return place;
}

static bool same_place(const guillotiere_place *a, const guillotiere_place *b) {
    return a->number == b->number && a->page == b->page && are_same(&a->rectangle, &b->rectangle) && are_same(&a->inner, &b->inner);
}

static void told_page(guillotiere_cache *cache, uint32_t kind, uint32_t page, int32_t width, int32_t height) {
    guillotiere_cache_change change;
    CHECK(guillotiere_cache_next_change(cache, &change) == GUILLOTIERE_DONE);
    CHECK(change.kind == kind && change.page == page && change.size.width == width && change.size.height == height);
}

static void told_evicted(guillotiere_cache *cache, uint64_t key, const guillotiere_place *from) {
    guillotiere_cache_change change;
    CHECK(guillotiere_cache_next_change(cache, &change) == GUILLOTIERE_DONE);
    CHECK(change.kind == GUILLOTIERE_EVICTED && change.key == key && same_place(&change.from, from));
}

static void told_nothing(guillotiere_cache *cache) {
    guillotiere_cache_change change, before;
    memset(&change, 7, sizeof change);
    before = change;
    CHECK(guillotiere_cache_next_change(cache, &change) == GUILLOTIERE_NO_CHANGE);
    CHECK(memcmp(&change, &before, sizeof change) == 0);
}

static uint32_t made_with(guillotiere_cache_options options) {
    guillotiere_cache cache = GUILLOTIERE_NONE;
    const uint32_t status = guillotiere_cache_new(&options, &cache);
    CHECK((cache.at == NULL) == (status != GUILLOTIERE_DONE));
    guillotiere_cache_free(&cache);
    return status;
}

static void bad_options(void) {
    guillotiere_cache_options options = two_pages;
    CHECK(made_with(options) == GUILLOTIERE_DONE);
    options.page.height = 0;
    CHECK(made_with(options) == GUILLOTIERE_EMPTY_PAGE);
    options.page.height = 33;
    CHECK(made_with(options) == GUILLOTIERE_LARGEST_PAGE);
    options = two_pages;
    options.pages = 0;
    CHECK(made_with(options) == GUILLOTIERE_NO_PAGES);
    options = two_pages;
    options.padding = -1;
    CHECK(made_with(options) == GUILLOTIERE_BAD_PADDING);
    options = two_pages;
    options.atlas.alignment_width = 0;
    CHECK(made_with(options) == GUILLOTIERE_BAD_ATLAS);
    options = two_pages;
    options.padding = 8;
    CHECK(made_with(options) == GUILLOTIERE_NOTHING_FITS);
    options.padding = 7;
    CHECK(made_with(options) == GUILLOTIERE_DONE);
    options.atlas.alignment_height = 33;
    CHECK(made_with(options) == GUILLOTIERE_NOTHING_FITS);
    options.pages = 0;
    CHECK(made_with(options) == GUILLOTIERE_NO_PAGES);
}

static void empty_handles(void) {
    guillotiere_cache cache = GUILLOTIERE_NONE, other = GUILLOTIERE_NONE;
    guillotiere_place place;
    guillotiere_cache_change change;
    guillotiere_size size;
    guillotiere_counts counts;
    guillotiere_areas areas;
    guillotiere_cache_options options;
    size_t len = 77;
    uint32_t pages = 77;
    uint64_t key = 77, area = 77, moved = 77;
    CHECK(guillotiere_cache_begin_frame(&cache) == GUILLOTIERE_EMPTY);
    CHECK(guillotiere_cache_get(&cache, 1, &place) == GUILLOTIERE_EMPTY);
    CHECK(guillotiere_cache_peek(&cache, 1, &place) == GUILLOTIERE_EMPTY);
    CHECK(guillotiere_cache_insert(&cache, 1, 2, 3, &place) == GUILLOTIERE_EMPTY);
    CHECK(guillotiere_cache_remove(&cache, 1, &place) == GUILLOTIERE_EMPTY);
    CHECK(guillotiere_cache_next_change(&cache, &change) == GUILLOTIERE_EMPTY);
    CHECK(guillotiere_cache_clear(&cache) == GUILLOTIERE_EMPTY);
    CHECK(guillotiere_cache_trim(&cache, 1) == GUILLOTIERE_EMPTY);
    CHECK(guillotiere_cache_end_batch(&cache, 1) == GUILLOTIERE_EMPTY);
    CHECK(guillotiere_cache_shrink(&cache) == GUILLOTIERE_EMPTY);
    CHECK(guillotiere_cache_compact(&cache, 1, &moved) == GUILLOTIERE_EMPTY && moved == 77);
    CHECK(guillotiere_cache_repack(&cache, 0) == GUILLOTIERE_EMPTY);
    CHECK(guillotiere_cache_repack_keeping_all(&cache, 0) == GUILLOTIERE_EMPTY);
    CHECK(guillotiere_cache_len(&cache, &len) == GUILLOTIERE_EMPTY && len == 77);
    CHECK(guillotiere_cache_page_count(&cache, &pages) == GUILLOTIERE_EMPTY && pages == 77);
    CHECK(guillotiere_cache_numbers(&cache, &pages) == GUILLOTIERE_EMPTY && pages == 77);
    CHECK(guillotiere_cache_page_size(&cache, 0, &size) == GUILLOTIERE_EMPTY);
    CHECK(guillotiere_cache_statistics(&cache, &counts) == GUILLOTIERE_EMPTY);
    CHECK(guillotiere_cache_areas(&cache, 0, &areas) == GUILLOTIERE_EMPTY);
    CHECK(guillotiere_cache_unusable_area(&cache, 0, 1, 1, &area) == GUILLOTIERE_EMPTY && area == 77);
    CHECK(guillotiere_cache_options_of(&cache, &options) == GUILLOTIERE_EMPTY);
    CHECK(guillotiere_cache_newest(&cache, &key, &place) == GUILLOTIERE_EMPTY && key == 77);
    CHECK(guillotiere_cache_oldest(&cache, &key, &place) == GUILLOTIERE_EMPTY && key == 77);
    CHECK(guillotiere_cache_older(&cache, 1, &key, &place) == GUILLOTIERE_EMPTY && key == 77);
    CHECK(guillotiere_cache_reserve(&cache, 1) == GUILLOTIERE_EMPTY);
    CHECK(guillotiere_cache_reserve_slots(&cache, 1) == GUILLOTIERE_EMPTY);
    CHECK(guillotiere_cache_reserve_changes(&cache, 1) == GUILLOTIERE_EMPTY);
    CHECK(guillotiere_cache_clone(&cache, &other) == GUILLOTIERE_EMPTY && other.at == NULL);
    guillotiere_cache_free(&cache);
    make(&two_pages, &cache);
    CHECK(guillotiere_cache_new(&two_pages, &cache) == GUILLOTIERE_OCCUPIED && cache.at != NULL);
    guillotiere_cache_free(&cache);
    guillotiere_cache_free(&cache);
}

static void check_figures(guillotiere_cache *cache, size_t keys, uint32_t pages) {
    guillotiere_size size = {0, 0};
    size_t len = 0;
    uint32_t count = 0;
    CHECK(guillotiere_cache_len(cache, &len) == GUILLOTIERE_DONE && len == keys);
    CHECK(guillotiere_cache_page_count(cache, &count) == GUILLOTIERE_DONE && count == pages);
    CHECK(guillotiere_cache_page_size(cache, pages, &size) == GUILLOTIERE_NO_PAGE && size.width == 0);
    CHECK(guillotiere_cache_page_size(cache, pages - 1, &size) == GUILLOTIERE_DONE);
    CHECK(size.width == 16 && size.height == 32);
}

/* Of two keys on a page of 16 by 32 the upper one goes; a repacking moves the other one up, and tells it. */
static void a_key_moves(void) {
    guillotiere_cache cache = GUILLOTIERE_NONE;
    make(&two_pages, &cache);
    guillotiere_place place;
    guillotiere_cache_change change;
    inserted(&cache, 7, 16, 16);
    const guillotiere_place low = inserted(&cache, 8, 16, 16);
    told_page(&cache, GUILLOTIERE_PAGE_ADDED, 0, 16, 16);
    told_page(&cache, GUILLOTIERE_PAGE_GROWN, 0, 16, 32);
    CHECK(guillotiere_cache_remove(&cache, 7, &place) == GUILLOTIERE_DONE && low.rectangle.min_y == 16);
    CHECK(guillotiere_cache_repack(&cache, 1) == GUILLOTIERE_NO_PAGE);
    told_nothing(&cache);
    CHECK(guillotiere_cache_repack(&cache, 0) == GUILLOTIERE_DONE);
    CHECK(guillotiere_cache_next_change(&cache, &change) == GUILLOTIERE_DONE && change.kind == GUILLOTIERE_MOVED);
    CHECK(change.key == 8 && same_place(&change.from, &low) && are_same(&change.to.rectangle, &place.rectangle));
    CHECK(change.to.number == low.number && change.to.number != place.number);
    CHECK(guillotiere_cache_peek(&cache, 8, &place) == GUILLOTIERE_DONE && same_place(&place, &change.to));
    told_nothing(&cache);
    guillotiere_cache_free(&cache);
}

static const guillotiere_place *told_move(guillotiere_cache *cache, uint64_t key, guillotiere_place *from, guillotiere_place *to) {
    guillotiere_cache_change change;
    CHECK(guillotiere_cache_next_change(cache, &change) == GUILLOTIERE_DONE && change.kind == GUILLOTIERE_MOVED && change.key == key);
    *from = change.from;
    *to = change.to;
    return to;
}

static bool lies_at(const guillotiere_place *place, int32_t x, int32_t y) {
    return place->rectangle.min_x == x && place->rectangle.min_y == y;
}

/* Key 2, the largest, comes first to the corner, and 3, 6 by 8, to its right; for 1, as large as 3, a strip of 7 rows is left below. So all
 * stays as it is, while 1 is there; once it is gone, the two move. */
static void all_keys_stay(void) {
    guillotiere_cache cache = GUILLOTIERE_NONE;
    const guillotiere_cache_options one_page = {{16, 16}, {16, 16}, 1, 0, {1, 1, 1, 1}};
    make(&one_page, &cache);
    guillotiere_place place, from, to;
    const guillotiere_place first = inserted(&cache, 1, 6, 8), second = inserted(&cache, 2, 10, 9), third = inserted(&cache, 3, 6, 8);
    told_page(&cache, GUILLOTIERE_PAGE_ADDED, 0, 16, 16);
    CHECK(lies_at(&first, 0, 0) && lies_at(&second, 6, 0) && lies_at(&third, 0, 8));
    CHECK(guillotiere_cache_repack_keeping_all(&cache, 0) == GUILLOTIERE_NO_ROOM);
    CHECK(guillotiere_cache_repack_keeping_all(&cache, 1) == GUILLOTIERE_NO_PAGE);
    told_nothing(&cache);
    CHECK(guillotiere_cache_peek(&cache, 2, &place) == GUILLOTIERE_DONE && same_place(&place, &second));
    CHECK(guillotiere_cache_remove(&cache, 1, NULL) == GUILLOTIERE_DONE);
    CHECK(guillotiere_cache_repack_keeping_all(&cache, 0) == GUILLOTIERE_DONE);
    CHECK(lies_at(told_move(&cache, 3, &from, &to), 10, 0) && same_place(&from, &third));
    CHECK(lies_at(told_move(&cache, 2, &from, &to), 0, 0) && same_place(&from, &second));
    told_nothing(&cache);
    guillotiere_cache_free(&cache);
}

/* A blank key needs no page, takes no room, gives way to none, and goes by a trim. */
static void a_blank_key(void) {
    guillotiere_cache cache = GUILLOTIERE_NONE;
    make(&two_pages, &cache);
    const guillotiere_place nothing = {0, 0, {0, 0, 0, 0}, {0, 0, 0, 0}};
    guillotiere_place place;
    uint32_t pages = 7;
    CHECK(guillotiere_cache_insert(&cache, 7, 17, 0, &place) == GUILLOTIERE_DONE && same_place(&place, &nothing));
    told_nothing(&cache);
    CHECK(guillotiere_cache_page_count(&cache, &pages) == GUILLOTIERE_DONE && pages == 0);
    CHECK(guillotiere_cache_insert(&cache, 7, 17, 0, &place) == GUILLOTIERE_HELD && same_place(&place, &nothing));
    CHECK(guillotiere_cache_insert(&cache, 7, 17, -1, &place) == GUILLOTIERE_OTHER_SIZE);
    for (uint64_t key = 10; key < 12; key++) inserted(&cache, key, 16, 32);
    CHECK(guillotiere_cache_begin_frame(&cache) == GUILLOTIERE_DONE);
    inserted(&cache, 12, 16, 32);
    CHECK(guillotiere_cache_peek(&cache, 10, &place) == GUILLOTIERE_NOT_HELD);
    CHECK(guillotiere_cache_peek(&cache, 7, &place) == GUILLOTIERE_DONE && same_place(&place, &nothing));
    CHECK(guillotiere_cache_trim(&cache, 1) == GUILLOTIERE_DONE);
    CHECK(guillotiere_cache_peek(&cache, 7, &place) == GUILLOTIERE_NOT_HELD);
    guillotiere_cache_free(&cache);
}

/* Where a frame has no room, the key that it used last goes as a batch ends, and the frame goes on. */
static void a_batch_ends(void) {
    guillotiere_cache cache = GUILLOTIERE_NONE;
    make(&two_pages, &cache);
    guillotiere_place place;
    CHECK(guillotiere_cache_begin_frame(&cache) == GUILLOTIERE_DONE);
    for (uint64_t key = 10; key < 12; key++) inserted(&cache, key, 16, 32);
    CHECK(guillotiere_cache_insert(&cache, 12, 16, 32, &place) == GUILLOTIERE_FRAME_FULL);
    CHECK(guillotiere_cache_end_batch(&cache, 1) == GUILLOTIERE_DONE);
    CHECK(guillotiere_cache_peek(&cache, 11, &place) == GUILLOTIERE_NOT_HELD);
    inserted(&cache, 12, 16, 32);
    CHECK(guillotiere_cache_trim(&cache, 1) == GUILLOTIERE_DONE);
    CHECK(guillotiere_cache_peek(&cache, 10, &place) == GUILLOTIERE_DONE);
    guillotiere_cache_free(&cache);
}

/* On a page of 16 by 16 a key takes 8 by 8 with its border, so that 192 pixels are free. A second one has room only once it is gone: that
 * eviction is forced if the second one takes 192 pixels or less. */
static uint64_t forced_by(int32_t padding, int32_t width, int32_t height) {
    guillotiere_cache cache = GUILLOTIERE_NONE;
    const guillotiere_cache_options options = {{16, 16}, {16, 16}, 1, padding, GUILLOTIERE_DEFAULT_OPTIONS};
    guillotiere_counts counts = {7, 7, 7, 7};
    make(&options, &cache);
    inserted(&cache, 1, 8 - 2 * padding, 8 - 2 * padding);
    CHECK(guillotiere_cache_begin_frame(&cache) == GUILLOTIERE_DONE);
    inserted(&cache, 2, width, height);
    CHECK(guillotiere_cache_statistics(&cache, &counts) == GUILLOTIERE_DONE && counts.evictions == 1);
    guillotiere_cache_free(&cache);
    return counts.forced;
}

/* Two keys of 16 by 4 leave 16 by 8, as many pixels as 8 by 16 has: both are forced to go. What a trim evicts isn't forced. */
static void evictions_are_forced(void) {
    guillotiere_cache cache = GUILLOTIERE_NONE;
    const guillotiere_cache_options options = {{16, 16}, {16, 16}, 1, 0, GUILLOTIERE_DEFAULT_OPTIONS};
    guillotiere_counts counts;
    CHECK(forced_by(0, 16, 12) == 1 && forced_by(0, 16, 13) == 0); /* 192 and 208 pixels */
    CHECK(forced_by(1, 14, 10) == 1 && forced_by(1, 14, 11) == 0); /* the same with the border; 154 without */
    make(&options, &cache);
    for (uint64_t key = 1; key < 3; key++) inserted(&cache, key, 16, 4);
    CHECK(guillotiere_cache_begin_frame(&cache) == GUILLOTIERE_DONE);
    inserted(&cache, 3, 8, 16);
    CHECK(guillotiere_cache_statistics(&cache, &counts) == GUILLOTIERE_DONE && counts.evictions == 2 && counts.forced == 2);
    CHECK(guillotiere_cache_trim(&cache, 0) == GUILLOTIERE_DONE);
    CHECK(guillotiere_cache_statistics(&cache, &counts) == GUILLOTIERE_DONE && counts.evictions == 3 && counts.forced == 2);
    guillotiere_cache_free(&cache);
}

/* What lies on the last page moves to the page before it, 64 pixels in each call; then the page goes. */
static void a_page_is_emptied(void) {
    guillotiere_cache cache = GUILLOTIERE_NONE;
    const guillotiere_cache_options options = {{16, 16}, {16, 16}, 2, 0, GUILLOTIERE_DEFAULT_OPTIONS};
    make(&options, &cache);
    guillotiere_place place;
    guillotiere_cache_change change;
    uint64_t moved = 77;
    inserted(&cache, 1, 16, 8);
    inserted(&cache, 2, 16, 8);
    for (uint64_t key = 3; key < 5; key++) inserted(&cache, key, 8, 8);
    CHECK(guillotiere_cache_remove(&cache, 2, &place) == GUILLOTIERE_DONE);
    while (guillotiere_cache_next_change(&cache, &change) == GUILLOTIERE_DONE) CHECK(change.kind == GUILLOTIERE_PAGE_ADDED);
    CHECK(guillotiere_cache_compact(&cache, 63, &moved) == GUILLOTIERE_DONE && moved == 0);
    for (uint64_t key = 4; key > 2; key--) {
        CHECK(guillotiere_cache_peek(&cache, key, &place) == GUILLOTIERE_DONE && place.page == 1);
        CHECK(guillotiere_cache_compact(&cache, 100, &moved) == GUILLOTIERE_DONE && moved == 64);
        CHECK(guillotiere_cache_next_change(&cache, &change) == GUILLOTIERE_DONE && change.kind == GUILLOTIERE_MOVED);
        CHECK(change.key == key && same_place(&change.from, &place) && change.to.page == 0);
        CHECK(change.to.rectangle.min_x == (key == 4 ? 0 : 8) && change.to.rectangle.min_y == 8);
    }
    CHECK(guillotiere_cache_shrink(&cache) == GUILLOTIERE_DONE);
    CHECK(guillotiere_cache_next_change(&cache, &change) == GUILLOTIERE_DONE && change.kind == GUILLOTIERE_PAGE_REMOVED);
    CHECK(guillotiere_cache_peek(&cache, 3, &place) == GUILLOTIERE_DONE && place.page == 0);
    guillotiere_cache_free(&cache);
}

/* Pages come and grow; the key that was used longest ago gives way; then what is left goes by a trim. */
static void a_life(void) {
    guillotiere_cache cache = GUILLOTIERE_NONE;
    make(&two_pages, &cache);
    guillotiere_place none = {7, 7, {7, 7, 7, 7}, {7, 7, 7, 7}}, place = none;
    guillotiere_counts counts;
    CHECK(guillotiere_cache_begin_frame(&cache) == GUILLOTIERE_DONE);
    const guillotiere_place seven = inserted(&cache, 7, 16, 16);
    told_page(&cache, GUILLOTIERE_PAGE_ADDED, 0, 16, 16);
    told_nothing(&cache);
    const guillotiere_place eight = inserted(&cache, 8, 16, 16);
    CHECK(eight.page == 0 && are_apart(&seven.rectangle, &eight.rectangle));
    told_page(&cache, GUILLOTIERE_PAGE_GROWN, 0, 16, 32);
    const guillotiere_place nine = inserted(&cache, 9, 16, 32);
    told_page(&cache, GUILLOTIERE_PAGE_ADDED, 1, 16, 16);
    told_page(&cache, GUILLOTIERE_PAGE_GROWN, 1, 16, 32);
    check_figures(&cache, 3, 2);

    /* This frame uses all of them, and so nothing gives way. */
    CHECK(guillotiere_cache_insert(&cache, 10, 1, 1, &place) == GUILLOTIERE_FRAME_FULL && same_place(&place, &none));
    CHECK(guillotiere_cache_insert(&cache, 10, 17, 1, &place) == GUILLOTIERE_NEVER_FITS && same_place(&place, &none));
    CHECK(guillotiere_cache_insert(&cache, 7, 16, 15, &place) == GUILLOTIERE_OTHER_SIZE && same_place(&place, &none));
    CHECK(guillotiere_cache_insert(&cache, 7, 16, 0, &place) == GUILLOTIERE_OTHER_SIZE && same_place(&place, &none));
    CHECK(guillotiere_cache_insert(&cache, 7, 16, 16, &place) == GUILLOTIERE_HELD && same_place(&place, &seven));
    told_nothing(&cache);

    /* 7 is used in the next frame, so 8 was used longest ago. */
    CHECK(guillotiere_cache_begin_frame(&cache) == GUILLOTIERE_DONE);
    CHECK(guillotiere_cache_get(&cache, 7, &place) == GUILLOTIERE_DONE && same_place(&place, &seven));
    const guillotiere_place ten = inserted(&cache, 10, 16, 16);
    CHECK(same_place(&ten, &eight));
    told_evicted(&cache, 8, &eight);
    CHECK(guillotiere_cache_get(&cache, 8, &place) == GUILLOTIERE_NOT_HELD);
    CHECK(guillotiere_cache_statistics(&cache, &counts) == GUILLOTIERE_DONE);
    CHECK(counts.hits == 2 && counts.misses == 1); /* 7 by an insertion and by a get */
    CHECK(counts.evictions == 1 && counts.forced == 0); /* both pages were full */

    CHECK(guillotiere_cache_remove(&cache, 9, &place) == GUILLOTIERE_DONE && same_place(&place, &nine));
    CHECK(guillotiere_cache_remove(&cache, 9, &place) == GUILLOTIERE_NOT_HELD);
    CHECK(guillotiere_cache_peek(&cache, 9, &place) == GUILLOTIERE_NOT_HELD);
    CHECK(guillotiere_cache_peek(&cache, 10, &place) == GUILLOTIERE_DONE && same_place(&place, &ten));
    CHECK(guillotiere_cache_trim(&cache, 1) == GUILLOTIERE_DONE);
    told_nothing(&cache);
    CHECK(guillotiere_cache_begin_frame(&cache) == GUILLOTIERE_DONE);
    CHECK(guillotiere_cache_trim(&cache, 1) == GUILLOTIERE_DONE);
    told_evicted(&cache, 7, &seven);
    told_evicted(&cache, 10, &ten);
    told_nothing(&cache);

    /* 11 comes on the first page, so the second one goes; after a clearing that one goes too. */
    inserted(&cache, 11, 16, 32);
    CHECK(guillotiere_cache_shrink(&cache) == GUILLOTIERE_DONE);
    told_page(&cache, GUILLOTIERE_PAGE_REMOVED, 1, 0, 0);
    told_nothing(&cache);
    CHECK(guillotiere_cache_clear(&cache) == GUILLOTIERE_DONE);
    check_figures(&cache, 0, 1);
    told_nothing(&cache);
    uint32_t pages = 7;
    CHECK(guillotiere_cache_shrink(&cache) == GUILLOTIERE_DONE);
    told_page(&cache, GUILLOTIERE_PAGE_REMOVED, 0, 0, 0);
    told_nothing(&cache);
    CHECK(guillotiere_cache_page_count(&cache, &pages) == GUILLOTIERE_DONE && pages == 0);
    guillotiere_cache_free(&cache);
}

/* A copy has the same keys, places and changes that wait, and a life of its own. */
static void a_copy(void) {
    guillotiere_cache cache = GUILLOTIERE_NONE, copy = GUILLOTIERE_NONE;
    guillotiere_place place;
    guillotiere_counts counts;
    uint64_t key = 0;
    make(&two_pages, &cache);
    const guillotiere_place seven = inserted(&cache, 7, 16, 32), eight = inserted(&cache, 8, 16, 32);
    told_page(&cache, GUILLOTIERE_PAGE_ADDED, 0, 16, 16);
    CHECK(guillotiere_cache_get(&cache, 7, &place) == GUILLOTIERE_DONE);
    CHECK(guillotiere_cache_clone(&cache, &copy) == GUILLOTIERE_DONE);
    CHECK(guillotiere_cache_clone(&cache, &copy) == GUILLOTIERE_OCCUPIED);
    check_figures(&copy, 2, 2);
    guillotiere_cache *const each[] = {&copy, &cache};
    for (size_t i = 0; i < 2; i++) {
        told_page(each[i], GUILLOTIERE_PAGE_GROWN, 0, 16, 32);
        told_page(each[i], GUILLOTIERE_PAGE_ADDED, 1, 16, 16);
        told_page(each[i], GUILLOTIERE_PAGE_GROWN, 1, 16, 32);
        told_nothing(each[i]);
        CHECK(guillotiere_cache_peek(each[i], 7, &place) == GUILLOTIERE_DONE && same_place(&place, &seven));
        CHECK(guillotiere_cache_statistics(each[i], &counts) == GUILLOTIERE_DONE && counts.hits == 1);
        CHECK(guillotiere_cache_newest(each[i], &key, &place) == GUILLOTIERE_DONE && key == 7);
        /* 8 was used longest ago, in both. */
        CHECK(guillotiere_cache_begin_frame(each[i]) == GUILLOTIERE_DONE);
        inserted(each[i], 9, 16, 32);
        told_evicted(each[i], 8, &eight);
        CHECK(guillotiere_cache_remove(each[i], 7, &place) == GUILLOTIERE_DONE && same_place(&place, &seven));
    }
    guillotiere_cache_free(&cache);
    check_figures(&copy, 1, 2);
    guillotiere_cache_free(&copy);
}

static void told_areas(const guillotiere_cache *cache, uint32_t page, uint64_t allocated, uint64_t free) {
    guillotiere_areas areas = {7, 7};
    CHECK(guillotiere_cache_areas(cache, page, &areas) == GUILLOTIERE_DONE);
    CHECK(areas.allocated == allocated && areas.free == free);
}

static void told_unusable(const guillotiere_cache *cache, int32_t width, int32_t height, uint64_t wanted) {
    uint64_t area = 7;
    CHECK(guillotiere_cache_unusable_area(cache, 0, width, height, &area) == GUILLOTIERE_DONE && area == wanted);
}

/* Of a page of 16 by 16 the upper half is taken: the lower one, 16 by 8, is free, and has no room for what is higher or wider
 * than it with a pixel round it. */
static void unusable_area(void) {
    guillotiere_cache_options with = two_pages;
    guillotiere_cache cache = GUILLOTIERE_NONE;
    uint64_t area = 7;
    with.largest_page = with.page;
    with.padding = 1;
    make(&with, &cache);
    CHECK(guillotiere_cache_unusable_area(&cache, 0, 1, 1, &area) == GUILLOTIERE_NO_PAGE && area == 7);
    inserted(&cache, 1, 14, 6);
    told_unusable(&cache, 14, 6, 0);
    told_unusable(&cache, 15, 6, 128);
    told_unusable(&cache, 14, 7, 128);
    told_unusable(&cache, INT32_MAX, INT32_MIN, 128);
    told_unusable(&cache, INT32_MIN, INT32_MIN, 0);
    CHECK(guillotiere_cache_unusable_area(&cache, 1, 1, 1, &area) == GUILLOTIERE_NO_PAGE && area == 7);
    /* Beside a key of 14 by 13 with a pixel round it 16 by 1 is free, too little for a size of 0 with a pixel round it. */
    CHECK(guillotiere_cache_clear(&cache) == GUILLOTIERE_DONE);
    inserted(&cache, 1, 14, 13);
    told_unusable(&cache, 0, 0, 16);
    told_unusable(&cache, -1, INT32_MIN, 16);
    guillotiere_cache_free(&cache);
}

/* What a cache knows of itself: the keys in the order of their use, the areas of its pages, and its options. */
static void what_it_knows(void) {
    guillotiere_cache_options with = two_pages, told;
    guillotiere_cache cache = GUILLOTIERE_NONE;
    with.padding = 1;
    with.atlas.small_size_threshold = 5;
    make(&with, &cache);
    guillotiere_areas areas = {7, 7};
    guillotiere_place place = {7, 7, {7, 7, 7, 7}, {7, 7, 7, 7}};
    uint64_t key = 77;
    CHECK(guillotiere_cache_options_of(&cache, &told) == GUILLOTIERE_DONE && memcmp(&told, &with, sizeof told) == 0);
    CHECK(guillotiere_cache_newest(&cache, &key, &place) == GUILLOTIERE_NOT_HELD);
    CHECK(guillotiere_cache_oldest(&cache, &key, &place) == GUILLOTIERE_NOT_HELD);
    CHECK(guillotiere_cache_older(&cache, 1, &key, &place) == GUILLOTIERE_NOT_HELD && key == 77 && place.number == 7);
    CHECK(guillotiere_cache_areas(&cache, 0, &areas) == GUILLOTIERE_NO_PAGE && areas.free == 7);
    CHECK(guillotiere_cache_reserve(&cache, 100) == GUILLOTIERE_DONE);
    CHECK(guillotiere_cache_reserve(&cache, SIZE_MAX) == GUILLOTIERE_MEMORY);

    /* With their borders they take 6 by 6, 16 by 8 and 4 by 4 pixels; the first page grows to 16 by 32, which is enough. */
    const guillotiere_place one = inserted(&cache, 1, 4, 4), two = inserted(&cache, 2, 14, 6);
    const guillotiere_place three = inserted(&cache, 3, 2, 2);
    guillotiere_size size;
    CHECK(guillotiere_cache_page_size(&cache, 0, &size) == GUILLOTIERE_DONE);
    told_areas(&cache, 0, 36 + 128 + 16, (uint64_t)(size.width * size.height - 36 - 128 - 16));
    CHECK(guillotiere_cache_get(&cache, 1, &place) == GUILLOTIERE_DONE);
    CHECK(guillotiere_cache_newest(&cache, &key, &place) == GUILLOTIERE_DONE && key == 1 && same_place(&place, &one));
    CHECK(guillotiere_cache_older(&cache, 1, &key, &place) == GUILLOTIERE_DONE && key == 3 && same_place(&place, &three));
    CHECK(guillotiere_cache_older(&cache, 3, &key, &place) == GUILLOTIERE_DONE && key == 2 && same_place(&place, &two));
    CHECK(guillotiere_cache_older(&cache, 2, &key, &place) == GUILLOTIERE_NOT_HELD && key == 2);
    CHECK(guillotiere_cache_oldest(&cache, &key, &place) == GUILLOTIERE_DONE && key == 2 && same_place(&place, &two));
    CHECK(guillotiere_cache_remove(&cache, 2, &place) == GUILLOTIERE_DONE);
    told_areas(&cache, 0, 36 + 16, (uint64_t)(size.width * size.height - 36 - 16));
    CHECK(guillotiere_cache_oldest(&cache, &key, &place) == GUILLOTIERE_DONE && key == 3);
    guillotiere_cache_free(&cache);
}

/* Changes that wait are handed over once and in their order, also where an insert comes between. */
static void waiting_changes(void) {
    guillotiere_cache cache = GUILLOTIERE_NONE;
    make(&two_pages, &cache);
    inserted(&cache, 1, 16, 32);
    told_page(&cache, GUILLOTIERE_PAGE_ADDED, 0, 16, 16);
    inserted(&cache, 2, 16, 32);
    CHECK(guillotiere_cache_clear(&cache) == GUILLOTIERE_DONE);
    told_page(&cache, GUILLOTIERE_PAGE_GROWN, 0, 16, 32);
    told_page(&cache, GUILLOTIERE_PAGE_ADDED, 1, 16, 16);
    told_page(&cache, GUILLOTIERE_PAGE_GROWN, 1, 16, 32);
    told_nothing(&cache);
    guillotiere_cache_free(&cache);
}

enum { KEYS = 60, CALLS = 20000, MOST_PAGES = 3 };

/* What a caller knows who follows the changes: the place of each key that is held, and the sizes of the pages. */
typedef struct {
    bool held[KEYS];
    guillotiere_place places[KEYS];
    guillotiere_size sizes[MOST_PAGES];
    uint32_t pages;
} picture;

static uint32_t below(uint32_t bound) {
    static uint32_t state = 1;
    state = state * 1664525u + 1013904223u;
    return (state >> 8) % bound;
}

static void follow(guillotiere_cache *cache, picture *known) {
    guillotiere_cache_change change;
    while (guillotiere_cache_next_change(cache, &change) == GUILLOTIERE_DONE) {
        if (change.kind == GUILLOTIERE_EVICTED || change.kind == GUILLOTIERE_MOVED) {
            CHECK(change.key < KEYS && known->held[change.key] && same_place(&change.from, &known->places[change.key]));
            known->held[change.key] = change.kind == GUILLOTIERE_MOVED;
            if (change.kind == GUILLOTIERE_MOVED) known->places[change.key] = change.to;
        } else {
            CHECK(change.kind == GUILLOTIERE_PAGE_ADDED || change.kind == GUILLOTIERE_PAGE_GROWN);
            if (change.kind == GUILLOTIERE_PAGE_ADDED) CHECK(change.page == known->pages++);
            CHECK(change.page < known->pages && known->pages <= MOST_PAGES);
            known->sizes[change.page] = change.size;
        }
    }
}

/* Each key that is held has a number of its own, below as many as there were keys at once. */
static void check_numbers(guillotiere_cache *cache, const picture *known) {
    bool taken[KEYS] = {false};
    uint32_t numbers = 0;
    CHECK(guillotiere_cache_numbers(cache, &numbers) == GUILLOTIERE_DONE && numbers <= KEYS);
    for (uint64_t key = 0; key < KEYS; key++) {
        if (!known->held[key]) continue;
        const uint32_t number = known->places[key].number;
        CHECK(number < numbers && !taken[number]);
        taken[number] = true;
    }
}

static void check_known(guillotiere_cache *cache, const picture *known) {
    for (uint64_t key = 0; key < KEYS; key++) {
        guillotiere_place place;
        const uint32_t status = guillotiere_cache_peek(cache, key, &place);
        CHECK(status == (known->held[key] ? GUILLOTIERE_DONE : GUILLOTIERE_NOT_HELD));
        if (!known->held[key]) continue;
        const guillotiere_size *const page = &known->sizes[place.page];
        CHECK(same_place(&place, &known->places[key]) && place.page < known->pages);
        CHECK(place.rectangle.max_x <= page->width && place.rectangle.max_y <= page->height);
        for (uint64_t other = 0; other < key; other++)
            CHECK(!known->held[other] || known->places[other].page != place.page ||
                  are_apart(&place.rectangle, &known->places[other].rectangle));
    }
}

static void random_session(void) {
    const guillotiere_cache_options options = {{64, 64}, {128, 96}, MOST_PAGES, 1, GUILLOTIERE_DEFAULT_OPTIONS};
    guillotiere_cache cache = GUILLOTIERE_NONE;
    make(&options, &cache);
    static picture known;
    for (int i = 0; i < CALLS; i++) {
        const uint32_t key = below(KEYS);
        const uint32_t what = below(40);
        guillotiere_place place;
        uint32_t status = GUILLOTIERE_DONE;
        if (what == 0) status = guillotiere_cache_begin_frame(&cache);
        if (what == 1) status = guillotiere_cache_trim(&cache, below(4));
        if (what == 3) status = guillotiere_cache_repack(&cache, below(MOST_PAGES));
        if (what == 3 && status == GUILLOTIERE_NO_PAGE) status = GUILLOTIERE_DONE;
        if (what == 2 && guillotiere_cache_remove(&cache, key, &place) == GUILLOTIERE_DONE) known.held[key] = false;
        const int32_t width = 9 + (int32_t)key % 30, height = 40 - (int32_t)key % 31;
        if (what > 3) status = guillotiere_cache_insert(&cache, key, width, height, &place);
        follow(&cache, &known);
        const bool is_held = what > 3 && known.held[key];
        const bool is_full = what > 3 && !is_held && status == GUILLOTIERE_FRAME_FULL;
        CHECK(status == (is_held ? GUILLOTIERE_HELD : GUILLOTIERE_DONE) || is_full);
        if (what > 3 && !is_full) {
            CHECK(!is_held || same_place(&place, &known.places[key]));
            known.held[key] = true;
            known.places[key] = place;
        }
        if (i % 50 == 0) check_known(&cache, &known);
        check_numbers(&cache, &known);
    }
    check_known(&cache, &known);
    CHECK(known.pages == MOST_PAGES);
    guillotiere_cache_free(&cache);
}

/* Each status has a text, by a function of the library, which others than C can call too; 26 is none. */
static void texts(void) {
    const char *(*const text)(uint32_t) = guillotiere_status_text;
    const char *const none = guillotiere_status_text(GUILLOTIERE_OCCUPIED + 1);
    CHECK(strcmp(none, "no status") == 0 && strcmp(text(GUILLOTIERE_DONE), "done") == 0);
    CHECK(strcmp(text(GUILLOTIERE_SHORT), "an array is too short") == 0 && strcmp(text(4294967295u), "no status") == 0);
    for (uint32_t status = GUILLOTIERE_DONE; status <= GUILLOTIERE_OCCUPIED; status++)
        CHECK((strcmp(guillotiere_status_text(status), none) != 0) == (status != 26));
}

/* The header is that of the library. */
static void versions(void) {
    CHECK(guillotiere_version() == GUILLOTIERE_VERSION);
    CHECK(GUILLOTIERE_VERSION == 7000 && GUILLOTIERE_VERSION_MINOR == 7);
    CHECK(guillotiere_interface() == GUILLOTIERE_INTERFACE && GUILLOTIERE_INTERFACE == 3);
}

/* The default options: a page of 512, which grows to 2048, and a border of 1. */
static void default_options(void) {
    const guillotiere_cache_options options = GUILLOTIERE_DEFAULT_CACHE_OPTIONS;
    guillotiere_cache cache = GUILLOTIERE_NONE;
    guillotiere_place place;
    guillotiere_size size;
    CHECK(guillotiere_cache_new(&options, &cache) == GUILLOTIERE_DONE);
    CHECK(guillotiere_cache_insert(&cache, 1, 10, 20, &place) == GUILLOTIERE_DONE);
    CHECK(place.rectangle.max_x - place.rectangle.min_x == 12 && place.inner.min_x - place.rectangle.min_x == 1);
    CHECK(guillotiere_cache_page_size(&cache, 0, &size) == GUILLOTIERE_DONE && size.width == 512 && size.height == 512);
    CHECK(guillotiere_cache_insert(&cache, 2, 2047, 1, &place) == GUILLOTIERE_NEVER_FITS);
    CHECK(guillotiere_cache_insert(&cache, 2, 2046, 2046, &place) == GUILLOTIERE_DONE);
    guillotiere_cache_free(&cache);
}

int main(void) {
    texts();
    versions();
    default_options();
    bad_options();
    empty_handles();
    a_blank_key();
    a_batch_ends();
    evictions_are_forced();
    a_page_is_emptied();
    a_life();
    a_copy();
    a_key_moves();
    all_keys_stay();
    what_it_knows();
    unusable_area();
    waiting_changes();
    random_session();
    return 0;
}
