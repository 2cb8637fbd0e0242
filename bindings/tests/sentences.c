/* What the header and the page say in passing, each sentence by one case that was worked out by hand. */
#include "check.h"

static const guillotiere_options defaults = GUILLOTIERE_DEFAULT_OPTIONS;

static guillotiere_cache cache_of(guillotiere_size page, guillotiere_size largest) {
    const guillotiere_cache_options options = {page, largest, 1, 0, GUILLOTIERE_DEFAULT_OPTIONS};
    guillotiere_cache cache = GUILLOTIERE_NONE;
    CHECK(guillotiere_cache_new(&options, &cache) == GUILLOTIERE_DONE);
    return cache;
}

static guillotiere_place inserted(guillotiere_cache *cache, uint64_t key, int32_t width, int32_t height) {
    guillotiere_place place;
    CHECK(guillotiere_cache_insert(cache, key, width, height, &place) == GUILLOTIERE_DONE);
    return place;
}

static guillotiere_cache_change next(guillotiere_cache *cache, uint32_t kind) {
    guillotiere_cache_change change;
    CHECK(guillotiere_cache_next_change(cache, &change) == GUILLOTIERE_DONE && change.kind == kind);
    return change;
}

static void no_more(guillotiere_cache *cache) {
    guillotiere_cache_change change;
    CHECK(guillotiere_cache_next_change(cache, &change) == GUILLOTIERE_NO_CHANGE);
}

static bool is_nothing(const guillotiere_rectangle *r) {
    return r->min_x == 0 && r->min_y == 0 && r->max_x == 0 && r->max_y == 0;
}

/* "Take all changes after each insertion, before its place or its number is noted": else a change of a key that came back drops it. */
static void changes_are_followed_at_once(void) {
    guillotiere_cache cache = cache_of((guillotiere_size){8, 4}, (guillotiere_size){8, 4});
    guillotiere_place place;
    const uint32_t one = inserted(&cache, 1, 4, 4).number, two = inserted(&cache, 2, 4, 4).number;
    next(&cache, GUILLOTIERE_PAGE_ADDED);
    no_more(&cache);
    CHECK(guillotiere_cache_begin_frame(&cache) == GUILLOTIERE_DONE);
    CHECK(inserted(&cache, 3, 4, 4).number == one && inserted(&cache, 1, 4, 4).number == two);
    const guillotiere_cache_change first = next(&cache, GUILLOTIERE_EVICTED), second = next(&cache, GUILLOTIERE_EVICTED);
    CHECK(first.key == 1 && first.from.number == one && second.key == 2 && second.from.number == two);
    CHECK(guillotiere_cache_peek(&cache, 1, &place) == GUILLOTIERE_DONE);
    guillotiere_cache_free(&cache);
}

/* "A page may grow between an insertion and the drawing": places stay in pixels, and not as parts of the page. */
static void a_page_grows_under_a_batch(void) {
    guillotiere_cache cache = cache_of((guillotiere_size){16, 16}, (guillotiere_size){32, 32});
    const guillotiere_place one = inserted(&cache, 1, 16, 16);
    guillotiere_place still;
    next(&cache, GUILLOTIERE_PAGE_ADDED);
    inserted(&cache, 2, 16, 16);
    CHECK(next(&cache, GUILLOTIERE_PAGE_GROWN).size.width == 32);
    CHECK(guillotiere_cache_peek(&cache, 1, &still) == GUILLOTIERE_DONE && are_same(&one.rectangle, &still.rectangle));
    guillotiere_cache_free(&cache);
}

/* "A blank key is on no page": its rectangles are 0, no repacking reports it, and no page stays for it. */
static void blank_keys_are_on_no_page(void) {
    guillotiere_cache cache = cache_of((guillotiere_size){8, 8}, (guillotiere_size){8, 8});
    guillotiere_place place = inserted(&cache, 1, 0, 5);
    CHECK(is_nothing(&place.rectangle) && is_nothing(&place.inner) && place.page == 0);
    CHECK(guillotiere_cache_insert(&cache, 1, 5, 0, &place) == GUILLOTIERE_OTHER_SIZE);
    place = inserted(&cache, 2, 4, 4);
    next(&cache, GUILLOTIERE_PAGE_ADDED);
    CHECK(guillotiere_cache_repack(&cache, 0) == GUILLOTIERE_DONE);
    CHECK(next(&cache, GUILLOTIERE_MOVED).key == 2);
    no_more(&cache);
    CHECK(guillotiere_cache_remove(&cache, 2, NULL) == GUILLOTIERE_DONE && guillotiere_cache_shrink(&cache) == GUILLOTIERE_DONE);
    next(&cache, GUILLOTIERE_PAGE_REMOVED);
    CHECK(guillotiere_cache_peek(&cache, 1, &place) == GUILLOTIERE_DONE && place.page == 0);
    guillotiere_cache_free(&cache);
}

/* "Take the changes that wait, then copy the page, then call": a second repacking moves keys from where the first one put them, so that
 * a copy made after both has the pixels of neither. */
static void a_repacking_is_followed_first(void) {
    guillotiere_cache cache = cache_of((guillotiere_size){16, 16}, (guillotiere_size){16, 16});
    const guillotiere_place before = inserted(&cache, 1, 4, 4);
    inserted(&cache, 2, 8, 8);
    next(&cache, GUILLOTIERE_PAGE_ADDED);
    CHECK(guillotiere_cache_repack(&cache, 0) == GUILLOTIERE_DONE && guillotiere_cache_repack(&cache, 0) == GUILLOTIERE_DONE);
    const guillotiere_cache_change larger = next(&cache, GUILLOTIERE_MOVED), first = next(&cache, GUILLOTIERE_MOVED);
    next(&cache, GUILLOTIERE_MOVED);
    const guillotiere_cache_change second = next(&cache, GUILLOTIERE_MOVED);
    no_more(&cache);
    CHECK(larger.key == 2 && first.key == 1 && second.key == 1);
    CHECK(are_same(&first.from.rectangle, &before.rectangle) && !are_same(&first.to.rectangle, &before.rectangle));
    CHECK(are_same(&second.from.rectangle, &first.to.rectangle));
    guillotiere_cache_free(&cache);
}

/* "Numbers of keys that are gone are given out again before new ones, which of them isn't said." */
static void numbers_come_again(void) {
    guillotiere_cache cache = cache_of((guillotiere_size){16, 4}, (guillotiere_size){16, 4});
    for (uint32_t key = 0; key < 3; key++) CHECK(inserted(&cache, key, 4, 4).number == key);
    CHECK(guillotiere_cache_remove(&cache, 0, NULL) == GUILLOTIERE_DONE && guillotiere_cache_remove(&cache, 1, NULL) == GUILLOTIERE_DONE);
    const uint32_t one = inserted(&cache, 10, 4, 4).number, other = inserted(&cache, 11, 4, 4).number;
    CHECK(one + other == 1 && (one == 0 || other == 0) && inserted(&cache, 12, 4, 4).number == 3);
    guillotiere_cache_free(&cache);
}

/* "OCCUPIED, before all others": before what is wrong with sides and options. */
static void an_occupied_handle_is_told_first(void) {
    guillotiere_atlas atlas = GUILLOTIERE_NONE;
    guillotiere_simple simple = GUILLOTIERE_NONE;
    CHECK(guillotiere_atlas_new(8, 8, &atlas) == GUILLOTIERE_DONE && guillotiere_simple_new(8, 8, &simple) == GUILLOTIERE_DONE);
    CHECK(guillotiere_atlas_new(0, 8, &atlas) == GUILLOTIERE_OCCUPIED && guillotiere_simple_new(0, 8, &simple) == GUILLOTIERE_OCCUPIED);
    CHECK(guillotiere_atlas_with_slot_limit(8, 8, &defaults, 0, &atlas) == GUILLOTIERE_OCCUPIED);
    guillotiere_atlas_free(&atlas);
    guillotiere_simple_free(&simple);
    guillotiere_cache cache = cache_of((guillotiere_size){8, 8}, (guillotiere_size){8, 8});
    const guillotiere_cache_options wrong = {{0, 0}, {0, 0}, 0, -1, {0, 0, 0, 0}};
    CHECK(guillotiere_cache_new(&wrong, &cache) == GUILLOTIERE_OCCUPIED);
    guillotiere_cache_free(&cache);
    CHECK(guillotiere_cache_new(&wrong, &cache) == GUILLOTIERE_EMPTY_PAGE);
}

/* "In a full atlas the next request of its size has it, after this one freeing." And "where the freed box joins with others, its slot is
 * taken anew for another box, and an id comes again once that has happened 256 times." And "after _clear, _reset, _rearrange ids begin
 * anew". */
static void an_id_comes_again_after(void) {
    guillotiere_atlas atlas = GUILLOTIERE_NONE;
    guillotiere_allocation first, last;
    uint32_t tile = 0, freed = 0;
    CHECK(guillotiere_atlas_new(32, 32, &atlas) == GUILLOTIERE_DONE);
    for (int i = 0; i < 16; i++) {
        CHECK(guillotiere_atlas_allocate(&atlas, 8, 8, &last) == GUILLOTIERE_DONE);
        if (i == 9) tile = last.id;
    }
    CHECK(guillotiere_atlas_deallocate(&atlas, tile) == GUILLOTIERE_DONE);
    CHECK(guillotiere_atlas_allocate(&atlas, 8, 8, &last) == GUILLOTIERE_DONE && last.id == tile);
    CHECK(guillotiere_atlas_clear(&atlas) == GUILLOTIERE_DONE);
    CHECK(guillotiere_atlas_allocate(&atlas, 20, 20, &first) == GUILLOTIERE_DONE);
    last = first;
    do {
        CHECK(guillotiere_atlas_deallocate(&atlas, last.id) == GUILLOTIERE_DONE);
        CHECK(guillotiere_atlas_allocate(&atlas, 20, 20, &last) == GUILLOTIERE_DONE);
        freed++;
    } while (last.id != first.id);
    CHECK(freed == 256);
    CHECK(guillotiere_atlas_deallocate(&atlas, last.id) == GUILLOTIERE_DONE);
    CHECK(guillotiere_atlas_allocate(&atlas, 20, 20, &last) == GUILLOTIERE_DONE && last.id != first.id);
    CHECK(guillotiere_atlas_reset(&atlas, 32, 32, &defaults) == GUILLOTIERE_DONE);
    CHECK(guillotiere_atlas_allocate(&atlas, 20, 20, &last) == GUILLOTIERE_DONE && last.id == first.id);
    guillotiere_atlas_free(&atlas);
}

/* "An id that was freed may be issued again, even by the next call." */
static void an_id_comes_again(void) {
    guillotiere_atlas atlas = GUILLOTIERE_NONE;
    guillotiere_allocation first, again;
    CHECK(guillotiere_atlas_with_options(64, 64, &defaults, &atlas) == GUILLOTIERE_DONE);
    CHECK(guillotiere_atlas_allocate(&atlas, 64, 64, &first) == GUILLOTIERE_DONE);
    CHECK(guillotiere_atlas_deallocate(&atlas, first.id) == GUILLOTIERE_DONE);
    CHECK(guillotiere_atlas_deallocate(&atlas, first.id) == GUILLOTIERE_NOT_LIVE);
    CHECK(guillotiere_atlas_allocate(&atlas, 64, 32, &again) == GUILLOTIERE_DONE && again.id == first.id);
    guillotiere_atlas_free(&atlas);
}

/* "With 4 by 4 and a padding of 1 a sprite of 1 by 1 needs a sheet of 5 by 5": the padding at its right and below comes after the
 * rounding. */
static void padding_comes_after_the_alignment(void) {
    guillotiere_sheet_options options = {GUILLOTIERE_ONE_SIZE, 4, 4, 0, 0, 1, 4, 4, 0, 0, 0};
    const guillotiere_size sprite = {1, 1};
    guillotiere_placed place;
    guillotiere_size size;
    CHECK(guillotiere_pack(&sprite, 1, &options, &place, 1, &size, NULL) == GUILLOTIERE_NO_ROOM);
    options.width = options.height = 5;
    CHECK(guillotiere_pack(&sprite, 1, &options, &place, 1, &size, NULL) == GUILLOTIERE_DONE);
    CHECK(place.area.min_x == 1 && place.area.min_y == 1 && place.area.max_x == 2 && place.area.max_y == 2);
}

/* "It may find a sheet where guillotiere_pack finds none": three sprites that fill 2 by 3 but for a pixel. And a sprite that
 * guillotiere_fill places nowhere has zeros. */
static void of_sheets(void) {
    const guillotiere_sheet_options options = {GUILLOTIERE_ONE_SIZE, 2, 3, 0, 0, 0, 1, 1, 0, 0, 0};
    const guillotiere_size sprites[3] = {{1, 1}, {1, 2}, {2, 1}}, two[2] = {{2, 3}, {1, 1}};
    guillotiere_placed places[3];
    guillotiere_maybe_placed filled[2] = {{7, {{7, 7, 7, 7}, 7}}, {7, {{7, 7, 7, 7}, 7}}};
    guillotiere_size size;
    size_t left;
    CHECK(guillotiere_pack(sprites, 3, &options, places, 3, &size, NULL) == GUILLOTIERE_NO_ROOM);
    CHECK(guillotiere_pack_dense(sprites, 3, &options, places, 3, &size, NULL) == GUILLOTIERE_DONE);
    CHECK(guillotiere_fill(two, 2, &options, filled, 2, &left, &size, NULL) == GUILLOTIERE_DONE && left == 1);
    CHECK(filled[1].is_placed == 0 && is_nothing(&filled[1].placed.area) && filled[1].placed.turned == 0);
}

int main(void) {
    changes_are_followed_at_once();
    a_page_grows_under_a_batch();
    blank_keys_are_on_no_page();
    a_repacking_is_followed_first();
    numbers_come_again();
    an_occupied_handle_is_told_first();
    an_id_comes_again_after();
    an_id_comes_again();
    padding_comes_after_the_alignment();
    of_sheets();
    return 0;
}
