/* Calls that a careless caller makes: each is answered, and nothing changes. */
#include "check.h"

#include <string.h>

static const guillotiere_options defaults = GUILLOTIERE_DEFAULT_OPTIONS;

/* Handles that hold nothing. */
static void zero_handles(void) {
    guillotiere_atlas none = GUILLOTIERE_NONE, other = GUILLOTIERE_NONE;
    guillotiere_simple simple = GUILLOTIERE_NONE;
    guillotiere_paged paged = GUILLOTIERE_NONE;
    guillotiere_allocation granted = {5, {1, 2, 3, 4}};
    guillotiere_page_allocation on_page = {5, 6, {1, 2, 3, 4}};
    guillotiere_rectangle found = {1, 2, 3, 4};
    guillotiere_change change;
    guillotiere_change_count moved = {8, 9};
    guillotiere_size size = {6, 7};
    guillotiere_slots slots;
    guillotiere_areas areas;
    uint64_t area = 8;
    guillotiere_options options = {4, 5, 6, 7};
    uint32_t id = 0;
    size_t count = 3;
    CHECK(guillotiere_atlas_allocate(&none, 1, 1, &granted) == GUILLOTIERE_EMPTY && granted.id == 5);
    CHECK(guillotiere_atlas_deallocate(&none, 0) == GUILLOTIERE_EMPTY);
    CHECK(guillotiere_atlas_deallocate_all(&none, &id, 1) == GUILLOTIERE_EMPTY);
    CHECK(guillotiere_atlas_get(&none, 0, &found) == GUILLOTIERE_EMPTY && found.max_y == 4);
    CHECK(!guillotiere_atlas_can_fit(&none, 1, 1) && guillotiere_atlas_reserve(&none, 0) == GUILLOTIERE_EMPTY);
    CHECK(guillotiere_atlas_grow(&none, 5, 5) == GUILLOTIERE_EMPTY && !guillotiere_atlas_can_grow_to(&none, 5, 5));
    CHECK(guillotiere_atlas_clear(&none) == GUILLOTIERE_EMPTY);
    CHECK(guillotiere_atlas_reset(&none, 5, 5, &defaults) == GUILLOTIERE_EMPTY);
    CHECK(guillotiere_atlas_rearrange(&none, &change, 1, &granted, 1, &moved) == GUILLOTIERE_EMPTY && moved.failures == 9);
    CHECK(guillotiere_atlas_resize_and_rearrange(&none, 5, 5, &change, 1, &granted, 1, &moved) == GUILLOTIERE_EMPTY);
    CHECK(guillotiere_atlas_size(&none, &size) == GUILLOTIERE_EMPTY && size.width == 6);
    CHECK(guillotiere_atlas_options(&none, &options) == GUILLOTIERE_EMPTY && options.large_size_threshold == 7);
    CHECK(guillotiere_atlas_slots(&none, &slots) == GUILLOTIERE_EMPTY);
    CHECK(guillotiere_atlas_areas(&none, &areas) == GUILLOTIERE_EMPTY);
    CHECK(guillotiere_atlas_unusable_area(&none, 1, 1, &area) == GUILLOTIERE_EMPTY && area == 8);
    CHECK(guillotiere_atlas_largest_free(&none, &found) == GUILLOTIERE_EMPTY && found.max_y == 4);
    CHECK(guillotiere_atlas_live(&none, &granted, 1, &count) == GUILLOTIERE_EMPTY && count == 3);
    CHECK(guillotiere_atlas_free_boxes(&none, &found, 1, &count) == GUILLOTIERE_EMPTY && count == 3);
    CHECK(guillotiere_atlas_clone(&none, &other) == GUILLOTIERE_EMPTY && other.at == NULL);
    CHECK(guillotiere_atlas_is_empty(&none));
    guillotiere_atlas_free(&none);
    CHECK(guillotiere_simple_allocate(&simple, 1, 1, &found) == GUILLOTIERE_EMPTY);
    CHECK(guillotiere_simple_grow(&simple, 5, 5) == GUILLOTIERE_EMPTY && !guillotiere_simple_can_grow_to(&simple, 5, 5));
    CHECK(guillotiere_simple_clear(&simple) == GUILLOTIERE_EMPTY);
    CHECK(guillotiere_simple_reset(&simple, 5, 5, &defaults) == GUILLOTIERE_EMPTY);
    CHECK(guillotiere_simple_init_from_allocator(&simple, &none) == GUILLOTIERE_EMPTY);
    CHECK(guillotiere_simple_size(&simple, &size) == GUILLOTIERE_EMPTY && size.width == 6);
    CHECK(guillotiere_simple_options(&simple, &options) == GUILLOTIERE_EMPTY && options.alignment_width == 4);
    CHECK(guillotiere_simple_slots(&simple, &slots) == GUILLOTIERE_EMPTY);
    CHECK(guillotiere_simple_is_empty(&simple));
    guillotiere_simple_free(&simple);
    CHECK(guillotiere_paged_allocate(&paged, 1, 1, &on_page) == GUILLOTIERE_EMPTY && on_page.page == 5 && on_page.id == 6);
    CHECK(guillotiere_paged_deallocate(&paged, 0, 0) == GUILLOTIERE_EMPTY);
    CHECK(guillotiere_paged_get(&paged, 0, 0, &found) == GUILLOTIERE_EMPTY && found.max_y == 4);
    CHECK(guillotiere_paged_grow(&paged, 0, 5, 5) == GUILLOTIERE_EMPTY && guillotiere_paged_clear(&paged) == GUILLOTIERE_EMPTY);
    CHECK(guillotiere_paged_shrink(&paged, &id) == GUILLOTIERE_EMPTY && guillotiere_paged_page_count(&paged, &id) == GUILLOTIERE_EMPTY);
    CHECK(id == 0 && guillotiere_paged_page_size(&paged, 0, &size) == GUILLOTIERE_EMPTY && size.width == 6);
    CHECK(guillotiere_paged_areas(&paged, 0, &areas) == GUILLOTIERE_EMPTY);
    CHECK(guillotiere_paged_live(&paged, 0, &granted, 1, &count) == GUILLOTIERE_EMPTY && count == 3);
    guillotiere_paged_free(&paged);
}

/* Handles that hold an allocator already, and handles after a freeing. */
static void filled_handles(void) {
    guillotiere_atlas atlas = GUILLOTIERE_NONE, copy = GUILLOTIERE_NONE;
    guillotiere_simple simple = GUILLOTIERE_NONE;
    guillotiere_allocation granted;
    CHECK(guillotiere_atlas_new(64, 64, &atlas) == GUILLOTIERE_DONE);
    CHECK(guillotiere_atlas_new(64, 64, &atlas) == GUILLOTIERE_OCCUPIED);
    CHECK(guillotiere_atlas_with_options(64, 64, &defaults, &atlas) == GUILLOTIERE_OCCUPIED);
    CHECK(guillotiere_atlas_with_slot_limit(64, 64, &defaults, 1, &atlas) == GUILLOTIERE_OCCUPIED);
    CHECK(guillotiere_atlas_clone(&atlas, &copy) == GUILLOTIERE_DONE);
    CHECK(guillotiere_atlas_clone(&atlas, &copy) == GUILLOTIERE_OCCUPIED);
    guillotiere_atlas_free(&atlas);
    CHECK(atlas.at == NULL && guillotiere_atlas_allocate(&atlas, 1, 1, &granted) == GUILLOTIERE_EMPTY);
    guillotiere_atlas_free(&atlas);
    CHECK(guillotiere_atlas_allocate(&copy, 64, 64, &granted) == GUILLOTIERE_DONE);
    guillotiere_atlas_free(&copy);
    CHECK(guillotiere_simple_new(64, 64, &simple) == GUILLOTIERE_DONE);
    CHECK(guillotiere_simple_new(64, 64, &simple) == GUILLOTIERE_OCCUPIED);
    CHECK(guillotiere_simple_with_options(64, 64, &defaults, &simple) == GUILLOTIERE_OCCUPIED);
    CHECK(guillotiere_simple_init_from_allocator(&simple, &copy) == GUILLOTIERE_EMPTY);
    CHECK(!guillotiere_atlas_new(64, 64, &copy) && !guillotiere_simple_init_from_allocator(&simple, &copy));
    guillotiere_atlas_free(&copy);
    guillotiere_simple_free(&simple);
    guillotiere_simple_free(&simple);
    CHECK(simple.at == NULL);
}

static const int32_t numbers[] = {INT32_MIN, INT32_MIN + 1, -65536, -1, 0, 1, 2, 46341, 65536, INT32_MAX - 1, INT32_MAX};
enum { NUMBERS = sizeof numbers / sizeof *numbers };

/* Sides of both signs, everywhere a size is given. */
static void sides(void) {
    for (int i = 0; i < NUMBERS; i++)
        for (int k = 0; k < NUMBERS; k++) {
            const int32_t width = numbers[i], height = numbers[k];
            const bool is_size = width > 0 && height > 0;
            guillotiere_atlas atlas = GUILLOTIERE_NONE;
            guillotiere_simple simple = GUILLOTIERE_NONE;
            guillotiere_allocation granted, failures[8];
            guillotiere_rectangle taken;
            guillotiere_change changes[8];
            guillotiere_change_count moved;
            uint32_t status = guillotiere_atlas_new(width, height, &atlas);
            CHECK(status == (is_size ? GUILLOTIERE_DONE : GUILLOTIERE_BAD_CALL) && (atlas.at != NULL) == is_size);
            guillotiere_atlas_free(&atlas);
            CHECK(guillotiere_simple_new(width, height, &simple) == status);
            guillotiere_simple_free(&simple);
            CHECK(guillotiere_atlas_new(100, 100, &atlas) == GUILLOTIERE_DONE);
            CHECK(guillotiere_simple_new(100, 100, &simple) == GUILLOTIERE_DONE);
            const bool fits = is_size && width <= 100 && height <= 100;
            CHECK(guillotiere_atlas_can_fit(&atlas, width, height) == fits);
            status = guillotiere_atlas_allocate(&atlas, width, height, &granted);
            CHECK(status == (fits ? GUILLOTIERE_DONE : GUILLOTIERE_NO_ROOM));
            CHECK(guillotiere_simple_allocate(&simple, width, height, &taken) == status);
            status = guillotiere_atlas_resize_and_rearrange(&atlas, width, height, changes, 8, failures, 8, &moved);
            CHECK(status == (is_size ? GUILLOTIERE_DONE : GUILLOTIERE_BAD_CALL));
            CHECK(guillotiere_atlas_reset(&atlas, 100, 100, &defaults) == GUILLOTIERE_DONE);
            const bool grows = width >= 100 && height >= 100;
            CHECK(guillotiere_atlas_can_grow_to(&atlas, width, height) == grows);
            CHECK(guillotiere_simple_can_grow_to(&simple, width, height) == grows);
            CHECK(guillotiere_atlas_grow(&atlas, width, height) == (grows ? GUILLOTIERE_DONE : GUILLOTIERE_BAD_CALL));
            CHECK(guillotiere_simple_grow(&simple, width, height) == (grows ? GUILLOTIERE_DONE : GUILLOTIERE_BAD_CALL));
            status = guillotiere_atlas_reset(&atlas, width, height, &defaults);
            CHECK(status == (is_size ? GUILLOTIERE_DONE : GUILLOTIERE_BAD_CALL));
            CHECK(guillotiere_simple_reset(&simple, width, height, &defaults) == status);
            guillotiere_atlas_free(&atlas);
            guillotiere_simple_free(&simple);
        }
}

/* Both allocators tell the options that they were made with, and after a reset those of the reset. */
static void told_options(const guillotiere_options *wanted) {
    guillotiere_atlas atlas = GUILLOTIERE_NONE;
    guillotiere_simple simple = GUILLOTIERE_NONE;
    guillotiere_options told;
    CHECK(guillotiere_atlas_with_options(64, 64, wanted, &atlas) == GUILLOTIERE_DONE);
    CHECK(guillotiere_atlas_options(&atlas, &told) == GUILLOTIERE_DONE && memcmp(&told, wanted, sizeof told) == 0);
    CHECK(guillotiere_atlas_reset(&atlas, 64, 64, &defaults) == GUILLOTIERE_DONE);
    CHECK(guillotiere_atlas_options(&atlas, &told) == GUILLOTIERE_DONE && memcmp(&told, &defaults, sizeof told) == 0);
    CHECK(guillotiere_simple_with_options(64, 64, wanted, &simple) == GUILLOTIERE_DONE);
    CHECK(guillotiere_simple_options(&simple, &told) == GUILLOTIERE_DONE && memcmp(&told, wanted, sizeof told) == 0);
    CHECK(guillotiere_simple_init_from_allocator(&simple, &atlas) == GUILLOTIERE_DONE);
    CHECK(guillotiere_simple_options(&simple, &told) == GUILLOTIERE_DONE && memcmp(&told, &defaults, sizeof told) == 0);
    guillotiere_atlas_free(&atlas);
    guillotiere_simple_free(&simple);
}

/* Options and limits, good and bad. */
static void options(void) {
    for (int i = 0; i < NUMBERS; i++)
        for (int k = 0; k < NUMBERS; k++) {
            const guillotiere_options aligned = {numbers[i], numbers[k], 32, 256};
            const guillotiere_options tested = {1, 1, numbers[i], numbers[k]};
            const bool are_positive = numbers[i] > 0 && numbers[k] > 0, are_ordered = numbers[i] <= numbers[k];
            guillotiere_atlas atlas = GUILLOTIERE_NONE;
            guillotiere_allocation granted;
            uint32_t status = guillotiere_atlas_with_options(64, 64, &aligned, &atlas);
            CHECK(status == (are_positive ? GUILLOTIERE_DONE : GUILLOTIERE_BAD_CALL));
            if (status == GUILLOTIERE_DONE) {
                told_options(&aligned);
                const bool fits = numbers[i] <= 64 && numbers[k] <= 64;
                CHECK(guillotiere_atlas_allocate(&atlas, 1, 1, &granted) == (fits ? GUILLOTIERE_DONE : GUILLOTIERE_NO_ROOM));
            }
            guillotiere_atlas_free(&atlas);
            status = guillotiere_atlas_with_options(64, 64, &tested, &atlas);
            CHECK(status == (are_ordered ? GUILLOTIERE_DONE : GUILLOTIERE_BAD_CALL));
            if (status == GUILLOTIERE_DONE) {
                told_options(&tested);
                CHECK(guillotiere_atlas_allocate(&atlas, 9, 9, &granted) == GUILLOTIERE_DONE);
            }
            guillotiere_atlas_free(&atlas);
        }
    const uint32_t limits[] = {0, 1, 16777216, 16777217, UINT32_MAX};
    for (int i = 0; i < 5; i++) {
        const bool is_limit = i == 1 || i == 2;
        guillotiere_atlas atlas = GUILLOTIERE_NONE;
        const uint32_t status = guillotiere_atlas_with_slot_limit(64, 64, &defaults, limits[i], &atlas);
        CHECK(status == (is_limit ? GUILLOTIERE_DONE : GUILLOTIERE_BAD_CALL));
        guillotiere_atlas_free(&atlas);
    }
}

/* Slots in reserve, up to the limit and beyond it. Of 100 slots a new atlas uses one. */
static void reserves(void) {
    guillotiere_atlas atlas = GUILLOTIERE_NONE;
    guillotiere_slots before, after;
    CHECK(guillotiere_atlas_with_slot_limit(64, 64, &defaults, 100, &atlas) == GUILLOTIERE_DONE);
    CHECK(guillotiere_atlas_slots(&atlas, &before) == GUILLOTIERE_DONE && before.used == 1);
    CHECK(guillotiere_atlas_reserve(&atlas, 0) == GUILLOTIERE_DONE);
    CHECK(guillotiere_atlas_reserve(&atlas, 99) == GUILLOTIERE_DONE);
    CHECK(guillotiere_atlas_reserve(&atlas, 99) == GUILLOTIERE_DONE);
    CHECK(guillotiere_atlas_reserve(&atlas, 100) == GUILLOTIERE_SLOTS);
    CHECK(guillotiere_atlas_reserve(&atlas, UINT32_MAX) == GUILLOTIERE_SLOTS);
    CHECK(guillotiere_atlas_slots(&atlas, &after) == GUILLOTIERE_DONE && memcmp(&before, &after, sizeof after) == 0);
    CHECK(guillotiere_atlas_is_empty(&atlas));
    guillotiere_atlas_free(&atlas);
}

/* A limit on slots, ids that are forged or freed, and arrays that are too short. */
static void slots_ids_and_arrays(void) {
    guillotiere_atlas atlas = GUILLOTIERE_NONE;
    guillotiere_allocation granted, before;
    guillotiere_rectangle found = {9, 9, 9, 9};
    guillotiere_slots slots;
    guillotiere_change changes[8];
    guillotiere_allocation lists[8];
    guillotiere_change_count moved = {70, 70};
    size_t count = 0;
    CHECK(guillotiere_atlas_with_slot_limit(64, 64, &defaults, 5, &atlas) == GUILLOTIERE_DONE);
    CHECK(guillotiere_atlas_allocate(&atlas, 10, 10, &granted) == GUILLOTIERE_DONE);
    before = granted;
    CHECK(guillotiere_atlas_allocate(&atlas, 3, 3, &granted) == GUILLOTIERE_SLOTS);
    CHECK(memcmp(&before, &granted, sizeof granted) == 0);
    CHECK(guillotiere_atlas_grow(&atlas, 100, 100) == GUILLOTIERE_SLOTS);
    CHECK(guillotiere_atlas_slots(&atlas, &slots) == GUILLOTIERE_DONE && slots.limit == 5 && slots.used <= 5);
    for (uint32_t id = 0; id < 100000; id++) {
        const uint32_t forged = id * 42949u;
        if (forged == granted.id) continue;
        CHECK(guillotiere_atlas_deallocate(&atlas, forged) == GUILLOTIERE_NOT_LIVE);
        CHECK(guillotiere_atlas_get(&atlas, forged, &found) == GUILLOTIERE_NOT_LIVE && found.min_x == 9);
    }
    CHECK(guillotiere_atlas_rearrange(&atlas, changes, slots.used - 1, lists, 8, &moved) == GUILLOTIERE_SHORT);
    CHECK(guillotiere_atlas_rearrange(&atlas, changes, 8, lists, slots.used - 1, &moved) == GUILLOTIERE_SHORT);
    CHECK(moved.changes == 70 && guillotiere_atlas_get(&atlas, granted.id, &found) == GUILLOTIERE_DONE);
    memset(lists, 0x55, sizeof lists);
    const guillotiere_allocation untouched = lists[0];
    CHECK(guillotiere_atlas_live(&atlas, lists, 0, &count) == GUILLOTIERE_DONE && count == 1);
    CHECK(memcmp(&untouched, &lists[0], sizeof untouched) == 0);
    CHECK(guillotiere_atlas_live(&atlas, lists, 8, &count) == GUILLOTIERE_DONE && lists[0].id == granted.id);
    CHECK(memcmp(&untouched, &lists[1], sizeof untouched) == 0);
    CHECK(guillotiere_atlas_deallocate_all(&atlas, &granted.id, 0) == GUILLOTIERE_DONE);
    const uint32_t twice[] = {granted.id, granted.id};
    CHECK(guillotiere_atlas_deallocate_all(&atlas, twice, 2) == GUILLOTIERE_NOT_LIVE);
    CHECK(guillotiere_atlas_deallocate_all(&atlas, twice, 1) == GUILLOTIERE_DONE);
    CHECK(guillotiere_atlas_deallocate_all(&atlas, twice, 1) == GUILLOTIERE_NOT_LIVE);
    guillotiere_atlas_free(&atlas);
}

/* What may overlap in C: a parameter by value read from where the result goes, and an `options` in static memory. */
static void aliases(void) {
    guillotiere_atlas atlas = GUILLOTIERE_NONE;
    guillotiere_allocation place;
    guillotiere_size size;
    CHECK(guillotiere_atlas_with_options(64, 64, &defaults, &atlas) == GUILLOTIERE_DONE);
    CHECK(guillotiere_atlas_allocate(&atlas, 10, 10, &place) == GUILLOTIERE_DONE);
    CHECK(guillotiere_atlas_get(&atlas, place.id, &place.rectangle) == GUILLOTIERE_DONE);
    CHECK(guillotiere_atlas_allocate(&atlas, place.rectangle.max_x, place.rectangle.max_y, &place) == GUILLOTIERE_DONE);
    CHECK(guillotiere_atlas_size(&atlas, &size) == GUILLOTIERE_DONE);
    CHECK(guillotiere_atlas_grow(&atlas, size.width + size.width, size.height) == GUILLOTIERE_DONE);
    check_tiled(&atlas);
    guillotiere_atlas_free(&atlas);
}

int main(void) {
    zero_handles();
    filled_handles();
    sides();
    options();
    reserves();
    slots_ids_and_arrays();
    aliases();
    return 0;
}
