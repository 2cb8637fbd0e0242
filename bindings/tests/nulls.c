/* The null pointers that are as others: those of arrays of length 0, and those that say that something isn't wanted. What each other
 * null pointer is answered stands in a program that null_pointers.py writes. */
#include "check.h"

static void arrays_of_length_0(void) {
    const guillotiere_sheet_options options = GUILLOTIERE_DEFAULT_SHEET_OPTIONS;
    guillotiere_atlas atlas = GUILLOTIERE_NONE;
    guillotiere_change_count moved = {8, 9};
    guillotiere_size size;
    size_t count = 5;
    CHECK(guillotiere_atlas_new(64, 64, &atlas) == GUILLOTIERE_DONE);
    CHECK(guillotiere_atlas_live(&atlas, NULL, 0, &count) == GUILLOTIERE_DONE && count == 0);
    CHECK(guillotiere_atlas_free_boxes(&atlas, NULL, 0, &count) == GUILLOTIERE_DONE && count == 1);
    CHECK(guillotiere_atlas_deallocate_all(&atlas, NULL, 0) == GUILLOTIERE_DONE);
    CHECK(guillotiere_atlas_rearrange(&atlas, NULL, 0, NULL, 0, &moved) == GUILLOTIERE_SHORT && moved.changes == 8);
    CHECK(guillotiere_pack(NULL, 0, &options, NULL, 0, &size, NULL) == GUILLOTIERE_DONE);
    CHECK(guillotiere_pack_pages(NULL, 0, &options, NULL, 0, NULL, 0, &count, NULL) == GUILLOTIERE_DONE && count == 0);
    guillotiere_atlas_free(&atlas);
}

/* The place of a key that is removed. */
static void of_a_cache(void) {
    guillotiere_cache cache = GUILLOTIERE_NONE;
    const guillotiere_cache_options options = {{64, 64}, {64, 64}, 1, 0, GUILLOTIERE_DEFAULT_OPTIONS};
    guillotiere_place place;
    CHECK(guillotiere_cache_new(&options, &cache) == GUILLOTIERE_DONE);
    CHECK(guillotiere_cache_insert(&cache, 1, 9, 9, &place) == GUILLOTIERE_DONE);
    CHECK(guillotiere_cache_remove(&cache, 1, NULL) == GUILLOTIERE_DONE);
    CHECK(guillotiere_cache_remove(&cache, 1, NULL) == GUILLOTIERE_NOT_HELD);
    guillotiere_cache_free(&cache);
}

/* The number of a bad sprite. */
static void of_sheets(void) {
    const guillotiere_size sprites[2] = {{9, 9}, {5, 5}}, bad[2] = {{9, 9}, {0, 5}};
    const guillotiere_sheet_options options = GUILLOTIERE_DEFAULT_SHEET_OPTIONS;
    guillotiere_placed places[2];
    guillotiere_on_page on_pages[2];
    guillotiere_maybe_placed filled[2];
    guillotiere_size sizes[2];
    size_t count = 7;
    CHECK(guillotiere_pack(sprites, 2, &options, places, 2, sizes, NULL) == GUILLOTIERE_DONE);
    CHECK(guillotiere_pack(bad, 2, &options, places, 2, sizes, NULL) == GUILLOTIERE_EMPTY_SPRITE);
    CHECK(guillotiere_pack_dense(bad, 2, &options, places, 2, sizes, NULL) == GUILLOTIERE_EMPTY_SPRITE);
    CHECK(guillotiere_pack_pages(bad, 2, &options, on_pages, 2, sizes, 2, &count, NULL) == GUILLOTIERE_EMPTY_SPRITE);
    CHECK(guillotiere_pack_groups(bad, 2, NULL, 0, &options, on_pages, 2, sizes, 2, &count, NULL) == GUILLOTIERE_EMPTY_SPRITE);
    CHECK(guillotiere_fill(bad, 2, &options, filled, 2, &count, sizes, NULL) == GUILLOTIERE_EMPTY_SPRITE);
}

int main(void) {
    arrays_of_length_0();
    of_a_cache();
    of_sheets();
    return 0;
}
