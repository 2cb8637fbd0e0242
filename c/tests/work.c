/* Work whose instructions are counted, over two builds of the library: prints what was answered as one number.
 *
 *     work NAME COUNT
 *
 * glyph     requests of sides from 8 to 64 in a full atlas of 2048x2048, and where one has no room the freeing of a random box
 * column    boxes of one pixel, which fill an atlas, freed every second first
 * tiles     boxes of 32x32 in an atlas of 2048x2048, and once it is full the freeing of a random box before each request
 * cache     insertions of glyphs of 4,000 keys into a cache of two pages of 512x512, in frames of 200, with their changes
 * sheets    sheets of 40 sprites, packed into the smallest square with a second turn of effort */
#include <guillotiere.h>
#include <stdio.h>
#include <stdlib.h>
#include <string.h>

static uint64_t state = 1, sum;

static uint32_t below(uint32_t bound) {
    state = state * 6364136223846793005u + 1442695040888963407u;
    return (uint32_t)(state >> 33) % bound;
}

static void add(uint32_t word) { sum = (sum ^ word) * 1099511628211u; }

/* Frees one of the boxes, which the last one then replaces. */
static uint32_t free_one(guillotiere_atlas *atlas, uint32_t *ids, uint32_t *count) {
    uint32_t at = below(*count), status = guillotiere_atlas_deallocate(atlas, ids[at]);
    ids[at] = ids[--*count];
    return status;
}

/* Requests of sides from `least` to `most`; a random box makes room for one that has none. */
static uint32_t full_atlas(uint32_t calls, uint32_t *ids, uint32_t least, uint32_t most) {
    guillotiere_atlas atlas = GUILLOTIERE_NONE;
    guillotiere_allocation granted;
    uint32_t i, count = 0, status = guillotiere_atlas_new(2048, 2048, &atlas);
    for (i = 0; i < calls && status == GUILLOTIERE_DONE; i++) {
        int32_t width = (int32_t)(least + below(most - least + 1)), height = (int32_t)(least + below(most - least + 1));
        while ((status = guillotiere_atlas_allocate(&atlas, width, height, &granted)) == GUILLOTIERE_NO_ROOM && count > 0) {
            i++;
            status = free_one(&atlas, ids, &count);
            if (status != GUILLOTIERE_DONE) break;
        }
        if (status != GUILLOTIERE_DONE) break;
        ids[count++] = granted.id;
        add(granted.id);
        add((uint32_t)(granted.rectangle.min_x * 65536 + granted.rectangle.min_y));
    }
    guillotiere_atlas_free(&atlas);
    return status;
}

static uint32_t column(uint32_t rows, uint32_t *ids) {
    guillotiere_atlas atlas = GUILLOTIERE_NONE;
    guillotiere_allocation granted;
    uint32_t i, first, status = guillotiere_atlas_new(1, (int32_t)rows, &atlas);
    for (i = 0; i < rows && status == GUILLOTIERE_DONE; i++) {
        status = guillotiere_atlas_allocate(&atlas, 1, 1, &granted);
        ids[i] = granted.id;
        add((uint32_t)granted.rectangle.min_y);
    }
    for (first = 0; first < 2; first++)
        for (i = first; i < rows && status == GUILLOTIERE_DONE; i += 2) status = guillotiere_atlas_deallocate(&atlas, ids[i]);
    add(guillotiere_atlas_is_empty(&atlas));
    guillotiere_atlas_free(&atlas);
    return status;
}

/* Hands over all changes that wait. */
static void follow(guillotiere_cache *cache) {
    guillotiere_cache_change change;
    while (guillotiere_cache_next_change(cache, &change) == GUILLOTIERE_DONE) add(change.kind);
}

static uint32_t cache_of_glyphs(uint32_t calls) {
    guillotiere_cache_options options = GUILLOTIERE_DEFAULT_CACHE_OPTIONS;
    guillotiere_cache cache = GUILLOTIERE_NONE;
    guillotiere_place place;
    uint32_t i, status;
    options.largest_page = options.page;
    options.pages = 2;
    status = guillotiere_cache_new(&options, &cache);
    for (i = 0; i < calls && status == GUILLOTIERE_DONE; i++) {
        uint32_t key = below(below(4000) + 1);
        if (i % 200 == 0) guillotiere_cache_begin_frame(&cache);
        status = guillotiere_cache_insert(&cache, key, 8 + (int32_t)(key % 25), 8 + (int32_t)(key % 17), &place);
        follow(&cache);
        if (status == GUILLOTIERE_HELD) status = GUILLOTIERE_DONE;
        if (status == GUILLOTIERE_DONE) add(place.number);
    }
    guillotiere_cache_free(&cache);
    return status;
}

static uint32_t sheets(uint32_t count) {
    guillotiere_sheet_options options = GUILLOTIERE_DEFAULT_SHEET_OPTIONS;
    guillotiere_size sprites[40], size;
    guillotiere_placed placed[40];
    uint32_t i, each, status = GUILLOTIERE_DONE;
    options.effort = 20;
    for (i = 0; i < count && status == GUILLOTIERE_DONE; i++) {
        size_t bad;
        for (each = 0; each < 40; each++) {
            sprites[each].width = 4 + (int32_t)below(60);
            sprites[each].height = 4 + (int32_t)below(60);
        }
        status = guillotiere_pack(sprites, 40, &options, placed, 40, &size, &bad);
        if (status == GUILLOTIERE_DONE) add((uint32_t)(size.width + placed[39].area.min_x));
    }
    return status;
}

int main(int words, char **word) {
    uint32_t count = words == 3 ? (uint32_t)strtoul(word[2], NULL, 10) : 0, status = GUILLOTIERE_BAD_CALL;
    uint32_t *ids = count ? malloc((count + 1u) * sizeof *ids) : NULL;
    if (ids == NULL) return 2;
    if (strcmp(word[1], "glyph") == 0) status = full_atlas(count, ids, 8, 64);
    else if (strcmp(word[1], "column") == 0) status = column(count, ids);
    else if (strcmp(word[1], "tiles") == 0) status = full_atlas(count, ids, 32, 32);
    else if (strcmp(word[1], "cache") == 0) status = cache_of_glyphs(count);
    else if (strcmp(word[1], "sheets") == 0) status = sheets(count);
    printf("%s %u: %016llx\n", word[1], count, (unsigned long long)sum);
    free(ids);
    return status == GUILLOTIERE_DONE ? 0 : 1;
}
