/* Glyphs whose sizes are known only once they are drawn, which takes long: so a key is looked for before anything is drawn. What each
 * page shows of a glyph is compared with a drawing of it, in each frame. */
#include <guillotiere.h>

#include <stdio.h>
#include <stdlib.h>
#include <string.h>

enum { SIDE = 256, FRAMES = 200, EACH_FRAME = 60, KEYS = 900, MOST = 24 };

typedef struct {
    int32_t width, height;
    uint8_t pixels[MOST * MOST];
} drawing;

static uint8_t pages[2][SIDE][SIDE];
static int drawings;

static uint32_t below(uint32_t bound) {
    static uint32_t state = 1;
    state = state * 1664525u + 1013904223u;
    return (state >> 8) % bound;
}

/* What a rasterizer does: the sides come with the pixels. Key 0 is a space, which has none. */
static void draw(uint64_t key, drawing *drawn) {
    drawings++;
    drawn->width = key == 0 ? 0 : 4 + (int32_t)(key * 7 % 21);
    drawn->height = key == 0 ? 0 : 4 + (int32_t)(key * 13 % 21);
    for (int32_t i = 0; i < drawn->width * drawn->height; i++) drawn->pixels[i] = (uint8_t)(1 + (key + (uint64_t)i) % 255);
}

/* Writes a new glyph into its page: its pixels, and cleared ones around them. */
static void write_page(const guillotiere_place *place, const drawing *drawn) {
    const guillotiere_rectangle *whole = &place->rectangle, *inner = &place->inner;
    for (int32_t y = whole->min_y; y < whole->max_y; y++)
        memset(&pages[place->page][y][whole->min_x], 0, (size_t)(whole->max_x - whole->min_x));
    for (int32_t y = 0; y < drawn->height; y++)
        memcpy(&pages[place->page][inner->min_y + y][inner->min_x], &drawn->pixels[y * drawn->width], (size_t)drawn->width);
}

/* Hands over all changes. The pages are there from the start, and their sides stay: no change has anything to do here. */
static void follow(guillotiere_cache *cache) {
    guillotiere_cache_change change;
    while (guillotiere_cache_next_change(cache, &change) == GUILLOTIERE_DONE) continue;
}

/* The place of a glyph. It is drawn only where it isn't held, since only the drawing says its size. */
static uint32_t find_glyph(guillotiere_cache *cache, uint64_t key, guillotiere_place *place) {
    drawing drawn;
    uint32_t status = guillotiere_cache_get(cache, key, place);
    if (status != GUILLOTIERE_NOT_HELD) return status; /* DONE: it has been used in this frame now */
    draw(key, &drawn);
    status = guillotiere_cache_insert(cache, key, drawn.width, drawn.height, place);
    follow(cache); /* after each insertion */
    if (status == GUILLOTIERE_DONE && drawn.width > 0) write_page(place, &drawn);
    return status;
}

static bool is_shown(const guillotiere_place *place, uint64_t key) {
    drawing drawn;
    draw(key, &drawn);
    drawings--;
    if (place->inner.max_x - place->inner.min_x != drawn.width || place->inner.max_y - place->inner.min_y != drawn.height) return false;
    for (int32_t y = 0; y < drawn.height; y++) {
        const uint8_t *row = &pages[place->page][place->inner.min_y + y][place->inner.min_x];
        if (memcmp(row, &drawn.pixels[y * drawn.width], (size_t)drawn.width) != 0) return false;
    }
    return true;
}

/* One frame: its glyphs are found, and then all are drawn. */
static bool frame(guillotiere_cache *cache) {
    static uint64_t keys[EACH_FRAME];
    static guillotiere_place places[EACH_FRAME];
    if (guillotiere_cache_begin_frame(cache) != GUILLOTIERE_DONE) return false;
    for (int i = 0; i < EACH_FRAME; i++) {
        keys[i] = below(below(KEYS) + 1);
        if (find_glyph(cache, keys[i], &places[i]) != GUILLOTIERE_DONE) return false;
    }
    for (int i = 0; i < EACH_FRAME; i++)
        if (!is_shown(&places[i], keys[i])) return false;
    return true;
}

int main(void) {
    guillotiere_cache_options options = GUILLOTIERE_DEFAULT_CACHE_OPTIONS;
    guillotiere_cache cache = GUILLOTIERE_NONE;
    guillotiere_counts counts = {0, 0, 0, 0};
    options.page = options.largest_page = (guillotiere_size){SIDE, SIDE};
    options.pages = 2;
    bool is_good = guillotiere_cache_new(&options, &cache) == GUILLOTIERE_DONE;
    for (int i = 0; i < FRAMES && is_good; i++) is_good = frame(&cache);
    is_good = is_good && guillotiere_cache_statistics(&cache, &counts) == GUILLOTIERE_DONE;
    guillotiere_cache_free(&cache);
    is_good = is_good && counts.misses == (uint64_t)drawings && counts.hits + counts.misses == (uint64_t)FRAMES * EACH_FRAME;
    printf("%d of %d glyphs were drawn, %s\n", drawings, FRAMES * EACH_FRAME, is_good ? "and all were shown" : "FAULT");
    return is_good ? 0 : 1;
}
