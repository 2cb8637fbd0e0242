/* A cache of glyphs: each frame draws some, and one that isn't in the atlas yet gets a box there. Where there is no room
 * the glyph that was drawn longest ago gives way. */
#include <guillotiere.h>

#include <stdio.h>

enum { GLYPHS = 400, FRAMES = 300, EACH_FRAME = 40 };

typedef struct {
    bool is_kept;
    int last_frame;
    guillotiere_allocation place;
} glyph;

static glyph glyphs[GLYPHS];

static uint32_t below(uint32_t bound) {
    static uint32_t state = 1;
    state = state * 1664525u + 1013904223u;
    return (state >> 8) % bound;
}

/* The kept glyph that was drawn longest ago; GLYPHS if none is kept. */
static int oldest(void) {
    int found = GLYPHS;
    for (int i = 0; i < GLYPHS; i++)
        if (glyphs[i].is_kept && (found == GLYPHS || glyphs[i].last_frame < glyphs[found].last_frame)) found = i;
    return found;
}

/* Sees to it that a glyph is in the atlas. */
static uint32_t keep(guillotiere_atlas *atlas, int key) {
    glyph *wanted = &glyphs[key];
    if (wanted->is_kept) return GUILLOTIERE_DONE;
    for (;;) {
        uint32_t status = guillotiere_atlas_allocate(atlas, 8 + key % 25, 8 + key % 17, &wanted->place);
        if (status == GUILLOTIERE_DONE) wanted->is_kept = true;
        if (status != GUILLOTIERE_NO_ROOM) return status;
        int gives_way = oldest();
        if (gives_way == GLYPHS) return status;
        status = guillotiere_atlas_deallocate(atlas, glyphs[gives_way].place.id);
        if (status != GUILLOTIERE_DONE) return status;
        glyphs[gives_way].is_kept = false;
    }
}

int main(void) {
    guillotiere_atlas atlas = GUILLOTIERE_NONE;
    uint32_t status = guillotiere_atlas_new(256, 256, &atlas);
    for (int frame = 0; frame < FRAMES && status == GUILLOTIERE_DONE; frame++)
        for (int i = 0; i < EACH_FRAME && status == GUILLOTIERE_DONE; i++) {
            int key = (int)below(GLYPHS);
            status = keep(&atlas, key);
            glyphs[key].last_frame = frame;
        }
    guillotiere_areas areas = {0, 0};
    if (status == GUILLOTIERE_DONE) status = guillotiere_atlas_areas(&atlas, &areas);
    guillotiere_atlas_free(&atlas);
    if (status != GUILLOTIERE_DONE) {
        fprintf(stderr, "status %u\n", (unsigned)status);
        return 1;
    }
    printf("%u of %u unit squares are glyphs\n", (unsigned)areas.allocated, (unsigned)(areas.allocated + areas.free));
    return 0;
}
