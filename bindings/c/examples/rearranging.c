/* Sprites of a batcher, in one atlas that is rearranged where a request has no room though much is free: a copy is rearranged, and takes
 * the atlas's place only if each sprite found room in it. Each sprite's pixels have its number, and at the end all are looked at. */
#include <guillotiere.h>

#include <stdio.h>
#include <stdlib.h>
#include <string.h>

enum { SIDE = 256, SPRITES = 400, REQUESTS = 20000 };

typedef struct {
    bool is_live;
    guillotiere_allocation box;
} sprite;

static sprite sprites[SPRITES];
static uint16_t texture[SIDE][SIDE], before[SIDE][SIDE];

static uint32_t below(uint32_t bound) {
    static uint32_t state = 1;
    state = state * 1664525u + 1013904223u;
    return (state >> 8) % bound;
}

/* Rearranges an atlas, and loses no box: a copy is rearranged, and takes the atlas's place where all that is live found room. If not, it
 * answers NO_ROOM, and the atlas is as it was. The caller frees `*changes`, of which there are `*count`. */
static uint32_t rearrange_all(guillotiere_atlas *atlas, guillotiere_change **changes, size_t *count) {
    guillotiere_atlas copy = GUILLOTIERE_NONE;
    guillotiere_change_count told = {0, 0};
    guillotiere_slots slots = {0, 0, 0};
    uint32_t status = guillotiere_atlas_slots(atlas, &slots);
    guillotiere_allocation *failures = malloc((slots.used + 1) * sizeof *failures);
    *changes = malloc((slots.used + 1) * sizeof **changes);
    if (status == GUILLOTIERE_DONE && (*changes == NULL || failures == NULL)) status = GUILLOTIERE_MEMORY;
    if (status == GUILLOTIERE_DONE) status = guillotiere_atlas_clone(atlas, &copy);
    if (status == GUILLOTIERE_DONE)
        status = guillotiere_atlas_rearrange(&copy, *changes, slots.used, failures, slots.used, &told);
    if (status == GUILLOTIERE_DONE && told.failures > 0) status = GUILLOTIERE_NO_ROOM;
    if (status == GUILLOTIERE_DONE) {
        guillotiere_atlas_free(atlas);
        *atlas = copy; /* moved: the copy isn't used again */
    } else {
        guillotiere_atlas_free(&copy);
    }
    *count = told.changes;
    free(failures);
    return status;
}

/* Writes a sprite's number into each of its pixels. */
static void paint(int number) {
    const guillotiere_rectangle *box = &sprites[number].box.rectangle;
    for (int32_t y = box->min_y; y < box->max_y; y++)
        for (int32_t x = box->min_x; x < box->max_x; x++) texture[y][x] = (uint16_t)number;
}

static int sprite_of(uint32_t id) {
    for (int i = 0; i < SPRITES; i++)
        if (sprites[i].is_live && sprites[i].box.id == id) return i;
    return SPRITES;
}

/* Follows what a rearrangement moved: each sprite gets its new id and place, and its pixels are copied out of the texture as it was. */
static bool follow(const guillotiere_change *changes, size_t count) {
    int numbers[SPRITES];
    memcpy(before, texture, sizeof texture);
    if (count > SPRITES) return false;
    for (size_t i = 0; i < count; i++) /* all former ids first: a new one may be the former one of another */
        if ((numbers[i] = sprite_of(changes[i].before.id)) == SPRITES) return false;
    for (size_t i = 0; i < count; i++) {
        const guillotiere_rectangle *from = &changes[i].before.rectangle, *to = &changes[i].after.rectangle;
        const size_t width = (size_t)(to->max_x - to->min_x);
        for (int32_t y = 0; y < to->max_y - to->min_y; y++)
            memcpy(&texture[to->min_y + y][to->min_x], &before[from->min_y + y][from->min_x], width * sizeof texture[0][0]);
        sprites[numbers[i]].box = changes[i].after;
    }
    return true;
}

/* Whether each live sprite is live in the atlas, where it was noted, with its own pixels. */
static bool are_whole(const guillotiere_atlas *atlas) {
    for (int i = 0; i < SPRITES; i++) {
        guillotiere_rectangle found, *box = &sprites[i].box.rectangle;
        if (!sprites[i].is_live) continue;
        if (guillotiere_atlas_get(atlas, sprites[i].box.id, &found) != GUILLOTIERE_DONE) return false;
        if (memcmp(&found, box, sizeof found) != 0) return false;
        for (int32_t y = box->min_y; y < box->max_y; y++)
            for (int32_t x = box->min_x; x < box->max_x; x++)
                if (texture[y][x] != i) return false;
    }
    return true;
}

/* Frees a sprite, or gives it a place: where there is none, once more after a rearrangement. */
static uint32_t change(guillotiere_atlas *atlas, int number, int *done, int *refused) {
    sprite *it = &sprites[number];
    guillotiere_change *changes = NULL;
    size_t count = 0;
    if (it->is_live) {
        it->is_live = false;
        return guillotiere_atlas_deallocate(atlas, it->box.id);
    }
    const int32_t width = 4 + (int32_t)below(29), height = 4 + (int32_t)below(29);
    uint32_t status = guillotiere_atlas_allocate(atlas, width, height, &it->box);
    if (status == GUILLOTIERE_NO_ROOM) {
        status = rearrange_all(atlas, &changes, &count);
        *done += status == GUILLOTIERE_DONE;
        *refused += status == GUILLOTIERE_NO_ROOM;
        if (status == GUILLOTIERE_DONE && !follow(changes, count)) return GUILLOTIERE_NOT_LIVE;
        free(changes);
        if (status == GUILLOTIERE_DONE) status = guillotiere_atlas_allocate(atlas, width, height, &it->box);
        if (status == GUILLOTIERE_NO_ROOM) return GUILLOTIERE_DONE; /* this sprite is drawn without the atlas, and none was lost */
    }
    if (status == GUILLOTIERE_DONE) {
        it->is_live = true;
        paint(number);
    }
    return status;
}

int main(void) {
    guillotiere_atlas atlas = GUILLOTIERE_NONE;
    int done = 0, refused = 0;
    uint32_t status = guillotiere_atlas_new(SIDE, SIDE, &atlas);
    for (int i = 0; i < REQUESTS && status == GUILLOTIERE_DONE; i++) status = change(&atlas, (int)below(SPRITES), &done, &refused);
    const bool is_good = status == GUILLOTIERE_DONE && are_whole(&atlas);
    guillotiere_atlas_free(&atlas);
    printf("%d rearrangements, %d that would have lost sprites, %s\n", done, refused, is_good ? "none lost" : "FAULT");
    return is_good ? 0 : 1;
}
