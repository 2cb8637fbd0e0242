/* What the tests in C share. */
#ifndef CHECK_H
#define CHECK_H

#include <guillotiere.h>

#include <stdio.h>
#include <stdlib.h>

/* Ends the program at the first condition that fails. */
#define CHECK(condition)                                                                                               \
    do {                                                                                                               \
        if (!(condition)) {                                                                                            \
            fprintf(stderr, "%s:%d: %s\n", __FILE__, __LINE__, #condition);                                           \
            exit(1);                                                                                                   \
        }                                                                                                              \
    } while (0)

static inline int64_t area_of(const guillotiere_rectangle *r) {
    return (int64_t)(r->max_x - r->min_x) * (r->max_y - r->min_y);
}

static inline bool are_apart(const guillotiere_rectangle *a, const guillotiere_rectangle *b) {
    return a->max_x <= b->min_x || b->max_x <= a->min_x || a->max_y <= b->min_y || b->max_y <= a->min_y;
}

static inline bool are_same(const guillotiere_rectangle *a, const guillotiere_rectangle *b) {
    return a->min_x == b->min_x && a->min_y == b->min_y && a->max_x == b->max_x && a->max_y == b->max_y;
}

/* How many slots an atlas uses: as many live and free boxes as there are at most. */
static inline size_t used_slots(guillotiere_atlas *atlas) {
    guillotiere_slots slots;
    CHECK(guillotiere_atlas_slots(atlas, &slots) == GUILLOTIERE_DONE);
    return slots.used;
}

static inline void *room_for(size_t count, size_t each) {
    void *const room = calloc(count + 1, each);
    CHECK(room != NULL);
    return room;
}

/* All live and free boxes, of which there are `count`; the caller frees them. */
static inline guillotiere_rectangle *all_boxes(guillotiere_atlas *atlas, size_t *count) {
    const size_t used = used_slots(atlas);
    guillotiere_allocation *const live = (guillotiere_allocation *)room_for(used, sizeof *live);
    guillotiere_rectangle *const boxes = (guillotiere_rectangle *)room_for(used, sizeof *boxes);
    size_t live_count = 0, free_count = 0;
    CHECK(guillotiere_atlas_live(atlas, live, used, &live_count) == GUILLOTIERE_DONE);
    CHECK(live_count <= used);
    for (size_t i = 0; i < live_count; i++) boxes[i] = live[i].rectangle;
    CHECK(guillotiere_atlas_free_boxes(atlas, boxes + live_count, used - live_count, &free_count) == GUILLOTIERE_DONE);
    CHECK(live_count + free_count <= used);
    free(live);
    *count = live_count + free_count;
    return boxes;
}

/* Live and free boxes tile the atlas: apart from one another, inside it, and as large together. */
static inline void check_tiled(guillotiere_atlas *atlas) {
    guillotiere_size size;
    guillotiere_areas areas;
    size_t count = 0;
    CHECK(guillotiere_atlas_size(atlas, &size) == GUILLOTIERE_DONE);
    CHECK(guillotiere_atlas_areas(atlas, &areas) == GUILLOTIERE_DONE);
    guillotiere_rectangle *const boxes = all_boxes(atlas, &count);
    int64_t covered = 0;
    for (size_t i = 0; i < count; i++) {
        const guillotiere_rectangle *const box = &boxes[i];
        CHECK(0 <= box->min_x && box->min_x < box->max_x && box->max_x <= size.width);
        CHECK(0 <= box->min_y && box->min_y < box->max_y && box->max_y <= size.height);
        for (size_t k = 0; k < i; k++) CHECK(are_apart(box, &boxes[k]));
        covered += area_of(box);
    }
    CHECK(covered == (int64_t)size.width * size.height);
    CHECK(areas.allocated + areas.free == (uint64_t)covered);
    free(boxes);
}

#endif
