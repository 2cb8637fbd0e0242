/* A random session of as many calls as the argument says, held beside a list of what is live. */
#include "check.h"

enum { MOST = 600 };

static guillotiere_allocation held[MOST];
static size_t held_count;

static uint32_t below(uint32_t bound) {
    static uint64_t state = 12345;
    state = state * 6364136223846793005u + 1442695040888963407u;
    return (uint32_t)(state >> 33) % bound;
}

static void allocate(guillotiere_atlas *atlas) {
    const int32_t width = 1 + (int32_t)below(90), height = 1 + (int32_t)below(90);
    guillotiere_allocation granted;
    const bool fits = guillotiere_atlas_can_fit(atlas, width, height);
    const uint32_t status = guillotiere_atlas_allocate(atlas, width, height, &granted);
    CHECK(status == (fits ? GUILLOTIERE_DONE : GUILLOTIERE_NO_ROOM));
    if (status == GUILLOTIERE_NO_ROOM) return;
    CHECK(granted.rectangle.max_x - granted.rectangle.min_x == width);
    CHECK(granted.rectangle.max_y - granted.rectangle.min_y == height);
    held[held_count++] = granted;
}

static void deallocate(guillotiere_atlas *atlas) {
    const size_t at = below((uint32_t)held_count);
    const uint32_t id = held[at].id;
    guillotiere_rectangle found;
    CHECK(guillotiere_atlas_get(atlas, id, &found) == GUILLOTIERE_DONE && are_same(&found, &held[at].rectangle));
    CHECK(guillotiere_atlas_deallocate(atlas, id) == GUILLOTIERE_DONE);
    CHECK(guillotiere_atlas_deallocate(atlas, id) == GUILLOTIERE_NOT_LIVE);
    CHECK(guillotiere_atlas_get(atlas, id, &found) == GUILLOTIERE_NOT_LIVE);
    held[at] = held[--held_count];
}

/* Frees some of the list at once, after a list with one of them twice was refused. */
static void deallocate_some(guillotiere_atlas *atlas) {
    uint32_t ids[17];
    size_t count = 0;
    for (; count < 16 && count < held_count; count++) ids[count] = held[held_count - 1 - count].id;
    ids[count] = ids[0];
    CHECK(count == 0 || guillotiere_atlas_deallocate_all(atlas, ids, count + 1) == GUILLOTIERE_NOT_LIVE);
    CHECK(guillotiere_atlas_deallocate_all(atlas, ids, count) == GUILLOTIERE_DONE);
    held_count -= count;
}

/* A copy is equal, and what is done with it isn't done with the atlas. */
static void copy_and_clear(guillotiere_atlas *atlas) {
    guillotiere_atlas copy = GUILLOTIERE_NONE;
    CHECK(guillotiere_atlas_clone(atlas, &copy) == GUILLOTIERE_DONE);
    guillotiere_allocation here, there;
    const uint32_t status = guillotiere_atlas_allocate(&copy, 33, 44, &there);
    for (size_t i = 0; i < held_count; i++)
        CHECK(guillotiere_atlas_deallocate(&copy, held[i].id) == GUILLOTIERE_DONE);
    CHECK(guillotiere_atlas_is_empty(&copy) == (status != GUILLOTIERE_DONE));
    CHECK(guillotiere_atlas_clear(&copy) == GUILLOTIERE_DONE && guillotiere_atlas_is_empty(&copy));
    guillotiere_atlas_free(&copy);
    CHECK(guillotiere_atlas_allocate(atlas, 33, 44, &here) == status);
    if (status != GUILLOTIERE_DONE) return;
    CHECK(here.id == there.id && are_same(&here.rectangle, &there.rectangle));
    CHECK(guillotiere_atlas_deallocate(atlas, here.id) == GUILLOTIERE_DONE);
}

/* Places all anew; the list of what is live follows. */
static void rearrange(guillotiere_atlas *atlas) {
    const size_t room = used_slots(atlas);
    guillotiere_change *const changes = (guillotiere_change *)room_for(room, sizeof *changes);
    guillotiere_allocation *const failures = (guillotiere_allocation *)room_for(room, sizeof *failures);
    guillotiere_change_count count;
    CHECK(guillotiere_atlas_rearrange(atlas, changes, room, failures, room, &count) == GUILLOTIERE_DONE);
    CHECK(count.changes + count.failures == held_count);
    for (size_t i = 0; i < count.changes; i++) {
        CHECK(area_of(&changes[i].before.rectangle) == area_of(&changes[i].after.rectangle));
        held[i] = changes[i].after;
    }
    held_count = count.changes;
    free(changes);
    free(failures);
}

/* A simple allocator that starts from the atlas has an entry for each free box, and grants nothing that is live there. */
static void grant_beside(guillotiere_atlas *atlas) {
    guillotiere_simple simple = GUILLOTIERE_NONE;
    guillotiere_rectangle granted;
    guillotiere_slots slots;
    size_t free_count = 0;
    CHECK(guillotiere_simple_new(10, 10, &simple) == GUILLOTIERE_DONE);
    CHECK(guillotiere_simple_init_from_allocator(&simple, atlas) == GUILLOTIERE_DONE);
    CHECK(guillotiere_atlas_free_boxes(atlas, &granted, 0, &free_count) == GUILLOTIERE_DONE);
    CHECK(guillotiere_simple_slots(&simple, &slots) == GUILLOTIERE_DONE && slots.limit == 4261412864u);
    CHECK(slots.used == free_count && slots.kept == free_count);
    while (guillotiere_simple_allocate(&simple, 40, 30, &granted) == GUILLOTIERE_DONE)
        for (size_t i = 0; i < held_count; i++) CHECK(are_apart(&granted, &held[i].rectangle));
    guillotiere_simple_free(&simple);
}

int main(int count, char **words) {
    const long calls = count > 1 ? atol(words[1]) : 20000;
    guillotiere_atlas atlas = GUILLOTIERE_NONE;
    CHECK(guillotiere_atlas_new(1024, 1024, &atlas) == GUILLOTIERE_DONE);
    for (long turn = 1; turn <= calls; turn++) {
        if (held_count < MOST && (held_count == 0 || below(5) < 3))
            allocate(&atlas);
        else
            deallocate(&atlas);
        if (turn % 2000 == 0) check_tiled(&atlas);
        if (turn % 5003 == 0) deallocate_some(&atlas);
        if (turn % 7001 == 0) copy_and_clear(&atlas);
        if (turn % 9001 == 0) rearrange(&atlas);
        if (turn % 9007 == 0) grant_beside(&atlas);
    }
    check_tiled(&atlas);
    while (held_count > 0) deallocate(&atlas);
    CHECK(guillotiere_atlas_is_empty(&atlas));
    guillotiere_atlas_free(&atlas);
    return 0;
}
