/* Images that come and go on the layers of a texture array: a layer is made where no other has room, and the last ones are dropped where
 * nothing is on them. Each image's pixels have its number, and at the end all are looked at. */
#include <guillotiere.h>

#include <stdio.h>
#include <string.h>

enum { SIDE = 256, LAYERS = 4, IMAGES = 200, CALLS = 20000 };

typedef struct {
    bool is_live;
    guillotiere_page_allocation box;
} image;

static image images[IMAGES];
static uint16_t texture[LAYERS][SIDE][SIDE];
static uint32_t made; /* how many layers the texture has */

static uint32_t below(uint32_t bound) {
    static uint32_t state = 1;
    state = state * 1664525u + 1013904223u;
    return (state >> 8) % bound;
}

static void make_layers(uint32_t from, uint32_t to) {
    for (uint32_t layer = from; layer < to; layer++) memset(texture[layer], 0xff, sizeof texture[layer]);
}

/* Puts an image on a layer, which may be one that the texture doesn't have yet. */
static uint32_t upload(guillotiere_paged *layers, int32_t width, int32_t height, guillotiere_page_allocation *box) {
    const uint32_t status = guillotiere_paged_allocate(layers, width, height, box);
    if (status == GUILLOTIERE_DONE && box->page >= made) {
        make_layers(made, box->page + 1);
        made = box->page + 1;
    }
    return status;
}

/* Takes an image away, and drops the layers at the end that have none left. */
static uint32_t take_away(guillotiere_paged *layers, const guillotiere_page_allocation *box) {
    const uint32_t status = guillotiere_paged_deallocate(layers, box->page, box->id);
    if (status == GUILLOTIERE_DONE) guillotiere_paged_shrink(layers, &made);
    return status;
}

static void paint(int number) {
    const guillotiere_rectangle *it = &images[number].box.rectangle;
    for (int32_t y = it->min_y; y < it->max_y; y++)
        for (int32_t x = it->min_x; x < it->max_x; x++) texture[images[number].box.page][y][x] = (uint16_t)number;
}

static bool is_whole(const guillotiere_paged *layers, int number) {
    const guillotiere_page_allocation *box = &images[number].box;
    guillotiere_rectangle found, it = box->rectangle;
    if (guillotiere_paged_get(layers, box->page, box->id, &found) != GUILLOTIERE_DONE) return false;
    if (box->page >= made || memcmp(&found, &it, sizeof it) != 0) return false;
    for (int32_t y = it.min_y; y < it.max_y; y++)
        for (int32_t x = it.min_x; x < it.max_x; x++)
            if (texture[box->page][y][x] != number) return false;
    return true;
}

/* An image goes if it is there; else it comes, if it may. */
static uint32_t change(guillotiere_paged *layers, int number, bool comes, int *without) {
    image *it = &images[number];
    if (it->is_live) {
        it->is_live = false;
        return take_away(layers, &it->box);
    }
    if (!comes) return GUILLOTIERE_DONE;
    const uint32_t status = upload(layers, 8 + (int32_t)below(60), 8 + (int32_t)below(60), &it->box);
    it->is_live = status == GUILLOTIERE_DONE;
    if (it->is_live) paint(number);
    *without += status == GUILLOTIERE_NO_ROOM; /* this image is drawn without a layer */
    return status == GUILLOTIERE_NO_ROOM ? GUILLOTIERE_DONE : status;
}

int main(void) {
    guillotiere_paged layers = GUILLOTIERE_NONE;
    uint32_t most = 0, status = guillotiere_paged_new(SIDE, SIDE, LAYERS, &layers);
    int without = 0;
    bool is_good = true;
    for (uint32_t i = 0; i < CALLS && status == GUILLOTIERE_DONE; i++) { /* many come at first, and at the end all go */
        status = change(&layers, (int)below(IMAGES), i < CALLS / 2 || below(4) == 0, &without);
        if (made > most) most = made;
    }
    for (int i = 0; i < IMAGES; i++) is_good = is_good && (!images[i].is_live || is_whole(&layers, i));
    for (int i = 0; i < IMAGES; i++)
        if (images[i].is_live && status == GUILLOTIERE_DONE) status = take_away(&layers, &images[i].box);
    guillotiere_paged_free(&layers);
    is_good = is_good && status == GUILLOTIERE_DONE && made == 0;
    printf("at most %u layers, %d images without one, %s\n", (unsigned)most, without, is_good ? "all whole" : "FAULT");
    return is_good ? 0 : 1;
}
