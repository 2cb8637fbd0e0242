/* Sheets: worked by hand, checked by plain code, and asked for carelessly. With any word each ninth random one alone, which still has all
 * options. */
#include "check.h"

#include <string.h>

enum { ROOM = 200 };

static uint32_t step = 1;

/* What a packing writes, with as much room as `room` says. */
typedef struct {
    guillotiere_placed places[ROOM];
    guillotiere_size size;
    size_t sprite;
} written;

static guillotiere_sheet_options options_of(uint32_t allowed) {
    guillotiere_sheet_options options = GUILLOTIERE_DEFAULT_SHEET_OPTIONS;
    options.allowed = allowed;
    return options;
}

/* The call that is tested: guillotiere_pack, and then guillotiere_pack_dense, which keeps to the same. */
static uint32_t (*packing)(const guillotiere_size *, size_t, const guillotiere_sheet_options *, guillotiere_placed *, size_t,
                           guillotiere_size *, size_t *);

static uint32_t pack(const guillotiere_size *sprites, size_t count, const guillotiere_sheet_options *options, size_t room,
                     written *into) {
    return packing(sprites, count, options, into->places, room, &into->size, &into->sprite);
}

static bool is_at(const guillotiere_placed *placed, int32_t x, int32_t y, int32_t width, int32_t height) {
    const guillotiere_rectangle wanted = {x, y, x + width, y + height};
    return are_same(&placed->area, &wanted);
}

/* One sprite of 3 x 5: with a pixel round it the least square has sides of 7, and it lies in the corner. */
static void one_sprite(void) {
    const guillotiere_size sprite = {3, 5};
    guillotiere_sheet_options options = options_of(GUILLOTIERE_SQUARES);
    written into;
    options.padding = 1;
    CHECK(pack(&sprite, 1, &options, 1, &into) == GUILLOTIERE_DONE);
    CHECK(into.size.width == 7 && into.size.height == 7);
    CHECK(is_at(&into.places[0], 1, 1, 3, 5) && into.places[0].turned == 0);
    options.allowed = GUILLOTIERE_POWERS;
    CHECK(pack(&sprite, 1, &options, 1, &into) == GUILLOTIERE_DONE);
    CHECK(into.size.width == 8 && into.size.height == 8 && is_at(&into.places[0], 1, 1, 3, 5));
    options.allowed = GUILLOTIERE_HEIGHTS;
    options.width = 20;
    CHECK(pack(&sprite, 1, &options, 1, &into) == GUILLOTIERE_DONE);
    CHECK(into.size.width == 20 && into.size.height == 7 && is_at(&into.places[0], 1, 1, 3, 5));
}

/* A sheet of one size: with two pixels to each border 14 x 14 takes 10 x 10, and 13 x 14 doesn't. */
static void one_size(void) {
    const guillotiere_size sprite = {10, 10};
    guillotiere_sheet_options options = options_of(GUILLOTIERE_ONE_SIZE);
    written into;
    options.padding = 2;
    options.width = options.height = 14;
    CHECK(pack(&sprite, 1, &options, 1, &into) == GUILLOTIERE_DONE);
    CHECK(into.size.width == 14 && into.size.height == 14 && is_at(&into.places[0], 2, 2, 10, 10));
    options.width = 13;
    memset(&into, 0x55, sizeof into);
    const written before = into;
    CHECK(pack(&sprite, 1, &options, 1, &into) == GUILLOTIERE_NO_ROOM);
    CHECK(memcmp(&before, &into, sizeof into) == 0);
}

/* Two sprites of 4 x 4 fill 8 x 4, beside one another. */
static void two_sprites(void) {
    const guillotiere_size sprites[] = {{4, 4}, {4, 4}};
    guillotiere_sheet_options options = options_of(GUILLOTIERE_HEIGHTS);
    written into;
    options.width = 8;
    CHECK(pack(sprites, 2, &options, 2, &into) == GUILLOTIERE_DONE && into.size.width == 8 && into.size.height == 4);
    const int second = is_at(&into.places[0], 0, 0, 4, 4);
    CHECK(is_at(&into.places[!second], 0, 0, 4, 4) && is_at(&into.places[second], 4, 0, 4, 4));
}

/* A sprite of 4 x 8 lies in 8 x 4 only if it is turned. */
static void turned_sprite(void) {
    const guillotiere_size sprite = {4, 8};
    guillotiere_sheet_options options = options_of(GUILLOTIERE_ONE_SIZE);
    written into;
    options.width = 8;
    options.height = 4;
    options.effort = 100;
    CHECK(pack(&sprite, 1, &options, 1, &into) == GUILLOTIERE_NO_ROOM);
    for (uint32_t yes = 1; yes != 0; yes <<= 1) {
        options.turn = yes;
        CHECK(pack(&sprite, 1, &options, 1, &into) == GUILLOTIERE_DONE);
        CHECK(into.places[0].turned == 1 && is_at(&into.places[0], 0, 0, 8, 4));
    }
}

/* A sheet of the kind that is allowed, which has sides from 1 to 2000. */
static void check_size(const guillotiere_sheet_options *options, guillotiere_size size) {
    CHECK(size.width >= 1 && size.height >= 1 && size.width <= 2048 && size.height <= 2048);
    if (options->allowed == GUILLOTIERE_ONE_SIZE) CHECK(size.width == options->width && size.height == options->height);
    if (options->allowed == GUILLOTIERE_SQUARES) CHECK(size.width == size.height && size.height >= options->least);
    if (options->allowed == GUILLOTIERE_HEIGHTS) CHECK(size.width == options->width);
    if (options->allowed == GUILLOTIERE_POWERS)
        CHECK((size.width & (size.width - 1)) == 0 && (size.height & (size.height - 1)) == 0);
}

/* Each place has its sprite's sides, and keeps padding and alignment; with the padding at its right and below no two
 * overlap. */
static void check_places(const guillotiere_size *sprites, size_t count, const guillotiere_sheet_options *options,
                         const written *into) {
    const int32_t padding = (int32_t)options->padding;
    for (size_t i = 0; i < count; i++) {
        const guillotiere_placed *const placed = &into->places[i];
        const guillotiere_rectangle *const area = &placed->area;
        const int32_t width = area->max_x - area->min_x, height = area->max_y - area->min_y;
        CHECK(placed->turned <= (options->turn != 0));
        CHECK(width == (placed->turned ? sprites[i].height : sprites[i].width));
        CHECK(height == (placed->turned ? sprites[i].width : sprites[i].height));
        CHECK(area->min_x >= padding && area->max_x + padding <= into->size.width);
        CHECK(area->min_y >= padding && area->max_y + padding <= into->size.height);
        CHECK((area->min_x - padding) % options->alignment_width == 0);
        CHECK((area->min_y - padding) % options->alignment_height == 0);
        for (size_t k = 0; k < i; k++) {
            guillotiere_rectangle one = *area, other = into->places[k].area;
            one.max_x += padding, one.max_y += padding, other.max_x += padding, other.max_y += padding;
            CHECK(are_apart(&one, &other));
        }
    }
}

static uint32_t next(uint32_t *state) {
    *state = *state * 1664525u + 1013904223u;
    return *state >> 16;
}

/* Random sprites and options of every kind: checked by plain code, with the same answer twice, and nothing after it. */
static void random_sheets(void) {
    uint32_t state = 7;
    for (uint32_t round = 0; round < 64; round += step) {
        guillotiere_size sprites[ROOM];
        guillotiere_sheet_options options = options_of(round % 4);
        const size_t count = next(&state) % (ROOM - 1);
        written into, again;
        for (size_t i = 0; i < count; i++) {
            sprites[i].width = 1 + (int32_t)(next(&state) % 40);
            sprites[i].height = 1 + (int32_t)(next(&state) % 60);
        }
        options.width = options.height = 1024;
        options.greatest = 2048;
        options.padding = round / 4 % 4;
        options.alignment_width = 1 + (int32_t)(round / 16 % 3);
        options.turn = round / 8 % 2;
        options.effort = round % 5 * 5;
        options.seed = round;
        memset(&into, 0x55, sizeof into);
        memset(&again, 0x55, sizeof again);
        const guillotiere_placed untouched = into.places[count];
        CHECK(pack(sprites, count, &options, ROOM, &into) == GUILLOTIERE_DONE);
        check_size(&options, into.size);
        check_places(sprites, count, &options, &into);
        CHECK(memcmp(&untouched, &into.places[count], sizeof untouched) == 0);
        CHECK(pack(sprites, count, &options, count, &again) == GUILLOTIERE_DONE);
        CHECK(memcmp(&into, &again, sizeof into) == 0);
    }
}

/* A refusal: this status, and nothing written but the number of a sprite. */
static void refused(uint32_t wanted, const guillotiere_size *sprites, size_t count, const guillotiere_sheet_options *options,
                    size_t room, size_t sprite) {
    written into, before;
    memset(&into, 0x55, sizeof into);
    before = into;
    if (sprite != SIZE_MAX) before.sprite = sprite;
    CHECK(pack(sprites, count, options, room, &into) == wanted);
    CHECK(memcmp(&before, &into, sizeof into) == 0);
}

static void bad_options(void) {
    const guillotiere_size sprite = {3, 5};
    const int32_t empty[] = {0, -1, INT32_MIN};
    guillotiere_sheet_options options;
    for (uint32_t kind = 4; kind != 0; kind = kind < 9 ? kind + 1 : kind << 1) {
        options = options_of(kind);
        refused(GUILLOTIERE_BAD_CALL, &sprite, 1, &options, 1, SIZE_MAX);
    }
    options = options_of(GUILLOTIERE_SQUARES);
    options.padding = 65536;
    refused(GUILLOTIERE_BAD_CALL, &sprite, 1, &options, 1, SIZE_MAX);
    options.padding = (uint32_t)-1;
    refused(GUILLOTIERE_BAD_CALL, &sprite, 1, &options, 1, SIZE_MAX);
    for (int i = 0; i < 3; i++) {
        options = options_of(GUILLOTIERE_SQUARES);
        options.alignment_height = empty[i];
        refused(GUILLOTIERE_EMPTY_ALIGNMENT, &sprite, 1, &options, 1, SIZE_MAX);
        options.least = empty[i];
        refused(GUILLOTIERE_EMPTY_SHEET, &sprite, 1, &options, 1, SIZE_MAX);
        options = options_of(GUILLOTIERE_ONE_SIZE);
        options.width = 9;
        options.height = empty[i];
        refused(GUILLOTIERE_EMPTY_SHEET, &sprite, 1, &options, 1, SIZE_MAX);
        options = options_of(GUILLOTIERE_POWERS);
        options.greatest = empty[i];
        refused(GUILLOTIERE_EMPTY_RANGE, &sprite, 1, &options, 1, SIZE_MAX);
        options = options_of(GUILLOTIERE_HEIGHTS);
        options.width = empty[i];
        refused(GUILLOTIERE_EMPTY_SHEET, &sprite, 1, &options, 1, SIZE_MAX);
    }
    options = options_of(GUILLOTIERE_SQUARES);
    options.least = 9;
    options.greatest = 8;
    refused(GUILLOTIERE_EMPTY_RANGE, &sprite, 1, &options, 1, SIZE_MAX);
}

static void bad_sprites(void) {
    const guillotiere_size empty[] = {{3, 5}, {4, 0}, {3, 5}}, below[] = {{3, 5}, {4, 6}, {INT32_MIN, 5}};
    const guillotiere_size great[] = {{3, 5}, {4, INT32_MAX}};
    guillotiere_sheet_options options = options_of(GUILLOTIERE_SQUARES);
    refused(GUILLOTIERE_EMPTY_SPRITE, empty, 3, &options, 3, 1);
    refused(GUILLOTIERE_EMPTY_SPRITE, below, 3, &options, 3, 2);
    refused(GUILLOTIERE_SHORT, great, 2, &options, 1, SIZE_MAX);
    refused(GUILLOTIERE_SHORT, great, 1, &options, 0, SIZE_MAX);
    refused(GUILLOTIERE_NO_ROOM, great, 2, &options, 2, SIZE_MAX);
    options.padding = 1;
    refused(GUILLOTIERE_GREAT_SPRITE, great, 2, &options, 2, 1);
}

/* No sprites: the least sheet. The greatest numbers: a sprite as large as its sheet. */
static void ends_of_ranges(void) {
    const guillotiere_size great = {INT32_MAX, INT32_MAX};
    guillotiere_sheet_options options = options_of(GUILLOTIERE_SQUARES);
    written into;
    options.least = 3;
    CHECK(pack(&great, 0, &options, 0, &into) == GUILLOTIERE_DONE && into.size.width == 3 && into.size.height == 3);
    options.greatest = INT32_MAX;
    CHECK(pack(&great, 1, &options, 1, &into) == GUILLOTIERE_DONE && into.size.width == INT32_MAX);
    CHECK(is_at(&into.places[0], 0, 0, INT32_MAX, INT32_MAX));
    options = options_of(GUILLOTIERE_ONE_SIZE);
    options.width = options.height = INT32_MAX;
    options.padding = 65535;
    CHECK(pack(&(guillotiere_size){INT32_MAX - 131070, 1}, 1, &options, 1, &into) == GUILLOTIERE_DONE);
    CHECK(is_at(&into.places[0], 65535, 65535, INT32_MAX - 131070, 1));
}

/* By height these come as 10 x 6, 6 x 4, 4 x 2 and 4 x 2. Each as high up as it can lie they fill 10 x 10. In 9 x 9 there is no
 * room for the first. */
static void by_height(void) {
    const guillotiere_size sprites[] = {{4, 2}, {10, 6}, {4, 2}, {6, 4}};
    guillotiere_sheet_options options = options_of(GUILLOTIERE_SQUARES);
    written into;
    CHECK(pack(sprites, 4, &options, 4, &into) == GUILLOTIERE_DONE && into.size.width == 10 && into.size.height == 10);
    CHECK(is_at(&into.places[1], 0, 0, 10, 6) && is_at(&into.places[3], 0, 6, 6, 4));
    CHECK(is_at(&into.places[0], 6, 6, 4, 2) && is_at(&into.places[2], 6, 8, 4, 2));
    options.greatest = 9;
    refused(GUILLOTIERE_NO_ROOM, sprites, 4, &options, 4, SIZE_MAX);
}

static int64_t pixels_by(const guillotiere_size *sprites, size_t count, const guillotiere_sheet_options *options) {
    guillotiere_placed places[ROOM];
    guillotiere_size size;
    size_t sprite;
    CHECK(packing(sprites, count, options, places, ROOM, &size, &sprite) == GUILLOTIERE_DONE);
    return (int64_t)size.width * size.height;
}

/* A dense sheet has no more pixels than that of guillotiere_pack, and mostly fewer. */
static void never_larger(void) {
    uint32_t state = 5, fewer = 0;
    for (uint32_t round = 0; round < 40; round += step) {
        guillotiere_size sprites[ROOM];
        guillotiere_sheet_options options = options_of(round % 2 ? GUILLOTIERE_SQUARES : GUILLOTIERE_HEIGHTS);
        const size_t count = 60 + next(&state) % (ROOM - 60);
        for (size_t i = 0; i < count; i++)
            sprites[i] = (guillotiere_size){4 + (int32_t)(next(&state) % 40), 4 + (int32_t)(next(&state) % 40)};
        options.width = 512;
        options.turn = round / 2 % 2;
        packing = guillotiere_pack;
        const int64_t plain = pixels_by(sprites, count, &options);
        packing = guillotiere_pack_dense;
        const int64_t dense = pixels_by(sprites, count, &options);
        CHECK(dense <= plain);
        fewer += dense < plain;
    }
    CHECK(fewer >= 20 / step);
}

/* What a packing into several sheets and a filling write, with as much room as `room` says. */
typedef struct {
    guillotiere_on_page places[ROOM];
    guillotiere_size sizes[ROOM];
    size_t count, sprite;
} written_pages;

typedef struct {
    guillotiere_maybe_placed places[ROOM];
    guillotiere_size size;
    size_t left, sprite;
} written_fill;

static uint32_t pack_pages(const guillotiere_size *sprites, size_t count, const guillotiere_sheet_options *options, size_t room,
                           size_t sizes, written_pages *into) {
    return guillotiere_pack_pages(sprites, count, options, into->places, room, into->sizes, sizes, &into->count, &into->sprite);
}

static uint32_t pack_groups(const guillotiere_size *sprites, size_t count, const uint32_t *groups, size_t numbers,
                            const guillotiere_sheet_options *options, size_t room, size_t sizes, written_pages *into) {
    return guillotiere_pack_groups(sprites, count, groups, numbers, options, into->places, room, into->sizes, sizes, &into->count,
                                   &into->sprite);
}

static uint32_t fill(const guillotiere_size *sprites, size_t count, const guillotiere_sheet_options *options, size_t room,
                     written_fill *into) {
    return guillotiere_fill(sprites, count, options, into->places, room, &into->left, &into->size, &into->sprite);
}

/* Five sprites of 4 x 4, and sheets of 8 x 8 at most: four on the first, and one alone on a sheet of its own size. With room for
 * fewer sizes than two nothing is written; one sheet that is filled leaves the fifth out. */
static void five_sprites(void) {
    const guillotiere_size sprites[] = {{4, 4}, {4, 4}, {4, 4}, {4, 4}, {4, 4}};
    const uint32_t groups[] = {1, 1, 1, 1, GUILLOTIERE_NO_GROUP};
    guillotiere_sheet_options options = options_of(GUILLOTIERE_SQUARES);
    options.greatest = 8;
    for (size_t sizes = 0; sizes < 4; sizes++) {
        written_pages into;
        size_t first = 0;
        memset(&into, 0x55, sizeof into);
        const written_pages before = into;
        if (sizes < 2) {
            CHECK(pack_pages(sprites, 5, &options, ROOM, sizes, &into) == GUILLOTIERE_SHORT);
            CHECK(pack_groups(sprites, 5, groups, 5, &options, ROOM, sizes, &into) == GUILLOTIERE_SHORT);
            CHECK(memcmp(&before, &into, sizeof into) == 0);
            continue;
        }
        CHECK(pack_pages(sprites, 5, &options, ROOM, sizes, &into) == GUILLOTIERE_DONE && into.count == 2);
        for (int i = 0; i < 5; i++) {
            CHECK(into.places[i].page < 2 && into.places[i].placed.turned == 0);
            if (into.places[i].page == 1) CHECK(is_at(&into.places[i].placed, 0, 0, 4, 4));
            else first++;
        }
        CHECK(first == 4);
        CHECK(memcmp(&before.places[5], &into.places[5], (ROOM - 5) * sizeof *into.places) == 0);
        CHECK(into.sizes[0].width == 8 && into.sizes[0].height == 8 && into.sizes[1].width == 4 && into.sizes[1].height == 4);
        CHECK(memcmp(&before.sizes[2], &into.sizes[2], (ROOM - 2) * sizeof *into.sizes) == 0);
    }
    written_fill into;
    size_t placed = 0;
    CHECK(fill(sprites, 5, &options, 5, &into) == GUILLOTIERE_DONE && into.left == 1);
    CHECK(into.size.width == 8 && into.size.height == 8);
    for (int i = 0; i < 5; i++) placed += into.places[i].is_placed == 1;
    CHECK(placed == 4);
}

#define NO_GROUP GUILLOTIERE_NO_GROUP

/* Six sprites of 4 x 4, of which a square of 8 takes four, with the group of each and then its sheet. */
static const struct {
    uint32_t groups[6], pages[6];
} rows[] = {
    /* A second group of three has no room beside the first; a second group of two has, and a third hasn't. */
    {{0, 1, 0, 1, 0, 1}, {0, 1, 0, 1, 0, 1}},
    {{7, 7, 0, 0, NO_GROUP - 1, NO_GROUP - 1}, {0, 0, 0, 0, 1, 1}},
    /* The first of three sprites in no group fills the sheet; a group comes before sprites in none. */
    {{NO_GROUP, 1, 1, 1, NO_GROUP, NO_GROUP}, {0, 0, 0, 0, 1, 1}},
    {{NO_GROUP, NO_GROUP, NO_GROUP, NO_GROUP, 1, 1}, {0, 0, 1, 1, 0, 0}},
    /* No square of 8 takes five, nor six: they are placed as sprites in no group. */
    {{1, 1, 1, 1, 1, NO_GROUP}, {0, 0, 0, 0, 1, 1}},
    {{0, 0, 0, 0, 0, 0}, {0, 0, 0, 0, 1, 1}},
};

static void sprites_in_groups(void) {
    const guillotiere_size sprites[] = {{4, 4}, {4, 4}, {4, 4}, {4, 4}, {4, 4}, {4, 4}};
    guillotiere_sheet_options options = options_of(GUILLOTIERE_SQUARES);
    written_pages into, before;
    options.greatest = 8;
    for (size_t row = 0; row < sizeof rows / sizeof *rows; row++) {
        memset(&into, 0x55, sizeof into);
        before = into;
        CHECK(pack_groups(sprites, 6, rows[row].groups, 6, &options, ROOM, 1, &into) == GUILLOTIERE_SHORT);
        CHECK(memcmp(&before, &into, sizeof into) == 0);
        CHECK(pack_groups(sprites, 6, rows[row].groups, 6, &options, ROOM, 2, &into) == GUILLOTIERE_DONE && into.count == 2);
        for (size_t i = 0; i < 6; i++) CHECK(into.places[i].page == rows[row].pages[i] && into.places[i].placed.turned == 0);
        CHECK(into.sizes[0].width == 8 && into.sizes[0].height == 8 && into.sprite == before.sprite);
        CHECK(memcmp(&before.places[6], &into.places[6], (ROOM - 6) * sizeof *into.places) == 0);
        CHECK(memcmp(&before.sizes[2], &into.sizes[2], (ROOM - 2) * sizeof *into.sizes) == 0);
    }
}

/* A list of numbers that is shorter than that of the sprites, and a longer one: sprites of 8, 4 and 2 in squares up to 10, where a 4
 * has no room beside an 8. */
static void numbers_of_groups(void) {
    const guillotiere_size sprites[] = {{8, 8}, {4, 4}, {2, 2}};
    const uint32_t one[] = {1}, four[] = {NO_GROUP, 0, 0, 0};
    guillotiere_sheet_options options = options_of(GUILLOTIERE_SQUARES);
    written_pages into;
    options.greatest = 10;
    CHECK(pack_groups(sprites, 3, one, 1, &options, 3, 3, &into) == GUILLOTIERE_DONE && into.count == 2);
    CHECK(into.places[0].page == 0 && into.places[1].page == 1 && into.places[2].page == 1);
    CHECK(into.sizes[0].width == 8 && into.sizes[1].width == 6);
    CHECK(pack_groups(sprites, 3, four, 4, &options, 3, 3, &into) == GUILLOTIERE_DONE && into.count == 2);
    CHECK(into.places[0].page == 1 && into.places[1].page == 0 && into.places[2].page == 0);
    CHECK(into.sizes[0].width == 6 && into.sizes[1].width == 8);
    CHECK(pack_groups(sprites, 0, four, 4, &options, 0, 0, &into) == GUILLOTIERE_DONE && into.count == 0);
}

/* A sprite that is larger than the greatest sheet: no sheets, or left out. */
static void too_large_sprite(void) {
    const guillotiere_size sprites[] = {{4, 4}, {9, 1}};
    guillotiere_sheet_options options = options_of(GUILLOTIERE_SQUARES);
    written_pages pages, before;
    written_fill into;
    options.greatest = 8;
    memset(&pages, 0x55, sizeof pages);
    before = pages;
    CHECK(pack_pages(sprites, 2, &options, 2, 2, &pages) == GUILLOTIERE_NO_ROOM);
    CHECK(memcmp(&before, &pages, sizeof pages) == 0);
    CHECK(pack_groups(sprites, 2, (uint32_t[]){0, 0}, 2, &options, 2, 2, &pages) == GUILLOTIERE_NO_ROOM);
    CHECK(memcmp(&before, &pages, sizeof pages) == 0);
    CHECK(fill(sprites, 2, &options, 2, &into) == GUILLOTIERE_DONE && into.left == 1 && into.size.width == 8);
    CHECK(into.places[0].is_placed == 1 && is_at(&into.places[0].placed, 0, 0, 4, 4) && into.places[1].is_placed == 0);
    CHECK(pack_pages(sprites, 0, &options, 0, 0, &pages) == GUILLOTIERE_DONE && pages.count == 0);
    CHECK(fill(sprites, 0, &options, 0, &into) == GUILLOTIERE_DONE && into.left == 0 && into.size.height == 8);
}

/* Each sheet by itself is one that `check_places` knows, and on each lies a sprite. */
static void check_pages(const guillotiere_size *sprites, size_t count, const guillotiere_sheet_options *options,
                        const written_pages *into) {
    guillotiere_size there[ROOM];
    CHECK(into->count >= 1 && into->count <= count);
    for (size_t page = 0; page < into->count; page++) {
        written sheet = {.size = into->sizes[page]};
        size_t many = 0;
        for (size_t i = 0; i < count; i++)
            if (into->places[i].page == page) there[many] = sprites[i], sheet.places[many++] = into->places[i].placed;
        CHECK(many > 0);
        check_size(options, sheet.size);
        check_places(there, many, options, &sheet);
    }
}

static bool are_same_pages(const written_pages *one, const written_pages *other, size_t count) {
    bool are_same = one->count == other->count && memcmp(one->sizes, other->sizes, one->count * sizeof *one->sizes) == 0;
    for (size_t i = 0; i < count && are_same; i++)
        are_same = one->places[i].page == other->places[i].page
                   && memcmp(&one->places[i].placed, &other->places[i].placed, sizeof(guillotiere_placed)) == 0;
    return are_same;
}

/* Those of a group lie on one sheet, or no way packs them into one of 128 x 128. Gives how many groups lie on one. */
static uint32_t check_groups(const guillotiere_size *sprites, const uint32_t *groups, size_t count,
                             const guillotiere_sheet_options *options, const written_pages *into) {
    guillotiere_sheet_options greatest = *options;
    uint32_t together = 0;
    greatest.allowed = GUILLOTIERE_ONE_SIZE;
    greatest.effort = 0;
    for (uint32_t group = 0; group < 4; group++) {
        guillotiere_size members[ROOM];
        written alone;
        size_t many = 0, page = SIZE_MAX;
        bool is_parted = false;
        for (size_t i = 0; i < count; i++) {
            if (groups[i] != group) continue;
            is_parted |= many > 0 && into->places[i].page != page;
            page = into->places[i].page, members[many++] = sprites[i];
        }
        together += many > 1 && !is_parted;
        if (is_parted) CHECK(guillotiere_pack(members, many, &greatest, alone.places, ROOM, &alone.size, &alone.sprite)
                             == GUILLOTIERE_NO_ROOM);
    }
    return together;
}

/* Random sprites on several sheets. With no group they are those of guillotiere_pack_pages. */
static void random_pages(void) {
    uint32_t together = 0;
    uint32_t state = 11;
    for (uint32_t round = 0; round < 12; round += step) {
        guillotiere_size sprites[ROOM], there[ROOM];
        guillotiere_sheet_options options = options_of(round % 4);
        uint32_t groups[ROOM];
        written_pages into, grouped;
        written_fill filled;
        const size_t count = 20 + next(&state) % (ROOM - 21);
        for (size_t i = 0; i < count; i++)
            sprites[i] = (guillotiere_size){1 + (int32_t)(next(&state) % 40), 1 + (int32_t)(next(&state) % 60)};
        options.width = options.height = options.greatest = 128;
        options.padding = round / 4;
        options.turn = round % 2;
        options.effort = round % 3 * 10;
        for (size_t i = 0; i < count; i++) groups[i] = NO_GROUP;
        CHECK(pack_pages(sprites, count, &options, count, ROOM, &into) == GUILLOTIERE_DONE);
        check_pages(sprites, count, &options, &into);
        CHECK(pack_groups(sprites, count, groups, round % 2 * count, &options, count, ROOM, &grouped) == GUILLOTIERE_DONE);
        CHECK(are_same_pages(&into, &grouped, count));
        for (size_t i = 0; i < count; i++) groups[i] = next(&state) % (3 + round) < 4 ? next(&state) % 4 : NO_GROUP;
        CHECK(pack_groups(sprites, count, groups, count, &options, count, ROOM, &grouped) == GUILLOTIERE_DONE);
        check_pages(sprites, count, &options, &grouped);
        together += check_groups(sprites, groups, count, &options, &grouped);
        CHECK(fill(sprites, count, &options, count, &filled) == GUILLOTIERE_DONE);
        written sheet = {.size = filled.size};
        size_t many = 0;
        for (size_t i = 0; i < count; i++)
            if (filled.places[i].is_placed) there[many] = sprites[i], sheet.places[many++] = filled.places[i].placed;
        CHECK(many + filled.left == count && (filled.left == 0) == (into.count == 1));
        check_places(there, many, &options, &sheet);
    }
    CHECK(together >= 5 / step);
}

/* Bad calls of all three: this status, and nothing written but the number of a sprite. */
static void all_refuse(uint32_t wanted, const guillotiere_size *sprites, size_t count, const guillotiere_sheet_options *options,
                        size_t room, size_t sprite) {
    written_pages pages, pages_before;
    written_fill into, before;
    memset(&pages, 0x55, sizeof pages);
    memset(&into, 0x55, sizeof into);
    pages_before = pages, before = into;
    if (sprite != SIZE_MAX) pages_before.sprite = before.sprite = sprite;
    CHECK(pack_pages(sprites, count, options, room, ROOM, &pages) == wanted);
    CHECK(memcmp(&pages_before, &pages, sizeof pages) == 0);
    CHECK(pack_groups(sprites, count, (uint32_t[]){1, 1}, 2, options, room, ROOM, &pages) == wanted);
    CHECK(memcmp(&pages_before, &pages, sizeof pages) == 0);
    CHECK(fill(sprites, count, options, room, &into) == wanted);
    CHECK(memcmp(&before, &into, sizeof into) == 0);
}

static void bad_calls_of_all(void) {
    const guillotiere_size sprites[] = {{3, 5}, {4, 6}, {0, 1}}, great[] = {{1, 1}, {INT32_MAX, 1}};
    guillotiere_sheet_options options = options_of(4);
    all_refuse(GUILLOTIERE_BAD_CALL, sprites, 2, &options, 2, SIZE_MAX);
    options = options_of(GUILLOTIERE_SQUARES);
    all_refuse(GUILLOTIERE_SHORT, sprites, 2, &options, 1, SIZE_MAX);
    all_refuse(GUILLOTIERE_EMPTY_SPRITE, sprites, 3, &options, 3, 2);
    options.padding = 1;
    all_refuse(GUILLOTIERE_GREAT_SPRITE, great, 2, &options, 2, 1);
    options.padding = 65536;
    all_refuse(GUILLOTIERE_BAD_CALL, sprites, 2, &options, 2, SIZE_MAX);
    options = options_of(GUILLOTIERE_SQUARES);
    options.least = 0;
    all_refuse(GUILLOTIERE_EMPTY_SHEET, sprites, 2, &options, 2, SIZE_MAX);
    options.least = 5000;
    all_refuse(GUILLOTIERE_EMPTY_RANGE, sprites, 2, &options, 2, SIZE_MAX);
    options = options_of(GUILLOTIERE_SQUARES);
    options.alignment_width = 0;
    all_refuse(GUILLOTIERE_EMPTY_ALIGNMENT, sprites, 2, &options, 2, SIZE_MAX);
}

/* What both calls for one sheet keep to. */
static void one_sheet(void) {
    one_sprite();
    one_size();
    two_sprites();
    turned_sprite();
    random_sheets();
    bad_options();
    bad_sprites();
    ends_of_ranges();
}

int main(int count, char **words) {
    (void)words;
    if (count > 1) step = 9;
    packing = guillotiere_pack;
    one_sheet();
    packing = guillotiere_pack_dense;
    one_sheet();
    by_height();
    never_larger();
    five_sprites();
    sprites_in_groups();
    numbers_of_groups();
    too_large_sprite();
    random_pages();
    bad_calls_of_all();
    return 0;
}
