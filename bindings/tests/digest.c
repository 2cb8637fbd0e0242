/* Random calls of every export, whose answers are summed into one number: two builds of the library with the same
 * number gave the same answers.
 *
 *     digest CALLS [SEED]
 *
 * prints the sum after every 10,000 calls and after the last. What a call must leave as it is after a refusal is summed
 * too. With DIGEST_BARE it needs no C library, and has no main: call digest_start, then digest_calls. With DIGEST_WITHOUT_CACHES no call is
 * of a cache. */
#include <guillotiere.h>

enum { HELD = 500, ROOM = 2048, SPRITES = 24, KEYS = 300 };

typedef struct {
    guillotiere_atlas atlas;
    uint32_t ids[HELD]; /* live, but for those that a call has just made void */
    uint32_t count;
} sequence;

static uint64_t state, sum;
static sequence both[2];
static guillotiere_simple simple;
static guillotiere_paged paged;
static guillotiere_page_allocation on_pages[HELD];
static guillotiere_allocation listed[ROOM];
static uint32_t on_pages_count;
static guillotiere_cache cache;
static guillotiere_allocation found[ROOM], failures[ROOM];
static guillotiere_rectangle boxes[ROOM];
static guillotiere_change changes[ROOM];

void digest_start(uint32_t seed);
uint64_t digest_calls(uint32_t count);

static uint32_t below(uint32_t bound) {
    state = state * 6364136223846793005u + 1442695040888963407u;
    return (uint32_t)(state >> 33) % bound;
}

/* No expression draws twice: C leaves open which of two calls comes first. */
static bool one_in(uint32_t count) { return below(count) == 0; }

/* The FNV hash, by words of 32 bits, turned so that each bit of a word reaches all of the sum. */
static void add(uint32_t word) {
    sum = (sum ^ word) * 1099511628211u;
    sum = sum << 29 | sum >> 35;
}

static void add_wide(uint64_t word) {
    add((uint32_t)word);
    add((uint32_t)(word >> 32));
}

static void add_size(const guillotiere_size *it) {
    add((uint32_t)it->width);
    add((uint32_t)it->height);
}

static void add_box(const guillotiere_rectangle *it) {
    add((uint32_t)it->min_x);
    add((uint32_t)it->min_y);
    add((uint32_t)it->max_x);
    add((uint32_t)it->max_y);
}

static void add_allocation(const guillotiere_allocation *it) {
    add(it->id);
    add_box(&it->rectangle);
}

static void add_options(const guillotiere_options *it) {
    add((uint32_t)it->alignment_width);
    add((uint32_t)it->alignment_height);
    add((uint32_t)it->small_size_threshold);
    add((uint32_t)it->large_size_threshold);
}

static void add_slots(const guillotiere_slots *it) {
    add(it->used);
    add(it->kept);
    add(it->limit);
}

static void add_place(const guillotiere_place *it) {
    add(it->number);
    add(it->page);
    add_box(&it->rectangle);
    add_box(&it->inner);
}

static const guillotiere_rectangle untouched = {7, 7, 7, 7};
static const guillotiere_place nowhere = {7, 7, {7, 7, 7, 7}, {7, 7, 7, 7}};

/* A side of a request: mostly a usual one, at times any number that could be trouble. */
static int32_t side(uint32_t most) {
    static const int32_t extremes[] = {INT32_MIN, INT32_MIN + 1, -1,    0,             1,        32,
                                       256,       46341,         65536, INT32_MAX - 1, INT32_MAX};
    return one_in(50) ? extremes[below(sizeof extremes / sizeof *extremes)] : 1 + (int32_t)below(most);
}

static guillotiere_options some_options(void) {
    static const guillotiere_options usual[] = {{1, 1, 32, 256}, {4, 4, 16, 128}, {8, 1, 0, 0}, {1, 3, -5, 1000}};
    guillotiere_options options = usual[below(4)];
    if (one_in(8)) options.alignment_width = side(40);
    if (one_in(8)) options.large_size_threshold = side(300);
    return options;
}

static sequence *either(void) { return &both[one_in(4)]; }

static void relist(sequence *it) {
    size_t count = 0;
    it->count = 0;
    if (guillotiere_atlas_live(&it->atlas, found, ROOM, &count) != GUILLOTIERE_DONE) return;
    for (size_t i = 0; i < count && i < HELD; i++) it->ids[it->count++] = found[i].id;
}

static uint32_t some_id(const sequence *it) {
    if (it->count > 0 && !one_in(25)) return it->ids[below(it->count)];
    const uint32_t slot = below(2000), generation = one_in(2) ? 0 : 1 + below(5);
    return slot + generation * 16777216u;
}

/* --- An atlas --------------------------------------------------------------------------------------------------- */

static void make_atlas(void) {
    sequence *const it = either();
    const int32_t width = side(1500), height = side(1500);
    const guillotiere_options options = some_options();
    const uint32_t kind = below(3);
    if (kind == 0) add(guillotiere_atlas_new(width, height, &it->atlas));
    if (kind == 1) add(guillotiere_atlas_with_options(width, height, &options, &it->atlas));
    if (kind == 2) {
        const uint32_t limit = one_in(6) ? (uint32_t)side(5) : 1 + below(900);
        add(guillotiere_atlas_with_slot_limit(width, height, &options, limit, &it->atlas));
    }
    relist(it);
}

static void copy_atlas(void) {
    sequence *const it = either();
    sequence *const other = it == &both[0] ? &both[1] : &both[0];
    if (one_in(2)) guillotiere_atlas_free(&other->atlas);
    add(guillotiere_atlas_clone(&it->atlas, &other->atlas));
    relist(other);
}

static void free_atlas(void) {
    sequence *const it = either();
    guillotiere_atlas_free(&it->atlas);
    add(guillotiere_atlas_is_empty(&it->atlas));
    it->count = 0;
    if (!one_in(4)) add(guillotiere_atlas_new(1024, 1024, &it->atlas));
}

static void allocate(void) {
    sequence *const it = either();
    const uint32_t most = one_in(10) ? 300 : 70;
    const int32_t width = side(most), height = side(most);
    guillotiere_allocation granted = {7, {7, 7, 7, 7}};
    const uint32_t status = guillotiere_atlas_allocate(&it->atlas, width, height, &granted);
    add(status);
    add_allocation(&granted);
    if (status != GUILLOTIERE_DONE) return;
    if (it->count < HELD) it->ids[it->count++] = granted.id;
    else add(guillotiere_atlas_deallocate(&it->atlas, granted.id));
}

static void deallocate(void) {
    sequence *const it = either();
    const uint32_t at = it->count == 0 ? 0 : below(it->count);
    const bool is_held = it->count > 0 && !one_in(20);
    add(guillotiere_atlas_deallocate(&it->atlas, is_held ? it->ids[at] : some_id(it)));
    if (is_held) it->ids[at] = it->ids[--it->count];
}

static void deallocate_all(void) {
    sequence *const it = either();
    uint32_t ids[12];
    const uint32_t count = below(13);
    for (uint32_t i = 0; i < count; i++) ids[i] = some_id(it);
    add(guillotiere_atlas_deallocate_all(&it->atlas, ids, count));
    relist(it);
}

static void look_up(void) {
    sequence *const it = either();
    guillotiere_rectangle box = untouched;
    add(guillotiere_atlas_get(&it->atlas, some_id(it), &box));
    add_box(&box);
}

static void ask_atlas(void) {
    sequence *const it = either();
    const int32_t width = side(300), height = side(300);
    add(guillotiere_atlas_can_fit(&it->atlas, width, height));
    add(guillotiere_atlas_can_grow_to(&it->atlas, (int32_t)(4 * (uint32_t)width), (int32_t)(4 * (uint32_t)height)));
    add(guillotiere_atlas_is_empty(&it->atlas));
    uint64_t area = 7;
    add(guillotiere_atlas_unusable_area(&it->atlas, width, height, &area));
    add_wide(area);
    guillotiere_rectangle box = untouched;
    add(guillotiere_atlas_largest_free(&it->atlas, &box));
    add_box(&box);
}

static void grow_atlas(void) {
    sequence *const it = either();
    guillotiere_size size = {7, 7};
    add(guillotiere_atlas_size(&it->atlas, &size));
    add_size(&size);
    if (size.width > 6000 || size.height > 6000) return;
    const int32_t width = size.width + (int32_t)below(200) - 2, height = size.height + (int32_t)below(200) - 2;
    add(guillotiere_atlas_grow(&it->atlas, width, height));
}

static void reserve(void) {
    sequence *const it = either();
    add(guillotiere_atlas_reserve(&it->atlas, one_in(20) ? GUILLOTIERE_MOST_SLOTS : below(200)));
}

static void start_atlas_again(void) {
    sequence *const it = either();
    const guillotiere_options options = some_options();
    const int32_t width = side(1500), height = 1 + (int32_t)below(1500);
    if (one_in(2)) add(guillotiere_atlas_clear(&it->atlas));
    else add(guillotiere_atlas_reset(&it->atlas, width, height, &options));
    relist(it);
}

static void rearrange(void) {
    sequence *const it = either();
    const size_t room = one_in(10) ? below(20) : ROOM;
    guillotiere_change_count count = {0, 0};
    if (one_in(2)) {
        add(guillotiere_atlas_rearrange(&it->atlas, changes, room, failures, room, &count));
    } else {
        const int32_t width = one_in(6) ? side(400) : 900, height = 700 + (int32_t)below(400);
        add(guillotiere_atlas_resize_and_rearrange(&it->atlas, width, height, changes, room, failures, room, &count));
    }
    add_wide(count.changes);
    add_wide(count.failures);
    for (size_t i = 0; i < count.changes; i++) add_allocation(&changes[i].before), add_allocation(&changes[i].after);
    for (size_t i = 0; i < count.failures; i++) add_allocation(&failures[i]);
    relist(it);
}

static void describe_atlas(void) {
    sequence *const it = either();
    guillotiere_options options = {7, 7, 7, 7};
    guillotiere_slots slots = {7, 7, 7};
    guillotiere_areas areas = {7, 7};
    add(guillotiere_atlas_options(&it->atlas, &options));
    add_options(&options);
    add(guillotiere_atlas_slots(&it->atlas, &slots));
    add_slots(&slots);
    add(guillotiere_atlas_areas(&it->atlas, &areas));
    add_wide(areas.allocated);
    add_wide(areas.free);
}

static void list_atlas(void) {
    sequence *const it = either();
    const size_t room = one_in(3) ? below(30) : ROOM;
    size_t count = 7;
    add(guillotiere_atlas_live(&it->atlas, found, room, &count));
    add_wide(count);
    for (size_t i = 0; i < count && i < room; i++) add_allocation(&found[i]);
    add(guillotiere_atlas_free_boxes(&it->atlas, boxes, room, &count));
    add_wide(count);
    for (size_t i = 0; i < count && i < room; i++) add_box(&boxes[i]);
}

/* --- A simple allocator ----------------------------------------------------------------------------------------- */

static void make_simple(void) {
    const guillotiere_options options = some_options();
    const int32_t width = side(1500), height = side(1500);
    if (one_in(2)) guillotiere_simple_free(&simple);
    if (one_in(2)) add(guillotiere_simple_new(width, height, &simple));
    else add(guillotiere_simple_with_options(width, height, &options, &simple));
}

static void take(void) {
    guillotiere_rectangle box = untouched;
    const int32_t width = side(60), height = side(60);
    add(guillotiere_simple_allocate(&simple, width, height, &box));
    add_box(&box);
}

static void start_simple_again(void) {
    const guillotiere_options options = some_options();
    const int32_t width = side(1500), height = 1 + (int32_t)below(1500);
    const uint32_t kind = below(3);
    if (kind == 0) add(guillotiere_simple_clear(&simple));
    if (kind == 1) add(guillotiere_simple_reset(&simple, width, height, &options));
    if (kind == 2) add(guillotiere_simple_init_from_allocator(&simple, &either()->atlas));
}

static void grow_simple(void) {
    guillotiere_size size = {7, 7};
    add(guillotiere_simple_size(&simple, &size));
    add_size(&size);
    if (size.width > 6000 || size.height > 6000) return;
    const int32_t width = size.width + (int32_t)below(200) - 2, height = size.height + (int32_t)below(200) - 2;
    add(guillotiere_simple_can_grow_to(&simple, width, height));
    add(guillotiere_simple_grow(&simple, width, height));
}

static void describe_simple(void) {
    guillotiere_options options = {7, 7, 7, 7};
    guillotiere_slots slots = {7, 7, 7};
    add(guillotiere_simple_options(&simple, &options));
    add_options(&options);
    add(guillotiere_simple_slots(&simple, &slots));
    add_slots(&slots);
    add(guillotiere_simple_is_empty(&simple));
}

/* --- A paged atlas ---------------------------------------------------------------------------------------------- */

static void make_paged(void) {
    const guillotiere_options options = some_options();
    const int32_t width = side(400), height = side(400);
    const uint32_t most = below(6);
    if (!one_in(4)) guillotiere_paged_free(&paged);
    if (one_in(2)) add(guillotiere_paged_new(width, height, most, &paged));
    else add(guillotiere_paged_with_options(width, height, &options, most, &paged));
}

static void take_on_a_page(void) {
    const int32_t width = side(90), height = side(90);
    guillotiere_page_allocation granted = {7, 7, {7, 7, 7, 7}};
    const uint32_t status = guillotiere_paged_allocate(&paged, width, height, &granted);
    add(status);
    add(granted.page);
    add(granted.id);
    add_box(&granted.rectangle);
    if (status != GUILLOTIERE_DONE) return;
    if (on_pages_count < HELD) on_pages[on_pages_count++] = granted;
    else add(guillotiere_paged_deallocate(&paged, granted.page, granted.id));
}

/* What was granted last of all that is remembered, which may be void; or a page and an id that may never have been. */
static void give_back_on_a_page(void) {
    const uint32_t page = below(6), id = below(60);
    if (on_pages_count == 0 || one_in(20)) {
        add(guillotiere_paged_deallocate(&paged, page, id));
        return;
    }
    const uint32_t at = below(on_pages_count);
    add(guillotiere_paged_deallocate(&paged, on_pages[at].page, on_pages[at].id));
    on_pages[at] = on_pages[--on_pages_count];
}

static void ask_pages(void) {
    const uint32_t page = below(6), id = below(60);
    guillotiere_rectangle box = untouched;
    guillotiere_size size = {7, 7};
    guillotiere_areas areas = {7, 7};
    uint32_t pages = 7;
    size_t count = 7;
    add(guillotiere_paged_get(&paged, page, id, &box));
    add_box(&box);
    add(guillotiere_paged_page_count(&paged, &pages));
    add(pages);
    add(guillotiere_paged_page_size(&paged, page, &size));
    add_size(&size);
    add(guillotiere_paged_areas(&paged, page, &areas));
    add_wide(areas.allocated);
    add_wide(areas.free);
    const uint32_t status = guillotiere_paged_live(&paged, page, listed, ROOM, &count);
    add(status);
    add_wide(count);
    for (size_t i = 0; status == GUILLOTIERE_DONE && i < count && i < ROOM; i++) add_allocation(&listed[i]);
}

static void change_pages(void) {
    const uint32_t page = below(6), kind = below(12);
    const int32_t width = side(500), height = side(500);
    uint32_t left = 7;
    if (kind < 6) add(guillotiere_paged_grow(&paged, page, width, height));
    else if (kind < 11) add(guillotiere_paged_shrink(&paged, &left)), add(left);
    else add(guillotiere_paged_clear(&paged));
}

/* --- A cache ---------------------------------------------------------------------------------------------------- */

static uint64_t some_key(void) { return (uint64_t)below(KEYS) * 0x100000001u; }

/* The fields that a kind gives a meaning. */
static void follow(void) {
    guillotiere_cache_change change;
    uint32_t status;
    while ((status = guillotiere_cache_next_change(&cache, &change)) == GUILLOTIERE_DONE) {
        add(change.kind);
        if (change.kind == GUILLOTIERE_PAGE_ADDED || change.kind == GUILLOTIERE_PAGE_GROWN) {
            add(change.page);
            add_size(&change.size);
        } else if (change.kind == GUILLOTIERE_PAGE_REMOVED) {
            add(change.page);
        } else {
            add_wide(change.key);
            add_place(&change.from);
        }
        if (change.kind == GUILLOTIERE_MOVED) add_place(&change.to);
    }
    add(status);
}

static void make_cache(void) {
    guillotiere_cache_options options = {{96, 128}, {384, 256}, 3, 1, {1, 1, 32, 256}};
    options.pages = one_in(12) ? 0 : 1 + below(4);
    options.padding = one_in(12) ? -1 : (int32_t)below(3);
    options.page.width = one_in(12) ? side(500) : 96;
    if (one_in(3)) options.atlas = some_options();
    if (!one_in(4)) guillotiere_cache_free(&cache);
    add(guillotiere_cache_new(&options, &cache));
}

static void insert(void) {
    const uint64_t key = some_key();
    const uint32_t number = (uint32_t)key;
    guillotiere_place place = nowhere;
    const int32_t usual = number % 10 == 3 ? 0 : 4 + (int32_t)(number * 7 % 60);
    const int32_t width = one_in(40) ? side(500) : usual;
    add(guillotiere_cache_insert(&cache, key, width, 4 + (int32_t)(number * 11 % 50), &place));
    if (!one_in(3)) follow();
    add_place(&place);
}

static void ask_cache(void) {
    guillotiere_place place = nowhere;
    if (one_in(3)) add(guillotiere_cache_peek(&cache, some_key(), &place));
    else add(guillotiere_cache_get(&cache, some_key(), &place));
    add_place(&place);
}

static void let_go(void) {
    guillotiere_place place = nowhere;
    const uint32_t kind = below(23);
    uint64_t moved = 7;
    if (kind < 12) add(guillotiere_cache_remove(&cache, some_key(), &place));
    else if (kind < 15) add(guillotiere_cache_trim(&cache, 5 + below(60)));
    else if (kind < 16) add(guillotiere_cache_shrink(&cache));
    else if (kind < 18) add(guillotiere_cache_repack(&cache, below(5)));
    else if (kind < 19) add(guillotiere_cache_repack_keeping_all(&cache, below(5)));
    else if (kind < 20) add(guillotiere_cache_end_batch(&cache, below(4)));
    else if (kind < 22) add(guillotiere_cache_compact(&cache, below(4000), &moved)), add_wide(moved);
    else add(guillotiere_cache_clear(&cache));
    add_place(&place);
    if (one_in(2)) follow();
}

static void next_frame(void) { add(guillotiere_cache_begin_frame(&cache)); }

static void know_cache(void) {
    guillotiere_cache_options with = {{7, 7}, {7, 7}, 7, 7, {7, 7, 7, 7}};
    guillotiere_areas areas = {7, 7};
    guillotiere_place place = nowhere;
    uint64_t key = 7;
    add(guillotiere_version());
    add(guillotiere_cache_reserve(&cache, below(100)));
    /* What is in reserve changes no answer, and JavaScript, whose sum is the same, has neither call. */
    const uint32_t slots = guillotiere_cache_reserve_slots(&cache, 9), told = guillotiere_cache_reserve_changes(&cache, 9);
    if (slots != told || (slots != GUILLOTIERE_DONE && slots != GUILLOTIERE_EMPTY)) add(slots);
    add(guillotiere_cache_areas(&cache, below(4), &areas));
    add_wide(areas.allocated);
    add_wide(areas.free);
    const uint32_t page = below(4);
    const int32_t width = side(60), height = side(60);
    add(guillotiere_cache_unusable_area(&cache, page, width, height, &areas.free));
    add_wide(areas.free);
    add(guillotiere_cache_options_of(&cache, &with));
    add_size(&with.page);
    add_size(&with.largest_page);
    add(with.pages);
    add((uint32_t)with.padding);
    add_options(&with.atlas);
    if (one_in(2)) add(guillotiere_cache_newest(&cache, &key, &place));
    else add(guillotiere_cache_oldest(&cache, &key, &place));
    add_wide(key);
    add_place(&place);
    add(guillotiere_cache_older(&cache, one_in(2) ? key : some_key(), &key, &place));
    add_wide(key);
    add_place(&place);
}

/* A copy takes the cache's place, which changes no answer. */
static void go_on_as_a_copy(void) {
    guillotiere_cache copy = GUILLOTIERE_NONE;
    if (guillotiere_cache_clone(&cache, &copy) != GUILLOTIERE_DONE) return;
    guillotiere_cache_free(&cache);
    cache = copy;
}

static void describe_cache(void) {
    static uint32_t described;
    size_t len = 7;
    uint32_t pages = 7, numbers = 7;
    guillotiere_size size = {7, 7};
    guillotiere_counts counts = {7, 7, 7, 7};
    if (++described % 16 == 0) go_on_as_a_copy();
    add(guillotiere_cache_len(&cache, &len));
    add_wide(len);
    add(guillotiere_cache_numbers(&cache, &numbers));
    add(numbers);
    add(guillotiere_cache_page_count(&cache, &pages));
    add(pages);
    add(guillotiere_cache_page_size(&cache, below(4), &size));
    add_size(&size);
    add(guillotiere_cache_statistics(&cache, &counts));
    add_wide(counts.hits);
    add_wide(counts.misses);
    add_wide(counts.evictions);
    add_wide(counts.forced);
}

/* --- A sheet ---------------------------------------------------------------------------------------------------- */

typedef struct {
    guillotiere_size sprites[SPRITES];
    guillotiere_sheet_options options;
    size_t count, room;
} asked;

static asked some_sprites(void) {
    asked it = {.options = GUILLOTIERE_DEFAULT_SHEET_OPTIONS};
    it.count = below(SPRITES + 1);
    for (uint32_t i = 0; i < SPRITES; i++) {
        it.sprites[i].width = one_in(10) ? side(40) : 1 + (int32_t)below(40);
        it.sprites[i].height = 1 + (int32_t)below(40);
    }
    it.options.allowed = below(one_in(10) ? 6 : 4);
    it.options.width = it.options.height = 40 + (int32_t)below(200);
    it.options.least = one_in(10) ? side(300) : 1;
    it.options.greatest = 256;
    it.options.padding = one_in(10) ? below(70000) : below(3);
    it.options.alignment_width = one_in(10) ? side(9) : 1;
    it.options.turn = below(2);
    it.options.effort = below(20);
    it.options.seed = state;
    it.room = one_in(10) ? it.count / 2 : SPRITES;
    return it;
}

static const guillotiere_placed unplaced = {{7, 7, 7, 7}, 7};

static void add_placed(const guillotiere_placed *it) {
    add_box(&it->area);
    add(it->turned);
}

static void pack_by(uint32_t (*packing)(const guillotiere_size *, size_t, const guillotiere_sheet_options *, guillotiere_placed *,
                                       size_t, guillotiere_size *, size_t *)) {
    const asked it = some_sprites();
    guillotiere_size size = {7, 7};
    guillotiere_placed places[SPRITES];
    size_t sprite = 7;
    for (uint32_t i = 0; i < SPRITES; i++) places[i] = unplaced;
    add(packing(it.sprites, it.count, &it.options, places, it.room, &size, &sprite));
    add_size(&size);
    add_wide(sprite);
    for (uint32_t i = 0; i < SPRITES; i++) add_placed(&places[i]);
}

static void pack(void) {
    pack_by(guillotiere_pack);
}

static void pack_dense(void) {
    pack_by(guillotiere_pack_dense);
}

typedef struct {
    guillotiere_size sizes[SPRITES];
    guillotiere_on_page places[SPRITES];
    size_t count, sprite;
} several;

static several no_sheets(void) {
    several into = {.count = 7, .sprite = 7};
    for (uint32_t i = 0; i < SPRITES; i++) {
        into.places[i] = (guillotiere_on_page){7, unplaced};
        into.sizes[i] = (guillotiere_size){7, 7};
    }
    return into;
}

static void add_several(const several *it) {
    add_wide(it->count);
    add_wide(it->sprite);
    for (uint32_t i = 0; i < SPRITES; i++) {
        add_size(&it->sizes[i]);
        add_wide(it->places[i].page);
        add_placed(&it->places[i].placed);
    }
}

/* Greatest sides so small that many sprites need several sheets. */
static void pack_pages(void) {
    asked it = some_sprites();
    several into = no_sheets();
    it.options.greatest = it.options.width = it.options.height = 40 + (int32_t)below(40);
    add(guillotiere_pack_pages(it.sprites, it.count, &it.options, into.places, it.room, into.sizes, SPRITES, &into.count,
                               &into.sprite));
    add_several(&into);
}

/* A number for each sprite; at times for fewer of them, or for more. */
static void pack_groups(void) {
    asked it = some_sprites();
    several into = no_sheets();
    uint32_t groups[SPRITES];
    it.options.greatest = it.options.width = it.options.height = 40 + (int32_t)below(40);
    for (uint32_t i = 0; i < SPRITES; i++) groups[i] = one_in(4) ? GUILLOTIERE_NO_GROUP : below(one_in(10) ? 4294967295u : 5);
    const size_t numbers = one_in(5) ? below(SPRITES + 1) : it.count;
    add(guillotiere_pack_groups(it.sprites, it.count, groups, numbers, &it.options, into.places, it.room, into.sizes, SPRITES,
                                &into.count, &into.sprite));
    add_several(&into);
}

static void fill(void) {
    asked it = some_sprites();
    guillotiere_size size = {7, 7};
    guillotiere_maybe_placed places[SPRITES];
    size_t sprite = 7, left = 7;
    for (uint32_t i = 0; i < SPRITES; i++) places[i] = (guillotiere_maybe_placed){7, unplaced};
    it.options.greatest = it.options.width = it.options.height = 40 + (int32_t)below(40);
    add(guillotiere_fill(it.sprites, it.count, &it.options, places, it.room, &left, &size, &sprite));
    add_wide(left);
    add_size(&size);
    add_wide(sprite);
    for (uint32_t i = 0; i < SPRITES; i++) {
        add(places[i].is_placed);
        if (places[i].is_placed == 1) add_placed(&places[i].placed);
    }
}

/* --- All of them ------------------------------------------------------------------------------------------------ */

#ifdef DIGEST_WITHOUT_CACHES
enum { CACHES = 0 };
#else
enum { CACHES = 1 };
#endif

static const struct {
    uint32_t weight;
    void (*call)(void);
} kinds[] = {
    {3600, allocate},     {2500, deallocate},     {60, deallocate_all}, {300, look_up},       {300, ask_atlas},
    {150, describe_atlas}, {20, list_atlas},      {60, grow_atlas},     {50, reserve},        {6, start_atlas_again},
    {12, rearrange},      {40, make_atlas},       {10, copy_atlas},     {4, free_atlas},      {800, take},
    {10, make_simple},    {20, start_simple_again}, {40, grow_simple},  {100, describe_simple}, {8, make_paged},
    {700, take_on_a_page}, {500, give_back_on_a_page}, {60, ask_pages}, {30, change_pages}, {900 * CACHES, insert},
    {700 * CACHES, ask_cache}, {80 * CACHES, let_go}, {100 * CACHES, next_frame}, {80 * CACHES, describe_cache}, {6 * CACHES, make_cache},
    {8, pack},           {30 * CACHES, know_cache}, {4, pack_pages},    {4, fill},
    {4, pack_dense},      {4, pack_groups},
};

static void any_call(void) {
    enum { KINDS = sizeof kinds / sizeof *kinds };
    uint32_t all = 0, at = 0;
    for (uint32_t i = 0; i < KINDS; i++) all += kinds[i].weight;
    for (uint32_t pick = below(all); pick >= kinds[at].weight; at++) pick -= kinds[at].weight;
    kinds[at].call();
}

void digest_start(uint32_t seed) {
    state = seed;
    sum = 14695981039346656037u;
}

uint64_t digest_calls(uint32_t count) {
    for (uint32_t i = 0; i < count; i++) any_call();
    return sum;
}

#ifndef DIGEST_BARE
#include <inttypes.h>
#include <stdio.h>
#include <stdlib.h>

int main(int words, char **word) {
    const uint32_t calls = words > 1 ? (uint32_t)strtoul(word[1], NULL, 10) : 100000;
    digest_start(words > 2 ? (uint32_t)strtoul(word[2], NULL, 10) : 1);
    for (uint32_t done = 0; done < calls;) {
        const uint32_t more = calls - done < 10000 ? calls - done : 10000;
        done += more;
        const uint64_t now = digest_calls(more);
        printf("%" PRIu32 " %016" PRIx64 "\n", done, now);
    }
    for (int i = 0; i < 2; i++) guillotiere_atlas_free(&both[i].atlas);
    guillotiere_simple_free(&simple);
    guillotiere_paged_free(&paged);
    guillotiere_cache_free(&cache);
    return 0;
}
#endif
