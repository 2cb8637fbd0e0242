/* Each call whose handles are const only reads: it writes nothing of what they hold, nor the handles.
 *
 *     readonly                 each call in a process of its own, over handles and blocks in memory that can't be written then
 *     readonly threads COUNT   each call COUNT times by each of two threads at once, for a library under ThreadSanitizer
 *     readonly names           the names of the calls
 *
 * For the first the program is linked so that malloc, realloc and free are those below
 * (-Wl,--wrap=malloc,--wrap=realloc,--wrap=free). What the calls answer was worked out by hand. */
#define _DEFAULT_SOURCE
#include "check.h"

#include <pthread.h>
#include <string.h>
#include <sys/mman.h>
#include <sys/wait.h>
#include <unistd.h>

void *__wrap_malloc(size_t size);
void *__wrap_realloc(void *block, size_t size);
void __wrap_free(void *block);

/* Blocks lie one behind another, each after its size, and none is used again. */
enum { REGION = 1 << 22, HEAD = 16 };
static unsigned char *region;
static size_t taken;

static void new_region(void) {
    region = mmap(NULL, REGION, PROT_READ | PROT_WRITE, MAP_PRIVATE | MAP_ANONYMOUS, -1, 0);
    CHECK(region != MAP_FAILED);
    taken = 0;
}

void *__wrap_malloc(size_t size) {
    unsigned char *const block = region + taken + HEAD;
    const size_t whole = (size + 2 * HEAD - 1) / HEAD * HEAD;
    if (size > REGION || taken + whole > REGION) return NULL;
    memcpy(block - HEAD, &size, sizeof size);
    taken += whole;
    return block;
}

void *__wrap_realloc(void *block, size_t size) {
    void *const moved = __wrap_malloc(size);
    size_t before = 0;
    if (block == NULL || moved == NULL) return moved;
    memcpy(&before, (unsigned char *)block - HEAD, sizeof before);
    return memcpy(moved, block, before < size ? before : size);
}

void __wrap_free(void *block) {
    (void)block;
}

/* An atlas of 20 boxes, 20 wide and 20 to 39 high; a simple allocator of which nothing is handed out; pages of 39 by 39, on each of which
 * one of these boxes has room; and a cache of the keys 0 to 19, each of 10 by 10 pixels with a padding of 1. */
struct held {
    guillotiere_atlas atlas;
    guillotiere_simple simple;
    guillotiere_paged paged;
    guillotiere_cache cache;
    guillotiere_allocation last;
    guillotiere_page_allocation on_a_page;
};

enum { SIDE = 1024, PAGE = 256, LAYER = 39, COUNT = 20, BOXES = 20 * (20 + 39) * 20 / 2, ENTRIES = COUNT * 12 * 12 };

static void fill(struct held *h) {
    guillotiere_cache_options options = {{PAGE, PAGE}, {PAGE, PAGE}, 1, 1, GUILLOTIERE_DEFAULT_OPTIONS};
    CHECK(guillotiere_atlas_new(SIDE, SIDE, &h->atlas) == GUILLOTIERE_DONE);
    CHECK(guillotiere_simple_new(SIDE, SIDE, &h->simple) == GUILLOTIERE_DONE);
    CHECK(guillotiere_paged_new(LAYER, LAYER, COUNT, &h->paged) == GUILLOTIERE_DONE);
    CHECK(guillotiere_cache_new(&options, &h->cache) == GUILLOTIERE_DONE);
    for (int i = 0; i < COUNT; i++) {
        guillotiere_place place;
        CHECK(guillotiere_atlas_allocate(&h->atlas, 20, 20 + i, &h->last) == GUILLOTIERE_DONE);
        CHECK(guillotiere_paged_allocate(&h->paged, 20, 20 + i, &h->on_a_page) == GUILLOTIERE_DONE);
        CHECK(guillotiere_cache_insert(&h->cache, (uint64_t)i, 10, 10, &place) == GUILLOTIERE_DONE);
    }
}

static bool atlas_get(const struct held *h) {
    guillotiere_rectangle found;
    return guillotiere_atlas_get(&h->atlas, h->last.id, &found) == GUILLOTIERE_DONE && found.max_x - found.min_x == 20
        && found.max_y - found.min_y == 39;
}

static bool atlas_can_fit(const struct held *h) {
    return guillotiere_atlas_can_fit(&h->atlas, 10, 10) && !guillotiere_atlas_can_fit(&h->atlas, SIDE, SIDE);
}

static bool atlas_can_grow_to(const struct held *h) {
    return guillotiere_atlas_can_grow_to(&h->atlas, 2000, 2000) && !guillotiere_atlas_can_grow_to(&h->atlas, 2000, 1000);
}

static bool atlas_size(const struct held *h) {
    guillotiere_size size;
    return guillotiere_atlas_size(&h->atlas, &size) == GUILLOTIERE_DONE && size.width == SIDE && size.height == SIDE;
}

static bool atlas_options(const struct held *h) {
    guillotiere_options options;
    return guillotiere_atlas_options(&h->atlas, &options) == GUILLOTIERE_DONE && options.alignment_width == 1;
}

static bool atlas_is_empty(const struct held *h) {
    return !guillotiere_atlas_is_empty(&h->atlas);
}

static bool atlas_slots(const struct held *h) {
    guillotiere_slots slots;
    return guillotiere_atlas_slots(&h->atlas, &slots) == GUILLOTIERE_DONE && slots.used >= COUNT;
}

static bool atlas_areas(const struct held *h) {
    guillotiere_areas areas;
    return guillotiere_atlas_areas(&h->atlas, &areas) == GUILLOTIERE_DONE && areas.allocated == BOXES
        && areas.free == (uint64_t)SIDE * SIDE - BOXES;
}

static bool atlas_unusable_area(const struct held *h) {
    uint64_t area;
    return guillotiere_atlas_unusable_area(&h->atlas, SIDE, SIDE, &area) == GUILLOTIERE_DONE
        && area == (uint64_t)SIDE * SIDE - BOXES;
}

static bool atlas_largest_free(const struct held *h) {
    guillotiere_rectangle found;
    return guillotiere_atlas_largest_free(&h->atlas, &found) == GUILLOTIERE_DONE && found.max_x - found.min_x > SIDE / 2;
}

static bool atlas_live(const struct held *h) {
    guillotiere_allocation found[COUNT];
    size_t count;
    return guillotiere_atlas_live(&h->atlas, found, COUNT, &count) == GUILLOTIERE_DONE && count == COUNT;
}

static bool atlas_free_boxes(const struct held *h) {
    guillotiere_rectangle found[COUNT];
    size_t count;
    return guillotiere_atlas_free_boxes(&h->atlas, found, COUNT, &count) == GUILLOTIERE_DONE && count > 0;
}

static bool atlas_clone(const struct held *h) {
    guillotiere_atlas copy = GUILLOTIERE_NONE;
    guillotiere_areas areas = {0, 0};
    bool is_right = guillotiere_atlas_clone(&h->atlas, &copy) == GUILLOTIERE_DONE;
    is_right = is_right && guillotiere_atlas_areas(&copy, &areas) == GUILLOTIERE_DONE && areas.allocated == BOXES;
    guillotiere_atlas_free(&copy);
    return is_right;
}

static bool simple_size(const struct held *h) {
    guillotiere_size size;
    return guillotiere_simple_size(&h->simple, &size) == GUILLOTIERE_DONE && size.width == SIDE && size.height == SIDE;
}

static bool simple_options(const struct held *h) {
    guillotiere_options options;
    return guillotiere_simple_options(&h->simple, &options) == GUILLOTIERE_DONE && options.alignment_height == 1;
}

static bool simple_slots(const struct held *h) {
    guillotiere_slots slots;
    return guillotiere_simple_slots(&h->simple, &slots) == GUILLOTIERE_DONE && slots.used == 1;
}

static bool simple_is_empty(const struct held *h) {
    return guillotiere_simple_is_empty(&h->simple);
}

static bool simple_can_grow_to(const struct held *h) {
    return guillotiere_simple_can_grow_to(&h->simple, 2000, 2000) && !guillotiere_simple_can_grow_to(&h->simple, 1000, 2000);
}

static bool simple_init_from_allocator(const struct held *h) {
    guillotiere_simple other = GUILLOTIERE_NONE;
    guillotiere_size size = {0, 0};
    bool is_right = guillotiere_simple_new(8, 8, &other) == GUILLOTIERE_DONE;
    is_right = is_right && guillotiere_simple_init_from_allocator(&other, &h->atlas) == GUILLOTIERE_DONE;
    is_right = is_right && guillotiere_simple_size(&other, &size) == GUILLOTIERE_DONE && size.width == SIDE;
    guillotiere_simple_free(&other);
    return is_right;
}

static bool paged_get(const struct held *h) {
    guillotiere_rectangle found;
    const uint32_t page = h->on_a_page.page, id = h->on_a_page.id;
    return page == COUNT - 1 && guillotiere_paged_get(&h->paged, page, id, &found) == GUILLOTIERE_DONE && found.max_y == 39
        && guillotiere_paged_get(&h->paged, COUNT, id, &found) == GUILLOTIERE_NOT_LIVE;
}

static bool paged_page_count(const struct held *h) {
    uint32_t pages;
    return guillotiere_paged_page_count(&h->paged, &pages) == GUILLOTIERE_DONE && pages == COUNT;
}

static bool paged_page_size(const struct held *h) {
    guillotiere_size size;
    return guillotiere_paged_page_size(&h->paged, 7, &size) == GUILLOTIERE_DONE && size.width == LAYER && size.height == LAYER;
}

static bool paged_areas(const struct held *h) {
    guillotiere_areas areas;
    return guillotiere_paged_areas(&h->paged, 7, &areas) == GUILLOTIERE_DONE && areas.allocated == 20 * 27
        && areas.free == LAYER * LAYER - 20 * 27;
}

static bool paged_live(const struct held *h) {
    guillotiere_allocation found[COUNT];
    size_t count;
    return guillotiere_paged_live(&h->paged, 7, found, COUNT, &count) == GUILLOTIERE_DONE && count == 1
        && found[0].rectangle.max_y == 27;
}

static bool cache_clone(const struct held *h) {
    guillotiere_cache copy = GUILLOTIERE_NONE;
    size_t len;
    bool is_right = guillotiere_cache_clone(&h->cache, &copy) == GUILLOTIERE_DONE;
    is_right = is_right && guillotiere_cache_len(&copy, &len) == GUILLOTIERE_DONE && len == COUNT;
    guillotiere_cache_free(&copy);
    return is_right;
}

static bool cache_peek(const struct held *h) {
    guillotiere_place place;
    return guillotiere_cache_peek(&h->cache, 1, &place) == GUILLOTIERE_DONE && place.page == 0
        && place.inner.max_x - place.inner.min_x == 10 && guillotiere_cache_peek(&h->cache, COUNT, &place) == GUILLOTIERE_NOT_HELD;
}

static bool cache_newest(const struct held *h) {
    guillotiere_place place;
    uint64_t key;
    return guillotiere_cache_newest(&h->cache, &key, &place) == GUILLOTIERE_DONE && key == COUNT - 1;
}

static bool cache_oldest(const struct held *h) {
    guillotiere_place place;
    uint64_t key;
    return guillotiere_cache_oldest(&h->cache, &key, &place) == GUILLOTIERE_DONE && key == 0;
}

static bool cache_older(const struct held *h) {
    guillotiere_place place;
    uint64_t key;
    return guillotiere_cache_older(&h->cache, 9, &key, &place) == GUILLOTIERE_DONE && key == 8;
}

static bool cache_len(const struct held *h) {
    size_t len;
    return guillotiere_cache_len(&h->cache, &len) == GUILLOTIERE_DONE && len == COUNT;
}

static bool cache_numbers(const struct held *h) {
    uint32_t numbers;
    return guillotiere_cache_numbers(&h->cache, &numbers) == GUILLOTIERE_DONE && numbers == COUNT;
}

static bool cache_page_count(const struct held *h) {
    uint32_t pages;
    return guillotiere_cache_page_count(&h->cache, &pages) == GUILLOTIERE_DONE && pages == 1;
}

static bool cache_page_size(const struct held *h) {
    guillotiere_size size;
    return guillotiere_cache_page_size(&h->cache, 0, &size) == GUILLOTIERE_DONE && size.width == PAGE && size.height == PAGE;
}

static bool cache_areas(const struct held *h) {
    guillotiere_areas areas;
    return guillotiere_cache_areas(&h->cache, 0, &areas) == GUILLOTIERE_DONE && areas.allocated == ENTRIES
        && areas.free == PAGE * PAGE - ENTRIES;
}

static bool cache_unusable_area(const struct held *h) {
    uint64_t area;
    return guillotiere_cache_unusable_area(&h->cache, 0, PAGE - 2, PAGE - 2, &area) == GUILLOTIERE_DONE
        && area == PAGE * PAGE - ENTRIES;
}

static bool cache_options_of(const struct held *h) {
    guillotiere_cache_options options;
    return guillotiere_cache_options_of(&h->cache, &options) == GUILLOTIERE_DONE && options.padding == 1;
}

static bool cache_statistics(const struct held *h) {
    guillotiere_counts counts;
    return guillotiere_cache_statistics(&h->cache, &counts) == GUILLOTIERE_DONE && counts.evictions == 0 && counts.forced == 0;
}

#define CALL(name) {"guillotiere_" #name, name}
static const struct {
    const char *name;
    bool (*is_right)(const struct held *);
} calls[] = {
    CALL(atlas_get), CALL(atlas_can_fit), CALL(atlas_can_grow_to), CALL(atlas_size), CALL(atlas_options), CALL(atlas_is_empty),
    CALL(atlas_slots), CALL(atlas_areas), CALL(atlas_unusable_area), CALL(atlas_largest_free), CALL(atlas_live),
    CALL(atlas_free_boxes), CALL(atlas_clone), CALL(simple_size), CALL(simple_options), CALL(simple_slots),
    CALL(simple_is_empty), CALL(simple_can_grow_to), CALL(simple_init_from_allocator),
    CALL(paged_get), CALL(paged_page_count), CALL(paged_page_size), CALL(paged_areas), CALL(paged_live),
    CALL(cache_peek), CALL(cache_newest), CALL(cache_oldest), CALL(cache_older), CALL(cache_len), CALL(cache_numbers),
    CALL(cache_page_count), CALL(cache_page_size), CALL(cache_areas), CALL(cache_unusable_area), CALL(cache_options_of),
    CALL(cache_statistics), CALL(cache_clone),
};
enum { CALLS = sizeof calls / sizeof calls[0] };

/* Ends with status 1 if a call writes there, or answers wrong, and names it. */
static int over_memory_that_cannot_be_written(void) {
    int faults = 0;
    new_region();
    struct held *const held = __wrap_malloc(sizeof *held);
    memset(held, 0, sizeof *held);
    fill(held);
    CHECK(mprotect(region, REGION, PROT_READ) == 0);
    new_region();
    for (size_t i = 0; i < CALLS; i++) {
        int status;
        const pid_t child = fork();
        CHECK(child >= 0);
        if (child == 0) _exit(!calls[i].is_right(held));
        CHECK(waitpid(child, &status, 0) == child);
        if (WIFEXITED(status) && WEXITSTATUS(status) == 0) continue;
        fprintf(stderr, "%s %s\n", calls[i].name, WIFEXITED(status) ? "answers wrong" : "writes what its handle holds");
        faults++;
    }
    return faults > 0;
}

#ifdef __SANITIZE_THREAD__
/* By these names a newer compiler than this one calls for what ThreadSanitizer watches. */
void *__tsan_memcpy(void *to, const void *from, size_t size);
void *__tsan_memmove(void *to, const void *from, size_t size);
void *__tsan_memset(void *at, int byte, size_t size);

void *__tsan_memcpy(void *to, const void *from, size_t size) {
    return memcpy(to, from, size);
}

void *__tsan_memmove(void *to, const void *from, size_t size) {
    return memmove(to, from, size);
}

void *__tsan_memset(void *at, int byte, size_t size) {
    return memset(at, byte, size);
}
#endif

struct work {
    const struct held *held;
    size_t call;
    long count, wrong;
};

static void *work(void *given) {
    struct work *const w = given;
    for (long i = 0; i < w->count; i++) w->wrong += !calls[w->call].is_right(w->held);
    return NULL;
}

static int by_two_threads(long count) {
    static struct held held;
    int faults = 0;
    fill(&held);
    for (size_t i = 0; i < CALLS; i++) {
        struct work one = {&held, i, count, 0}, other = {&held, i, count, 0};
        pthread_t thread;
        CHECK(pthread_create(&thread, NULL, work, &one) == 0);
        work(&other);
        CHECK(pthread_join(thread, NULL) == 0);
        if (one.wrong + other.wrong == 0) continue;
        fprintf(stderr, "%s answers wrong %ld times\n", calls[i].name, one.wrong + other.wrong);
        faults++;
    }
    guillotiere_atlas_free(&held.atlas);
    guillotiere_simple_free(&held.simple);
    guillotiere_paged_free(&held.paged);
    guillotiere_cache_free(&held.cache);
    return faults > 0;
}

int main(int argc, char **argv) {
    if (argc == 3 && strcmp(argv[1], "threads") == 0) return by_two_threads(strtol(argv[2], NULL, 10));
    if (argc == 1) return over_memory_that_cannot_be_written();
    for (size_t i = 0; i < CALLS; i++) printf("%s\n", calls[i].name);
    return 0;
}
