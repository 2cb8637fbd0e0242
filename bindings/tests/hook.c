/* Memory of the caller's: guillotiere_set_memory counts, limits and refuses, malloc isn't asked while it is set, and each block
 * goes back with the size that it was asked for. Linked with -Wl,--wrap=malloc,--wrap=realloc,--wrap=free, which count. */
#include "check.h"

#include <string.h>

void *__real_malloc(size_t size);
void *__real_realloc(void *block, size_t size);
void __real_free(void *block);
void *__wrap_malloc(size_t size);
void *__wrap_realloc(void *block, size_t size);
void __wrap_free(void *block);

static long asked; /* of malloc and the others */

void *__wrap_malloc(size_t size) {
    asked++;
    return __real_malloc(size);
}

void *__wrap_realloc(void *block, size_t size) {
    asked++;
    return __real_realloc(block, size);
}

void __wrap_free(void *block) {
    asked++;
    __real_free(block);
}

/* A budget of bytes, which each block notes in front of itself. */
struct budget {
    size_t left, most_left;
    long blocks, requests, refuse; /* refuse: the request that is refused, if not 0 */
    bool is_broken;
};

enum { HEAD = 16 };

static void *resize(void *user, void *block, size_t size_before, size_t size) {
    struct budget *const budget = user;
    unsigned char *const head = block == NULL ? NULL : (unsigned char *)block - HEAD;
    size_t noted = 0;
    if (head != NULL) memcpy(&noted, head, sizeof noted);
    if (noted != size_before || (head == NULL && size == 0) || (uintptr_t)block % HEAD != 0) budget->is_broken = true;
    if (size == 0) {
        budget->left += noted;
        budget->blocks--;
        __real_free(head);
        return NULL;
    }
    budget->requests++;
    if (budget->requests == budget->refuse || size > budget->left + noted) return NULL;
    unsigned char *const moved = __real_realloc(head, size + HEAD);
    CHECK(moved != NULL && (uintptr_t)moved % HEAD == 0);
    memcpy(moved, &size, sizeof size);
    budget->left = budget->left + noted - size;
    budget->blocks += head == NULL;
    return moved + HEAD;
}

static const struct budget all = {(size_t)1 << 30, (size_t)1 << 30, 0, 0, 0, false};

/* Work of each kind, whose first status that isn't DONE it answers. Nothing is held before or after. */
static uint32_t work(void) {
    guillotiere_atlas atlas = GUILLOTIERE_NONE, copy = GUILLOTIERE_NONE;
    guillotiere_simple simple = GUILLOTIERE_NONE;
    guillotiere_cache cache = GUILLOTIERE_NONE;
    const guillotiere_cache_options options = {{64, 64}, {128, 128}, 3, 1, GUILLOTIERE_DEFAULT_OPTIONS};
    const guillotiere_sheet_options sheet = GUILLOTIERE_DEFAULT_SHEET_OPTIONS;
    const guillotiere_size sprites[3] = {{10, 20}, {30, 5}, {7, 7}};
    guillotiere_placed places[3];
    guillotiere_allocation granted;
    guillotiere_rectangle box;
    guillotiere_place place;
    guillotiere_size size;
    size_t bad;
    uint32_t status = guillotiere_atlas_new(512, 512, &atlas);
    for (int i = 0; status == GUILLOTIERE_DONE && i < 100; i++)
        status = guillotiere_atlas_allocate(&atlas, 10 + i % 7, 12 + i % 5, &granted);
    if (status == GUILLOTIERE_DONE) status = guillotiere_atlas_clone(&atlas, &copy);
    if (status == GUILLOTIERE_DONE) status = guillotiere_simple_new(256, 256, &simple);
    for (int i = 0; status == GUILLOTIERE_DONE && i < 20; i++) status = guillotiere_simple_allocate(&simple, 9, 9 + i, &box);
    if (status == GUILLOTIERE_DONE) status = guillotiere_cache_new(&options, &cache);
    for (uint64_t key = 0; status == GUILLOTIERE_DONE && key < 60; key++) status = guillotiere_cache_insert(&cache, key, 12, 12, &place);
    if (status == GUILLOTIERE_DONE) status = guillotiere_pack(sprites, 3, &sheet, places, 3, &size, &bad);
    guillotiere_atlas_free(&atlas);
    guillotiere_atlas_free(&copy);
    guillotiere_simple_free(&simple);
    guillotiere_cache_free(&cache);
    return status;
}

/* Runs the work over this budget, all of which comes back. */
static uint32_t work_over(struct budget *budget) {
    const long before = asked;
    guillotiere_set_memory(resize, budget);
    const uint32_t status = work();
    CHECK(asked == before);
    CHECK(!budget->is_broken && budget->blocks == 0 && budget->left == budget->most_left);
    guillotiere_set_memory(NULL, NULL);
    return status;
}

int main(void) {
    struct budget budget = all;
    CHECK(work_over(&budget) == GUILLOTIERE_DONE);
    const long requests = budget.requests;
    CHECK(requests > 10);
    long refused = 0;
    for (long refuse = 1; refuse <= requests; refuse++) {
        budget = all;
        budget.refuse = refuse;
        const uint32_t status = work_over(&budget);
        /* what can do with a smaller block asks for that next */
        CHECK(status == GUILLOTIERE_MEMORY ? budget.requests == refuse : status == GUILLOTIERE_DONE && budget.requests > requests);
        refused += status == GUILLOTIERE_MEMORY;
    }
    CHECK(refused > requests / 2);
    for (size_t limit = 0; limit < 60000; limit += 1000) {
        budget = all;
        budget.left = budget.most_left = limit;
        const uint32_t status = work_over(&budget);
        CHECK(status == GUILLOTIERE_MEMORY || (limit > 20000 && status == GUILLOTIERE_DONE));
    }
    const long before = asked;
    CHECK(work() == GUILLOTIERE_DONE && asked > before);
    return 0;
}
