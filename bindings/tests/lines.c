/* Carries out the lines of standard input as crates/atlas_tool does (docs/TOOL.md), `record` and `replay` aside, and
 * writes their replies. A line that it can't read ends it with status 2. */
#include "check.h"

#include <string.h>

static guillotiere_atlas atlas;
static guillotiere_simple simple;

static void print_box(const char *before, const guillotiere_rectangle *r) {
    printf("%s %d %d %d %d", before, (int)r->min_x, (int)r->min_y, (int)r->max_x, (int)r->max_y);
}

static void print_allocation(const char *word, const guillotiere_allocation *a) {
    printf("%s %u", word, (unsigned)a->id);
    print_box("", &a->rectangle);
}

/* The reply to a call that gives nothing back, or that gave nothing. */
static void reply(uint32_t status, const char *nothing_held) {
    static const char *const replies[] = {"ok",           "none",           "bad call", "refused not live", "refused slots",
                                          "refused memory", "arrays too short"};
    puts(status == GUILLOTIERE_EMPTY ? nothing_held : replies[status]);
}

static int by_corner(const void *one, const void *other) {
    const guillotiere_rectangle *const a = (const guillotiere_rectangle *)one;
    const guillotiere_rectangle *const b = (const guillotiere_rectangle *)other;
    if (a->min_y != b->min_y) return a->min_y < b->min_y ? -1 : 1;
    return a->min_x < b->min_x ? -1 : a->min_x > b->min_x;
}

static void holes(void) {
    guillotiere_slots slots = {0, 0, 0};
    guillotiere_atlas_slots(&atlas, &slots);
    guillotiere_rectangle *const found = (guillotiere_rectangle *)room_for(slots.used, sizeof *found);
    size_t count = 0;
    const uint32_t status = guillotiere_atlas_free_boxes(&atlas, found, slots.used, &count);
    if (status != GUILLOTIERE_DONE) {
        reply(status, "no atlas");
    } else {
        qsort(found, count, sizeof *found, by_corner);
        for (size_t i = 0; i < count; i++) print_box("hole", &found[i]), puts("");
        printf("holes %zu\n", count);
    }
    free(found);
}

static void live(void) {
    guillotiere_slots slots = {0, 0, 0};
    guillotiere_atlas_slots(&atlas, &slots);
    guillotiere_allocation *const found = (guillotiere_allocation *)room_for(slots.used, sizeof *found);
    size_t count = 0;
    const uint32_t status = guillotiere_atlas_live(&atlas, found, slots.used, &count);
    if (status != GUILLOTIERE_DONE) {
        reply(status, "no atlas");
    } else {
        for (size_t i = 0; i < count; i++) print_allocation("box", &found[i]), puts("");
        printf("live %zu\n", count);
    }
    free(found);
}

/* At the present size where there are no sides. */
static void rearrange(const int32_t *sides) {
    guillotiere_slots slots = {0, 0, 0};
    guillotiere_atlas_slots(&atlas, &slots);
    const size_t room = slots.used;
    guillotiere_change *const changes = (guillotiere_change *)room_for(room, sizeof *changes);
    guillotiere_allocation *const failures = (guillotiere_allocation *)room_for(room, sizeof *failures);
    guillotiere_change_count count = {0, 0};
    const uint32_t status =
        sides == NULL ? guillotiere_atlas_rearrange(&atlas, changes, room, failures, room, &count)
                      : guillotiere_atlas_resize_and_rearrange(&atlas, sides[0], sides[1], changes, room, failures,
                                                               room, &count);
    if (status != GUILLOTIERE_DONE) {
        reply(status, "no atlas");
    } else {
        for (size_t i = 0; i < count.changes; i++) {
            print_allocation("moved", &changes[i].before);
            print_allocation(" to", &changes[i].after);
            puts("");
        }
        for (size_t i = 0; i < count.failures; i++) print_allocation("lost", &failures[i]), puts("");
        printf("changes %zu failures %zu\n", count.changes, count.failures);
    }
    free(changes);
    free(failures);
}

static void alloc(int32_t width, int32_t height) {
    guillotiere_allocation granted;
    const uint32_t status = guillotiere_atlas_allocate(&atlas, width, height, &granted);
    if (status != GUILLOTIERE_DONE) {
        reply(status, "no atlas");
        return;
    }
    printf("id %u at", (unsigned)granted.id);
    print_box("", &granted.rectangle);
    puts("");
}

static void take(int32_t width, int32_t height) {
    guillotiere_rectangle granted;
    const uint32_t status = guillotiere_simple_allocate(&simple, width, height, &granted);
    if (status != GUILLOTIERE_DONE) {
        reply(status, "no simple");
        return;
    }
    print_box("at", &granted);
    puts("");
}

/* A new atlas takes the place of the old one, unless it is refused. */
static void make_atlas(int words, const int32_t *n) {
    const guillotiere_options options = {n[2], n[3], n[4], n[5]};
    guillotiere_atlas made = GUILLOTIERE_NONE;
    const uint32_t status = words == 3 ? guillotiere_atlas_new(n[0], n[1], &made)
                                       : guillotiere_atlas_with_options(n[0], n[1], &options, &made);
    if (status == GUILLOTIERE_DONE) {
        guillotiere_atlas_free(&atlas);
        atlas = made;
    }
    reply(status, "");
}

static void make_simple(int32_t width, int32_t height) {
    guillotiere_simple made = GUILLOTIERE_NONE;
    const uint32_t status = guillotiere_simple_new(width, height, &made);
    if (status == GUILLOTIERE_DONE) {
        guillotiere_simple_free(&simple);
        simple = made;
    }
    reply(status, "");
}

static void size(void) {
    guillotiere_size found;
    const uint32_t status = guillotiere_atlas_size(&atlas, &found);
    if (status != GUILLOTIERE_DONE)
        reply(status, "no atlas");
    else
        printf("size %d %d\n", (int)found.width, (int)found.height);
}

static bool is(const char *word, const char *wanted, int words, int wanted_words) {
    return strcmp(word, wanted) == 0 && words == wanted_words;
}

static bool carry_out(const char *line) {
    char word[16] = "";
    long long n[6] = {0};
    const int words = sscanf(line, "%15s %lld %lld %lld %lld %lld %lld", word, &n[0], &n[1], &n[2], &n[3], &n[4], &n[5]);
    int32_t sides[6];
    for (int i = 0; i < 6; i++) sides[i] = (int32_t)n[i];
    guillotiere_size ignored;
    if (words < 1) return true;
    if (is(word, "atlas", words, 3) || is(word, "atlas", words, 7)) return make_atlas(words, sides), true;
    if (is(word, "alloc", words, 3)) return alloc(sides[0], sides[1]), true;
    if (is(word, "free", words, 2)) return reply(guillotiere_atlas_deallocate(&atlas, (uint32_t)n[0]), "no atlas"), true;
    if (is(word, "grow", words, 3)) return reply(guillotiere_atlas_grow(&atlas, sides[0], sides[1]), "no atlas"), true;
    if (is(word, "clear", words, 1)) return reply(guillotiere_atlas_clear(&atlas), "no atlas"), true;
    if (is(word, "live", words, 1)) return live(), true;
    if (is(word, "holes", words, 1)) return holes(), true;
    if (is(word, "size", words, 1)) return size(), true;
    if (is(word, "rearrange", words, 1)) return rearrange(NULL), true;
    if (is(word, "resize", words, 3)) return rearrange(sides), true;
    if (is(word, "simple", words, 3)) return make_simple(sides[0], sides[1]), true;
    if (is(word, "take", words, 3)) return take(sides[0], sides[1]), true;
    if (is(word, "empty", words, 1)) {
        const bool has_atlas = guillotiere_atlas_size(&atlas, &ignored) == GUILLOTIERE_DONE;
        return puts(!has_atlas ? "no atlas" : guillotiere_atlas_is_empty(&atlas) ? "true" : "false"), true;
    }
    if (is(word, "from-atlas", words, 1)) {
        const bool has_atlas = guillotiere_atlas_size(&atlas, &ignored) == GUILLOTIERE_DONE;
        const uint32_t status = guillotiere_simple_init_from_allocator(&simple, &atlas);
        return reply(status, has_atlas ? "no simple" : "no atlas"), true;
    }
    return false;
}

int main(void) {
    char line[200];
    while (fgets(line, sizeof line, stdin) != NULL)
        if (!carry_out(line)) {
            fprintf(stderr, "can't read: %s", line);
            return 2;
        }
    guillotiere_atlas_free(&atlas);
    guillotiere_simple_free(&simple);
    return 0;
}
