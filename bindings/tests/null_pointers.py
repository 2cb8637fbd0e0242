"""A program in C, written from the header, that passes each call a null pointer in place of each of its pointers in turn."""
import os

import nulls

HEAD = """#include "check.h"

#include <string.h>

static guillotiere_atlas live_atlas;
static guillotiere_simple live_simple;
static guillotiere_paged live_paged;
static guillotiere_cache live_cache;
/* What all other pointers point to, which no call writes. */
static union {
    uint64_t words[64];
    guillotiere_cache_change change;
    guillotiere_sheet_options options;
} room;

static void is_untouched(int line) {
    for (int i = 0; i < 64; i++) {
        if (room.words[i] != 0) {
            fprintf(stderr, "line %d: something was written\\n", line);
            exit(1);
        }
    }
}

int main(void) {
    const guillotiere_cache_options options = GUILLOTIERE_DEFAULT_CACHE_OPTIONS;
    guillotiere_allocation box;
    guillotiere_page_allocation on_page;
    guillotiere_rectangle area;
    guillotiere_place place;
    guillotiere_areas areas;
    guillotiere_counts counts;
    size_t keys;
    CHECK(guillotiere_atlas_new(64, 64, &live_atlas) == GUILLOTIERE_DONE);
    CHECK(guillotiere_simple_new(64, 64, &live_simple) == GUILLOTIERE_DONE);
    CHECK(guillotiere_atlas_allocate(&live_atlas, 8, 8, &box) == GUILLOTIERE_DONE);
    CHECK(guillotiere_paged_new(64, 64, 2, &live_paged) == GUILLOTIERE_DONE);
    CHECK(guillotiere_paged_allocate(&live_paged, 8, 8, &on_page) == GUILLOTIERE_DONE);
    CHECK(guillotiere_cache_new(&options, &live_cache) == GUILLOTIERE_DONE);
    CHECK(guillotiere_cache_insert(&live_cache, 1, 8, 8, &place) == GUILLOTIERE_DONE);
"""
TAIL = """    /* all that is held is as it was */
    CHECK(guillotiere_atlas_areas(&live_atlas, &areas) == GUILLOTIERE_DONE && areas.allocated == 64 && areas.free == 64 * 64 - 64);
    CHECK(guillotiere_simple_allocate(&live_simple, 64, 64, &area) == GUILLOTIERE_DONE);
    CHECK(guillotiere_paged_get(&live_paged, 0, on_page.id, &area) == GUILLOTIERE_DONE && area.max_x == 8);
    CHECK(guillotiere_paged_areas(&live_paged, 0, &areas) == GUILLOTIERE_DONE && areas.free == 64 * 64 - 64);
    CHECK(guillotiere_cache_len(&live_cache, &keys) == GUILLOTIERE_DONE && keys == 1);
    CHECK(guillotiere_cache_statistics(&live_cache, &counts) == GUILLOTIERE_DONE && counts.hits == 0 && counts.misses == 0);
    guillotiere_atlas_free(&live_atlas);
    guillotiere_simple_free(&live_simple);
    guillotiere_paged_free(&live_paged);
    guillotiere_cache_free(&live_cache);
    return 0;
}
"""
REFUSED = {'uint32_t': 'CHECK(%s == GUILLOTIERE_NULL_POINTER);', 'bool': 'CHECK(!%s);', 'void': '%s;'}


def argument(kind, name):
    """What is passed of a parameter that isn't null: the handle that holds something, room, or 1."""
    if kind != 'void *':
        return '1'
    return '&live_' + name if name in ('atlas', 'simple', 'paged', 'cache') else '(void *)&room'


def source():
    """The program, and how many cases it has."""
    lines = []
    for result, name, parameters in nulls.declared():
        for at, (kind, word) in enumerate(parameters):
            if kind == 'void *' and word not in nulls.OPTIONAL:
                passed = ['NULL' if i == at else argument(*each) for i, each in enumerate(parameters)]
                lines.append('    %s is_untouched(__LINE__);\n' % (REFUSED[result] % ('%s(%s)' % (name, ', '.join(passed)))))
    return HEAD + ''.join(lines) + TAIL, len(lines)


def written(folder):
    """Writes it into a folder; gives the path."""
    path = os.path.join(folder, 'null_pointers.c')
    with open(path, 'w') as file:
        file.write(source()[0])
    return path
