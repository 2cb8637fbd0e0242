/* Written by rust/erase from guillotiere.h.in and from the exports of crates/guillotiere_c: don't edit. */
/* The atlas allocators of guillotiere, for C99.
 *
 * An atlas is one large rectangle, often a texture, that hands out boxes and takes them back. A simple allocator hands
 * out boxes and takes none back. A paged atlas does as an atlas does on several pages, such as the layers of a texture array, which come
 * where no other has room. A cache keeps rectangles under keys in pages, which are textures or the layers of a texture
 * array, and reports what its caller has to do to the textures. guillotiere_pack takes sprites that are all known beforehand
 * and packs them into one small sheet, guillotiere_pack_dense into one that is as a rule smaller, guillotiere_pack_pages into
 * several, guillotiere_pack_groups into several with each group of sprites on one of them, and guillotiere_fill as many of them
 * as one sheet takes; these need no handle. Lengths and coordinates are in pixels, areas in unit squares; y grows downwards.
 *
 * Handles. A handle is a place for an allocator, which its owner keeps:
 *
 *     guillotiere_atlas atlas = GUILLOTIERE_NONE;
 *     if (guillotiere_atlas_new(1024, 1024, &atlas) != GUILLOTIERE_DONE) ...
 *     ...
 *     guillotiere_atlas_free(&atlas);
 *
 * A handle that is all zero holds nothing: each call of it that has a status answers GUILLOTIERE_EMPTY. After
 * guillotiere_atlas_free it holds nothing again, so freeing twice does nothing. An allocator's memory is from malloc, or from what
 * guillotiere_set_memory names, and guillotiere_atlas_free gives all of it back.
 *
 * Ids. The id of a box that is freed may be that of the next box: in a full atlas the next request of its size has it, after this one
 * freeing. Where the freed box joins with others, its slot is taken anew for another box, and an id comes again once that has happened
 * 256 times. After guillotiere_atlas_clear, _reset, _rearrange and _resize_and_rearrange ids begin anew. So forget an id as soon as you
 * free it: a call by a forgotten one is answered by GUILLOTIERE_NOT_LIVE only as long as its number isn't that of another box.
 *
 * Statuses. A call returns a status. It is total: sizes, options, ids and limits may be any numbers, and what is wrong
 * is reported. After any status other than GUILLOTIERE_DONE all handles hold what they held, and nothing was written, except
 * the number of a bad sprite (of a sheet), and except by three calls of a cache: guillotiere_cache_insert answers
 * GUILLOTIERE_HELD for a key that was held, which counts as used then and whose place is written, and may have made changes after
 * another status, which it reports; guillotiere_cache_get counts a miss; and after a refused guillotiere_cache_reserve_slots the
 * pages before the refused one have theirs in reserve.
 *
 * Null. A null pointer is answered at once by GUILLOTIERE_NULL_POINTER, by `false`, or by a call that returns nothing by doing
 * nothing, so that guillotiere_atlas_free(NULL) is harmless. An array of length 0 may be null. Where a call of a sheet writes the
 * number of a bad sprite, and guillotiere_cache_remove the place that a key had, the pointer may be null: it isn't written then.
 *
 * What the caller owes, which nothing tests:
 * - A handle has been written by calls of this library alone, or is all zero.
 * - A handle isn't copied, by `=`, by memcpy or as a value that is passed: both would hold one allocator, and once it was freed by
 *   one of them each call of the other is a fault, which no status tells. It may be moved: the old one isn't used again. A second
 *   allocator like the first is made by guillotiere_atlas_clone, a second cache by guillotiere_cache_clone. The owners of guillotiere.hpp
 *   can't be copied but by clone(), which the compiler says; in C valgrind tells each call of a copy whose allocator was freed, and
 *   AddressSanitizer that it is freed again.
 * - A pointer that isn't null points to a value of its type, or to as many as the length says.
 * - What is passed by pointers without `const` overlaps nothing else that is passed.
 * - While a call runs that is passed a handle without `const`, no other call uses that handle. A call that is passed it by `const`
 *   writes neither the handle nor what it holds, so any number of threads may make such calls at once. A handle may be handed to
 *   another thread under a lock, or by starting or joining a thread.
 * - malloc, realloc and free are those of one allocator; no call is made from a signal handler. */
#ifndef GUILLOTIERE_H
#define GUILLOTIERE_H

#include <stdbool.h>
#include <stddef.h>
#include <stdint.h>

#ifdef __cplusplus
extern "C" {
#endif

/* Before a call that may refuse a handle that holds something: a compiler warns where its status isn't looked at. What GCC's attribute
 * marks it warns of behind `(void)` too, and not behind `(void)!`. guillotiere_cache_remove isn't marked: after it the key isn't held,
 * whatever it answered. */
#if defined(__GNUC__)
#define GUILLOTIERE_CHECKED __attribute__((warn_unused_result))
#else
#define GUILLOTIERE_CHECKED
#endif

/* Statuses. */
enum guillotiere_status {
    GUILLOTIERE_DONE = 0, /* done; what is granted, found or listed was written */
    GUILLOTIERE_NO_ROOM = 1, /* the request has no room */
    GUILLOTIERE_BAD_CALL = 2, /* an empty size, options that aren't valid, a growth that shrinks a side, or a bad limit */
    GUILLOTIERE_NOT_LIVE = 3, /* an id isn't live, or is listed twice */
    GUILLOTIERE_SLOTS = 4, /* more slots would be used than the limit allows */
    GUILLOTIERE_MEMORY = 5, /* memory was refused */
    GUILLOTIERE_SHORT = 6, /* an array is too short */
    GUILLOTIERE_EMPTY = 7, /* a handle holds nothing */
    GUILLOTIERE_EMPTY_SHEET = 8, /* a side of the sheet, or the least that is allowed, is below 1 */
    GUILLOTIERE_EMPTY_RANGE = 9, /* the greatest side of a sheet is below the least */
    GUILLOTIERE_EMPTY_ALIGNMENT = 10, /* a side of the alignment is below 1 */
    GUILLOTIERE_EMPTY_SPRITE = 11, /* a sprite has a side below 1 */
    GUILLOTIERE_GREAT_SPRITE = 12, /* a side of a sprite, with the padding at both its ends, exceeds 2147483647 pixels */
    GUILLOTIERE_OTHER_SIZE = 13, /* a key is held with another size */
    GUILLOTIERE_NUMBERS = 14, /* a cache holds 4294967295 keys, and can hold no more */
    GUILLOTIERE_EMPTY_PAGE = 15, /* a side of a new page is below 1 */
    GUILLOTIERE_LARGEST_PAGE = 16, /* a side of the largest page is less than that of a new one */
    GUILLOTIERE_NO_PAGES = 17, /* no pages are allowed */
    GUILLOTIERE_BAD_PADDING = 18, /* the padding is below 0 */
    GUILLOTIERE_BAD_ATLAS = 19, /* the options of the pages' atlases aren't valid */
    GUILLOTIERE_NOT_HELD = 20, /* a key isn't held */
    GUILLOTIERE_NO_CHANGE = 21, /* each change was handed over */
    GUILLOTIERE_NO_PAGE = 22, /* there is no such page */
    GUILLOTIERE_HELD = 23, /* a key that is inserted was held already; its place was written */
    GUILLOTIERE_FRAME_FULL = 24, /* this frame uses all that the pages of a cache have room for */
    GUILLOTIERE_NEVER_FITS = 25, /* with the padding, rounded up to the alignment, a size exceeds the largest page */
    /* With the padding and rounded up, not even 1 by 1 fits the largest page; 26 isn't used. */
    GUILLOTIERE_NOTHING_FITS = 27,
    GUILLOTIERE_NULL_POINTER = 28, /* a pointer is null, or that of an array whose length isn't 0; nothing was done */
    GUILLOTIERE_OCCUPIED = 29 /* a handle that is to be filled holds something already */
};

/* What a status means, in a few words of English; "no status" of another number. The text stays for good, and nobody frees it. */
const char *guillotiere_status_text(uint32_t status);

/* Kinds of sheets. */
enum {
    GUILLOTIERE_ONE_SIZE = 0, /* `width` by `height` alone */
    GUILLOTIERE_SQUARES = 1, /* squares with a side from `least` to `greatest` */
    GUILLOTIERE_POWERS = 2, /* each side a power of two, at most `greatest`; the sides may differ */
    GUILLOTIERE_HEIGHTS = 3 /* `width`, and a height from 1 to `greatest` */
};

/* Kinds of changes of a cache. */
enum {
    GUILLOTIERE_PAGE_ADDED = 0, /* there is a new page, the last one: make a texture of `size` for `page` */
    GUILLOTIERE_PAGE_GROWN = 1, /* `page` has this `size` now, and nothing on it moved: make its texture larger */
    GUILLOTIERE_EVICTED = 2, /* `key` is gone, and its place was `from` */
    /* `key` moved, by a repacking: copy `from.rectangle` to `to.rectangle`, border and all, out of a copy of the page as it was
     * before the call. */
    GUILLOTIERE_MOVED = 3,
    GUILLOTIERE_PAGE_REMOVED = 4 /* `page`, the last one, is gone, and nothing was on it: drop its texture */
};

/* The version of this header: its three numbers, and all three as one: a million times the first, plus a thousand times the
 * second, plus the third. */
#define GUILLOTIERE_VERSION_MAJOR 0
#define GUILLOTIERE_VERSION_MINOR 7
#define GUILLOTIERE_VERSION_PATCH 0
#define GUILLOTIERE_VERSION \
    (GUILLOTIERE_VERSION_MAJOR * 1000000 + GUILLOTIERE_VERSION_MINOR * 1000 + GUILLOTIERE_VERSION_PATCH)

/* The number of this interface, which isn't the version's. It is raised by one when something is changed or taken away by which a program
 * was compiled: what a function takes or what its answers mean, a field of a struct, or a number. What is only added leaves it. So a
 * program runs with every library whose guillotiere_interface() is the GUILLOTIERE_INTERFACE that it was compiled with and whose
 * guillotiere_version() is at least its GUILLOTIERE_VERSION. The name of the shared library has this number. */
#define GUILLOTIERE_INTERFACE 3

/* The greatest limit on the slots of an atlas, and that of an atlas without a limit of its own. */
#define GUILLOTIERE_MOST_SLOTS 16777216

/* Instead of the number of a group: the sprite is in none. Every smaller number, 0 included, is that of a group. */
#define GUILLOTIERE_NO_GROUP 4294967295u

/* A handle that holds nothing, and the default options: initializers. */
#define GUILLOTIERE_NONE {NULL}
#define GUILLOTIERE_DEFAULT_OPTIONS {1, 1, 32, 256}

/* Squares with a side from 1 to 4096, no padding, alignment 1, no turning, no effort: an initializer. */
#define GUILLOTIERE_DEFAULT_SHEET_OPTIONS {GUILLOTIERE_SQUARES, 0, 0, 1, 4096, 0, 1, 1, 0, 0, 0}

/* Four pages at most, each of 512 by 512 at first and up to 2048 by 2048, and a border of 1 around each entry, as a linear filter needs
 * it: an initializer. */
#define GUILLOTIERE_DEFAULT_CACHE_OPTIONS {{512, 512}, {2048, 2048}, 4, 1, GUILLOTIERE_DEFAULT_OPTIONS}

/* A place for an atlas: it holds one, or nothing, and then it is null. */
typedef struct guillotiere_atlas {
    void *at;
} guillotiere_atlas;

/* A place for a simple allocator: it holds one, or nothing, and then it is null. */
typedef struct guillotiere_simple {
    void *at;
} guillotiere_simple;

/* A place for boxes on several pages: it holds a paged atlas, or nothing, and then it is null. */
typedef struct guillotiere_paged {
    void *at;
} guillotiere_paged;

/* A place for a cache: it holds one, or nothing, and then it is null. */
typedef struct guillotiere_cache {
    void *at;
} guillotiere_cache;

/* A size, in pixels. */
typedef struct guillotiere_size {
    int32_t width;
    int32_t height;
} guillotiere_size;

/* The unit squares from `min` up to, but not including, `max`. */
typedef struct guillotiere_rectangle {
    int32_t min_x;
    int32_t min_y;
    int32_t max_x;
    int32_t max_y;
} guillotiere_rectangle;

/* A live box. An id that was freed may be issued again, for another box, even by the next call: forget it when you free it. */
typedef struct guillotiere_allocation {
    uint32_t id;
    guillotiere_rectangle rectangle;
} guillotiere_allocation;

/* A box that was placed anew: under its former id, and under the id that it has now. Its sides stay. */
typedef struct guillotiere_change {
    guillotiere_allocation before;
    guillotiere_allocation after;
} guillotiere_change;

/* Sides of requests are rounded up to multiples of the alignment, whose sides are above 0. A size is small if both its sides
 * are below the small threshold, large if one is at least the large one; the small one is at most the large one. */
typedef struct guillotiere_options {
    int32_t alignment_width;
    int32_t alignment_height;
    int32_t small_size_threshold;
    int32_t large_size_threshold;
} guillotiere_options;

/* How many slots are used, the most that were used at once since the last start, and how many may be used. Each live and
 * each free box takes a slot, and so does each container of the tree of cuts. Of a simple allocator: its entries, one for
 * each free box; how many there are, used and unused; and 4261412864. */
typedef struct guillotiere_slots {
    uint32_t used;
    uint32_t kept;
    uint32_t limit;
} guillotiere_slots;

/* The areas of all live and of all free boxes of an atlas or of a page, which are together its own. */
typedef struct guillotiere_areas {
    uint64_t allocated;
    uint64_t free;
} guillotiere_areas;

/* How many changes and failures a rearranging wrote. */
typedef struct guillotiere_change_count {
    size_t changes;
    size_t failures;
} guillotiere_change_count;

/* A live box on one of several pages: its page, counted from 0, its id there, which another page may have too, and its
 * rectangle. */
typedef struct guillotiere_page_allocation {
    uint32_t page;
    uint32_t id;
    guillotiere_rectangle rectangle;
} guillotiere_page_allocation;

/* Which sheets are allowed, and how sprites lie in them. Of `width`, `height`, `least` and `greatest`, in pixels, only those
 * that the kind names are read. */
typedef struct guillotiere_sheet_options {
    uint32_t allowed; /* a kind of sheets */
    int32_t width;
    int32_t height;
    int32_t least;
    int32_t greatest;
    /* The least number of pixels between two sprites, and between a sprite and the border: at most 65535. */
    uint32_t padding;
    /* Each place, with the padding at its left and above, begins on multiples of these two sides, which are at least 1,
     * and takes multiples of them, also at the right and lower border. The padding at its right and below comes after that:
     * with 4 by 4 and a padding of 1 a sprite of 1 by 1 needs a sheet of 5 by 5. */
    int32_t alignment_width;
    int32_t alignment_height;
    uint32_t turn; /* 0 for no turning; otherwise a sprite may lie turned by 90 degrees */
    uint32_t effort; /* how many more orders of the sprites are tried: 0 for none, 20000 for a second or so */
    uint64_t seed; /* for these orders; the same input gives the same sheet on every machine */
} guillotiere_sheet_options;

/* Where a sprite lies: its place without the padding, and whether it is turned by 90 degrees (1 or 0): then the place is as
 * wide as the sprite is high. */
typedef struct guillotiere_placed {
    guillotiere_rectangle area;
    uint32_t turned;
} guillotiere_placed;

/* Where a sprite lies in a sheet that was filled: `is_placed` is 1, and it lies in `placed`; or 0, where it found no room,
 * and `placed` is 0. */
typedef struct guillotiere_maybe_placed {
    uint32_t is_placed;
    guillotiere_placed placed;
} guillotiere_maybe_placed;

/* Where a sprite lies on one of several sheets: the number of the sheet, counted from 0, and its place there. */
typedef struct guillotiere_on_page {
    size_t page;
    guillotiere_placed placed;
} guillotiere_on_page;

/* How a cache is made. Lengths are in pixels. The layers of a texture array all have the same size: for those `page` must
 * equal `largest_page`. Pages that grow each need a texture of their own. */
typedef struct guillotiere_cache_options {
    guillotiere_size page; /* the size of a new page, which isn't empty */
    guillotiere_size largest_page; /* pages grow up to this; neither side is less than that of `page` */
    uint32_t pages; /* the most pages, at least 1 */
    int32_t padding; /* how wide the border is on all four sides of an entry, at least 0 */
    guillotiere_options atlas; /* of the atlas of each page */
} guillotiere_cache_options;

/* Where a key lies: its number, which stays until the key is gone, and which no other key has meanwhile; its page, counted
 * from 0; `rectangle`, which no other entry overlaps; and `inner` in it, which has the sides that were asked for; the
 * padding lies to its left and above it. To its right and below it, `rectangle` has the padding as well, and more where an
 * alignment rounds up. Numbers of keys that are gone are given out again before new ones, which of them isn't said: so what a
 * caller keeps of each key fits an array of guillotiere_cache_numbers elements.
 *
 * The border of a new entry shows what lay there before. A linear filter reads it, so write all of `rectangle`: the pixels
 * in `inner`, and cleared ones around it. With a padding of 1 draw at most half a pixel beyond `inner`. */
typedef struct guillotiere_place {
    uint32_t number;
    uint32_t page;
    guillotiere_rectangle rectangle;
    guillotiere_rectangle inner;
} guillotiere_place;

/* What a cache did. Its kind says which fields have a meaning; the others have none. */
typedef struct guillotiere_cache_change {
    uint32_t kind; /* a kind of changes */
    uint32_t page;
    guillotiere_size size;
    uint64_t key;
    guillotiere_place from;
    guillotiere_place to;
} guillotiere_cache_change;

/* How often guillotiere_cache_get found its key or guillotiere_cache_insert answered HELD (`hits`), how often
 * guillotiere_cache_get didn't find its key (`misses`), and how many keys an insertion, a trim, the end of a batch or a
 * repacking evicted (`evictions`). `forced` counts, of those that insertions evicted, the ones that fragmentation cost: before
 * that insertion some page had as much free area as was asked for, with the padding, in parts that had no room. A count that
 * reaches 18446744073709551615 stays there. */
typedef struct guillotiere_counts {
    uint64_t hits;
    uint64_t misses;
    uint64_t evictions;
    uint64_t forced;
} guillotiere_counts;

/* A function that takes, resizes and gives back blocks of memory, and is passed what guillotiere_set_memory was:
 * - block is NULL: gives a block of `size` bytes, aligned as malloc aligns, or NULL; size_before is 0
 * - size is 0: takes the block back, which has size_before bytes; what it returns isn't looked at
 * - else: gives a block of `size` bytes that begins with what the old one has, or NULL, and then the old one stays
 * It calls no function of this library, and may be called by each thread that does. */
typedef void *(*guillotiere_resize)(void *user, void *block, size_t size_before, size_t size);

/* From now on all memory of all handles is from `resize`, in place of malloc, realloc and free; NULL: from these again. When it is
 * called, no handle holds anything, and no other call runs: a block goes back to where it came from. */
void guillotiere_set_memory(guillotiere_resize resize, void *user);

/* The version of the library that was linked, in the form of GUILLOTIERE_VERSION. */
uint32_t guillotiere_version(void);

/* The interface of the library that was linked, in the form of GUILLOTIERE_INTERFACE. */
uint32_t guillotiere_interface(void);

/* --- An atlas: its life -------------------------------------------------------------------------------------------- */

/* Makes an atlas with the default options, where the handle holds nothing.
 * DONE; BAD_CALL if a side isn't above 0; MEMORY; OCCUPIED, before all others, if the handle holds an atlas already. */
GUILLOTIERE_CHECKED
uint32_t guillotiere_atlas_new(int32_t width, int32_t height, guillotiere_atlas *atlas);

/* Makes an atlas with these options, where the handle holds nothing. DONE; BAD_CALL if a side isn't above 0 or the
 * options aren't valid; MEMORY; OCCUPIED, before all others, if the handle holds an atlas already. */
GUILLOTIERE_CHECKED
uint32_t guillotiere_atlas_with_options(int32_t width, int32_t height, const guillotiere_options *options,
                                        guillotiere_atlas *atlas);

/* Makes an atlas with these options and a limit on the slots that are used at once, where the handle holds nothing. DONE;
 * BAD_CALL if a side isn't above 0, the options aren't valid, or the limit isn't from 1 to GUILLOTIERE_MOST_SLOTS; MEMORY;
 * OCCUPIED, before all others, if the handle holds an atlas already. */
GUILLOTIERE_CHECKED
uint32_t guillotiere_atlas_with_slot_limit(int32_t width, int32_t height, const guillotiere_options *options,
                                           uint32_t limit, guillotiere_atlas *atlas);

/* Frees an atlas, with all its memory; the handle holds nothing then. Of a handle that holds nothing: does nothing. */
void guillotiere_atlas_free(guillotiere_atlas *atlas);

/* Makes a copy that shares nothing with the atlas, where `copy` holds nothing: it answers later calls as the atlas does,
 * except where memory is refused. DONE; MEMORY; EMPTY if `atlas` holds nothing; OCCUPIED if `copy` holds something. */
GUILLOTIERE_CHECKED
uint32_t guillotiere_atlas_clone(const guillotiere_atlas *atlas, guillotiere_atlas *copy);

/* --- An atlas: its boxes, its size, and what it holds ---------------------------------------------------------------- */

/* Asks for a box of this size, rounded up by the options. DONE: `granted` has its id and its rectangle, which overlaps no
 * other live box. NO_ROOM if the size is empty, fits no free box, or passes 2147483647 once it is rounded up; SLOTS;
 * MEMORY; EMPTY. */
GUILLOTIERE_CHECKED
uint32_t guillotiere_atlas_allocate(guillotiere_atlas *atlas, int32_t width, int32_t height,
                                    guillotiere_allocation *granted);

/* Frees the box of a live id: it joins the free space next to it. Takes no memory. DONE; NOT_LIVE; EMPTY. */
GUILLOTIERE_CHECKED
uint32_t guillotiere_atlas_deallocate(guillotiere_atlas *atlas, uint32_t id);

/* The rectangle of a live id. DONE: it is in `found`. NOT_LIVE; EMPTY. */
GUILLOTIERE_CHECKED
uint32_t guillotiere_atlas_get(const guillotiere_atlas *atlas, uint32_t id, guillotiere_rectangle *found);

/* Makes the atlas larger; every live id keeps its rectangle. DONE; BAD_CALL if a side shrinks; SLOTS; MEMORY;
 * EMPTY. */
GUILLOTIERE_CHECKED
uint32_t guillotiere_atlas_grow(guillotiere_atlas *atlas, int32_t width, int32_t height);

/* Whether the atlas may be grown to this size, in pixels: no side shrinks. False of a handle that holds nothing. */
bool guillotiere_atlas_can_grow_to(const guillotiere_atlas *atlas, int32_t width, int32_t height);

/* Whether a request of this size, in pixels, has room: then guillotiere_atlas_allocate grants it, slots and memory aside;
 * else it answers NO_ROOM. Takes at most one search, and no memory. False of a handle that holds nothing. */
bool guillotiere_atlas_can_fit(const guillotiere_atlas *atlas, int32_t width, int32_t height);

/* Takes memory for this many slots beyond those in use; nothing else changes. While there is memory for 4 more slots no
 * request is answered MEMORY, and for 3 no growth; a request uses at most 4, a growth at most 3, a freeing none. The
 * memory stays until the atlas is rearranged or freed, and a copy has none of it.
 * DONE; SLOTS if more slots would be used than the limit allows; MEMORY; EMPTY. */
GUILLOTIERE_CHECKED
uint32_t guillotiere_atlas_reserve(guillotiere_atlas *atlas, uint32_t additional);

/* Starts again at the present size, options and limit: one free box, no id live. Takes no memory. DONE; EMPTY. */
uint32_t guillotiere_atlas_clear(guillotiere_atlas *atlas);

/* Starts again at this size and with these options; the limit stays. Takes no memory.
 * DONE; BAD_CALL if a side isn't above 0 or the options aren't valid; EMPTY. */
GUILLOTIERE_CHECKED
uint32_t guillotiere_atlas_reset(guillotiere_atlas *atlas, int32_t width, int32_t height,
                                 const guillotiere_options *options);

/* The size of the atlas. DONE; EMPTY. */
uint32_t guillotiere_atlas_size(const guillotiere_atlas *atlas, guillotiere_size *size);

/* The options of the atlas. DONE; EMPTY. */
uint32_t guillotiere_atlas_options(const guillotiere_atlas *atlas, guillotiere_options *options);

/* The counts of slots. DONE; EMPTY. */
uint32_t guillotiere_atlas_slots(const guillotiere_atlas *atlas, guillotiere_slots *slots);

/* The areas of all live and of all free boxes, in one pass over the slots. DONE; EMPTY. */
uint32_t guillotiere_atlas_areas(const guillotiere_atlas *atlas, guillotiere_areas *areas);

/* Of the area that is free, what lies in free boxes which have no room for a request of this size, rounded up by the options:
 * all of it, if a side is 0 or less. Asked with the size of a usual box it says how fragmented the atlas is: where much is of
 * no use, it is time to rearrange it. Takes one pass over the slots, and no memory. DONE; EMPTY. */
uint32_t guillotiere_atlas_unusable_area(const guillotiere_atlas *atlas, int32_t width, int32_t height, uint64_t *area);

/* The free box of the largest area; of several the topmost one, and of these the leftmost. Takes one pass over the slots.
 * DONE: it is in `found`. NO_ROOM if nothing is free; EMPTY. */
GUILLOTIERE_CHECKED
uint32_t guillotiere_atlas_largest_free(const guillotiere_atlas *atlas, guillotiere_rectangle *found);

/* Whether no id is live; also true of a handle that holds nothing. */
bool guillotiere_atlas_is_empty(const guillotiere_atlas *atlas);

/* --- An atlas: lists ------------------------------------------------------------------------------------------------- */

/* Writes the live boxes, by rising slot, which is the low 24 bits of the id: as many as there is room for, and into `count`
 * how many there are. What `found` has after them stays. DONE; MEMORY; EMPTY. */
GUILLOTIERE_CHECKED
uint32_t guillotiere_atlas_live(const guillotiere_atlas *atlas, guillotiere_allocation *found, size_t found_len,
                                size_t *count);

/* Writes the free boxes, in an order that is left open: as many as there is room for, and into `count` how many there are.
 * What `found` has after them stays. DONE; MEMORY; EMPTY. */
GUILLOTIERE_CHECKED
uint32_t guillotiere_atlas_free_boxes(const guillotiere_atlas *atlas, guillotiere_rectangle *found, size_t found_len,
                                      size_t *count);

/* guillotiere_atlas_resize_and_rearrange at the present size. */
GUILLOTIERE_CHECKED
uint32_t guillotiere_atlas_rearrange(guillotiere_atlas *atlas, guillotiere_change *changes, size_t changes_len,
                                     guillotiere_allocation *failures, size_t failures_len,
                                     guillotiere_change_count *count);

/* Repacks what is live into an empty atlas of this size, the largest first; options and limit stay. All former ids are void.
 * `changes` gets what was placed, `failures` what found no room and is no longer live, `count` how many of each. Both arrays
 * must have room for as many as there are used slots (guillotiere_atlas_slots), else the answer is SHORT.
 * DONE; BAD_CALL if a side isn't above 0; SHORT; SLOTS; MEMORY; EMPTY. */
GUILLOTIERE_CHECKED
uint32_t guillotiere_atlas_resize_and_rearrange(guillotiere_atlas *atlas, int32_t width, int32_t height,
                                                guillotiere_change *changes, size_t changes_len,
                                                guillotiere_allocation *failures, size_t failures_len,
                                                guillotiere_change_count *count);

/* Frees the boxes of a list of ids, all or none. DONE; NOT_LIVE if one isn't live or is listed twice; MEMORY, as the
 * list is copied first; EMPTY. */
GUILLOTIERE_CHECKED
uint32_t guillotiere_atlas_deallocate_all(guillotiere_atlas *atlas, const uint32_t *ids, size_t ids_len);

/* --- A simple allocator ---------------------------------------------------------------------------------------------- */

/* Makes a simple allocator with the default options, where the handle holds nothing.
 * DONE; BAD_CALL if a side isn't above 0; MEMORY; OCCUPIED, before all others, if the handle holds one already. */
GUILLOTIERE_CHECKED
uint32_t guillotiere_simple_new(int32_t width, int32_t height, guillotiere_simple *simple);

/* Makes a simple allocator with these options, where the handle holds nothing. DONE; BAD_CALL if a side isn't above 0
 * or the options aren't valid; MEMORY; OCCUPIED, before all others, if the handle holds one already. */
GUILLOTIERE_CHECKED
uint32_t guillotiere_simple_with_options(int32_t width, int32_t height, const guillotiere_options *options,
                                         guillotiere_simple *simple);

/* Frees a simple allocator, with all its memory; the handle holds nothing then. */
void guillotiere_simple_free(guillotiere_simple *simple);

/* Asks for a box of this size, rounded up by the options. DONE: its rectangle is in `granted`. NO_ROOM if the size is
 * empty or fits no free box; MEMORY; EMPTY. */
GUILLOTIERE_CHECKED
uint32_t guillotiere_simple_allocate(guillotiere_simple *simple, int32_t width, int32_t height,
                                     guillotiere_rectangle *granted);

/* Makes the allocator larger. DONE; BAD_CALL if a side shrinks; MEMORY; EMPTY. */
GUILLOTIERE_CHECKED
uint32_t guillotiere_simple_grow(guillotiere_simple *simple, int32_t width, int32_t height);

/* Whether the allocator may be grown to this size, in pixels: no side shrinks. False of a handle that holds nothing. */
bool guillotiere_simple_can_grow_to(const guillotiere_simple *simple, int32_t width, int32_t height);

/* Starts again with one free box of the allocator's size. Keeps the room of the entries, and takes no memory. DONE; EMPTY. */
uint32_t guillotiere_simple_clear(guillotiere_simple *simple);

/* Starts again at this size and with these options. Keeps the room of the entries, and takes no memory.
 * DONE; BAD_CALL if a side isn't above 0 or the options aren't valid; EMPTY. */
GUILLOTIERE_CHECKED
uint32_t guillotiere_simple_reset(guillotiere_simple *simple, int32_t width, int32_t height,
                                  const guillotiere_options *options);

/* Takes over an atlas's size, options and free boxes, so that it never grants what is live there. The atlas stays as it is.
 * DONE; MEMORY; EMPTY if one of the handles holds nothing. */
GUILLOTIERE_CHECKED
uint32_t guillotiere_simple_init_from_allocator(guillotiere_simple *simple, const guillotiere_atlas *atlas);

/* The size of the allocator. DONE; EMPTY. */
uint32_t guillotiere_simple_size(const guillotiere_simple *simple, guillotiere_size *size);

/* The options of the allocator. DONE; EMPTY. */
uint32_t guillotiere_simple_options(const guillotiere_simple *simple, guillotiere_options *options);

/* The counts of entries, one of which each free box takes. DONE; EMPTY. */
uint32_t guillotiere_simple_slots(const guillotiere_simple *simple, guillotiere_slots *slots);

/* Whether one free box has the allocator's size; also true of a handle that holds nothing. */
bool guillotiere_simple_is_empty(const guillotiere_simple *simple);

/* --- A paged atlas: boxes without keys on several pages, such as the layers of a texture array ------------------------ */

/* Makes a paged atlas, which has no page yet, with the default options, where the handle holds nothing. Pages are made of this
 * size, as many as are needed, but at most `most`. DONE; BAD_CALL if a side isn't above 0; MEMORY; OCCUPIED, before
 * all others, if the handle holds one already. */
GUILLOTIERE_CHECKED
uint32_t guillotiere_paged_new(int32_t width, int32_t height, uint32_t most, guillotiere_paged *paged);

/* Makes a paged atlas as guillotiere_paged_new does, the atlas of each page with these options. DONE; BAD_CALL if a side
 * isn't above 0 or the options aren't valid; MEMORY; OCCUPIED, before all others, if the handle holds one already. */
GUILLOTIERE_CHECKED
uint32_t guillotiere_paged_with_options(int32_t width, int32_t height, const guillotiere_options *options, uint32_t most,
                                        guillotiere_paged *paged);

/* Frees a paged atlas, with all its memory; the handle holds nothing then. */
void guillotiere_paged_free(guillotiere_paged *paged);

/* Asks for a box of this size, rounded up by the options, on the first page that has room for it. Where none has, a page is
 * added, as the last one. DONE: `granted` has its page, its id and its rectangle, which overlaps no other live box of that
 * page. NO_ROOM if there are as many pages as there may be, or the size has no room on an empty page; SLOTS if that page
 * has too few of them, of 16777216; MEMORY; EMPTY. Takes one search on each page up to that one. */
GUILLOTIERE_CHECKED
uint32_t guillotiere_paged_allocate(guillotiere_paged *paged, int32_t width, int32_t height,
                                    guillotiere_page_allocation *granted);

/* Frees the box of an id that is live on a page: it joins the free space next to it. The page stays, also where nothing is
 * left on it. Takes no memory. DONE; NOT_LIVE, also if there is no such page; EMPTY. */
GUILLOTIERE_CHECKED
uint32_t guillotiere_paged_deallocate(guillotiere_paged *paged, uint32_t page, uint32_t id);

/* The rectangle of an id that is live on a page. DONE: it is in `found`. NOT_LIVE, also if there is no such page; EMPTY. */
GUILLOTIERE_CHECKED
uint32_t guillotiere_paged_get(const guillotiere_paged *paged, uint32_t page, uint32_t id, guillotiere_rectangle *found);

/* Makes a page larger; every live id keeps its rectangle, and pages that are added later are as before. DONE; NO_PAGE;
 * BAD_CALL if a side shrinks; SLOTS; MEMORY; EMPTY. */
GUILLOTIERE_CHECKED
uint32_t guillotiere_paged_grow(guillotiere_paged *paged, uint32_t page, int32_t width, int32_t height);

/* Drops the pages behind the last one with a live id, with their memory, and writes how many are left. A page that such a one
 * follows stays, though nothing is on it. No rectangle moves. Takes no memory. DONE; EMPTY. */
uint32_t guillotiere_paged_shrink(guillotiere_paged *paged, uint32_t *left);

/* Frees all boxes. The pages stay, with their sizes; guillotiere_paged_shrink drops them. Takes no memory. DONE; EMPTY. */
uint32_t guillotiere_paged_clear(guillotiere_paged *paged);

/* How many pages there are. DONE; EMPTY. */
uint32_t guillotiere_paged_page_count(const guillotiere_paged *paged, uint32_t *pages);

/* The size of a page, counted from 0. DONE; NO_PAGE; EMPTY. */
GUILLOTIERE_CHECKED
uint32_t guillotiere_paged_page_size(const guillotiere_paged *paged, uint32_t page, guillotiere_size *size);

/* The areas of all live and of all free boxes of a page, counted from 0, in one pass over its slots. DONE; NO_PAGE;
 * EMPTY. */
GUILLOTIERE_CHECKED
uint32_t guillotiere_paged_areas(const guillotiere_paged *paged, uint32_t page, guillotiere_areas *areas);

/* Writes the live boxes of a page, counted from 0, by rising slot, which is the low 24 bits of the id: as many as there is
 * room for, and into `count` how many there are. What `found` has after them stays. DONE; NO_PAGE; MEMORY; EMPTY. */
GUILLOTIERE_CHECKED
uint32_t guillotiere_paged_live(const guillotiere_paged *paged, uint32_t page, guillotiere_allocation *found,
                                size_t found_len, size_t *count);

/* --- A cache of rectangles under keys, in pages that are textures or the layers of a texture array -------------------- */

/* Makes a cache that holds nothing and has no page yet, where the handle holds nothing. Keys are any numbers of 64 bits;
 * they are hashed with a fixed seed.
 * DONE; OCCUPIED, before all others, if the handle holds a cache already; the first of EMPTY_PAGE, LARGEST_PAGE,
 * NO_PAGES, BAD_PADDING, BAD_ATLAS and NOTHING_FITS that is wrong with the options; MEMORY. */
GUILLOTIERE_CHECKED
uint32_t guillotiere_cache_new(const guillotiere_cache_options *options, guillotiere_cache *cache);

/* Frees a cache, with all its memory; the handle holds nothing then. */
void guillotiere_cache_free(guillotiere_cache *cache);

/* Begins a new frame: what isn't used in it may be evicted. Until the first call no key is evicted for another: all that is
 * held counts as used in the current frame. DONE; EMPTY. */
uint32_t guillotiere_cache_begin_frame(guillotiere_cache *cache);

/* The place of a key, which is used in this frame from now on. Counts a hit or a miss. DONE; NOT_HELD; EMPTY. */
GUILLOTIERE_CHECKED
uint32_t guillotiere_cache_get(guillotiere_cache *cache, uint64_t key, guillotiere_place *place);

/* The place of a key; it doesn't count as a use, a hit or a miss. DONE; NOT_HELD; EMPTY. */
GUILLOTIERE_CHECKED
uint32_t guillotiere_cache_peek(const guillotiere_cache *cache, uint64_t key, guillotiere_place *place);

/* A place for a key, which is used in this frame. A key that is held keeps its place, and is the most recently used; that
 * counts as a hit. A new key, which counts as no miss, goes onto the first page with room for its size with the padding.
 * If none has room, a page grows: its smaller side (the width if they are equal) doubles, but no further than the largest
 * page. If none can grow, one is added; and if no more are allowed, the least recently used key that lies on a page and
 * that this frame didn't use is evicted; and so on, up to 16 keys. If there still is no room then, only keys that lie in one
 * box go: the first box that would come free and that the new key fits, if all that this frame didn't use went in that
 * order. Where memory for looking it up is refused, a byte for each slot of the pages, they go on in that order. What was done
 * is handed over by guillotiere_cache_next_change, also
 * after FRAME_FULL and after an error: take all of it after each insertion, before the place or its number is noted. A
 * key that was evicted and came back is reported as evicted all the same.
 * DONE: the key is new, and its place was written: its pixels are to be written to the texture. HELD: it was held, and
 * its place, where its pixels are, was written. FRAME_FULL: all pages allowed exist, at their largest, and none would have
 * room, were all keys gone that this frame didn't use, of which 16 went at most, or more where that memory was refused: draw
 * what is batched, call guillotiere_cache_end_batch and insert again, or guillotiere_cache_begin_frame; while a
 * frame has used nothing this is never the answer. NEVER_FITS if the size, with the padding on all sides and rounded up to
 * the alignment, exceeds the largest page, OTHER_SIZE if the key is held with another size, even if this one is empty or
 * would never fit: then nothing changed. NUMBERS if 4294967295 keys are still held; SLOTS if the page that has room, or
 * that would grow, can't use the slots that this takes, of 16777216; MEMORY if memory is refused. Either ends the call: another
 * page that has room isn't tried, and no more keys are evicted for the new one. After SLOTS that is so in each later frame
 * too: guillotiere_cache_remove, guillotiere_cache_trim and guillotiere_cache_clear help. EMPTY.
 * A key with an empty size (a side below 1) takes no room, and is never evicted to make room for another.
 * Both rectangles of its place are 0, and so is its page, but it is on no page: nothing is to be written or drawn, no
 * repacking reports it, and no page stays for it. */
GUILLOTIERE_CHECKED
uint32_t guillotiere_cache_insert(guillotiere_cache *cache, uint64_t key, int32_t width, int32_t height,
                                  guillotiere_place *place);

/* Removes a key, and writes the place that it had. No change reports this: forget its place, once you have followed the
 * changes that weren't handed over. Takes no memory. DONE; NOT_HELD; EMPTY. */
uint32_t guillotiere_cache_remove(guillotiere_cache *cache, uint64_t key, guillotiere_place *removed);

/* Hands over the first change that wasn't handed over yet; each is handed over once, in the order in which they were made.
 * Takes no memory. DONE; NO_CHANGE if there is none; EMPTY. */
GUILLOTIERE_CHECKED
uint32_t guillotiere_cache_next_change(guillotiere_cache *cache, guillotiere_cache_change *change);

/* Removes all keys. The pages stay, with their sizes and nothing on them. No change reports this. The changes that weren't
 * handed over stay: follow them, then forget all places. Takes no memory. DONE; EMPTY. */
uint32_t guillotiere_cache_clear(guillotiere_cache *cache);

/* Evicts the keys that weren't used for at least this many frames, each reported by a change, the least recently used first.
 * A frame is a call of guillotiere_cache_begin_frame: with 1 all goes that wasn't used since the last one, with 0 all.
 * DONE; MEMORY, and then all is as it was: never if guillotiere_cache_reserve_changes made room for as many changes as
 * keys are held, and for one at least; EMPTY. */
GUILLOTIERE_CHECKED
uint32_t guillotiere_cache_trim(guillotiere_cache *cache, uint64_t frames);

/* Ends a batch, which was drawn, where the frame has no room for what comes next in it: this many of the most recently used
 * keys go, all if there are no more, each reported by a change, the most recently used first. The frame goes on: an insertion
 * evicts nothing of what is left that it used. DONE; MEMORY, and then all is as it was: never if
 * guillotiere_cache_reserve_changes made room for as many changes as keys are held, and for one at least; EMPTY. */
GUILLOTIERE_CHECKED
uint32_t guillotiere_cache_end_batch(guillotiere_cache *cache, size_t keys);

/* Removes the pages after the last one with a key, each reported by a change, GUILLOTIERE_PAGE_REMOVED, the last one
 * first. The others stay, with their sizes, and so do all keys; after guillotiere_cache_clear all pages go. A page that goes
 * takes its slots in reserve along, and one that is added later has none; keys in reserve stay. DONE;
 * MEMORY, and then all is as it was: never if guillotiere_cache_reserve_changes made room for as many changes as there
 * are pages, and for one at least; EMPTY. */
GUILLOTIERE_CHECKED
uint32_t guillotiere_cache_shrink(guillotiere_cache *cache);

/* Moves keys of the last page to the pages before it, so that guillotiere_cache_shrink can give it back, as many as some
 * pixels are enough for: after a burst a call in each frame empties page after page, where a repacking would take too long for one.
 * The most recently used key comes first; each that lies on the last page, on no more pixels, padding included, than are left,
 * moves to the first page before it that has room for it, reported by a change, GUILLOTIERE_MOVED. No key goes, none counts
 * as used, and no page grows or goes. Writes how many pixels moved: 0 where there are fewer than two pages, or where no key moved.
 * All moves lead from the last page to other ones, on which nothing comes free: so the pixels can be copied one after another.
 * DONE; SLOTS if a page that has room can't use the slots that this takes, of 16777216, or MEMORY, and then what moved
 * before is reported and stays, and nothing is written; EMPTY. */
GUILLOTIERE_CHECKED
uint32_t guillotiere_cache_compact(guillotiere_cache *cache, uint64_t pixels, uint64_t *moved);

/* Repacks the keys of a page, the largest first, and among equal areas the most recently used, so that what is free comes
 * together; pages are counted from 0. Each key of the page is reported by a change, the most recently used first:
 * GUILLOTIERE_MOVED, also where it stays, or GUILLOTIERE_EVICTED, where it found no room when its turn came, also if this
 * frame uses it: guillotiere_cache_repack_keeping_all evicts none. A place that a key moves to
 * can overlap one that a later change moves from: take the changes that wait, then copy the page, then call this, and copy
 * all pixels from that copy. The page may have no slots in reserve then; keys in reserve stay. DONE; NO_PAGE, SLOTS
 * (only of a page with more than 4194303 keys) or MEMORY, and then all is as it was; EMPTY. */
GUILLOTIERE_CHECKED
uint32_t guillotiere_cache_repack(guillotiere_cache *cache, uint32_t page);

/* Repacks the keys of a page as guillotiere_cache_repack does, but only where each of them finds room, so that no key is
 * evicted. DONE; NO_ROOM if one would find none, NO_PAGE, SLOTS (only of a page with more than 4194303 keys) or
 * MEMORY, and then all is as it was; EMPTY. */
GUILLOTIERE_CHECKED
uint32_t guillotiere_cache_repack_keeping_all(guillotiere_cache *cache, uint32_t page);

/* Makes a copy that shares nothing with the cache, where `copy` holds nothing: its keys have the same places, the same changes
 * wait, and it answers later calls as the cache does, except where memory is refused: nothing is in reserve. Takes as many steps as the
 * pages have slots and as keys have had numbers.
 * DONE; MEMORY; EMPTY if `cache` holds nothing; OCCUPIED if `copy` holds something. */
GUILLOTIERE_CHECKED
uint32_t guillotiere_cache_clone(const guillotiere_cache *cache, guillotiere_cache *copy);

/* The most recently used key, and its place; it doesn't count as a use. DONE; NOT_HELD if no key is held; EMPTY. */
GUILLOTIERE_CHECKED
uint32_t guillotiere_cache_newest(const guillotiere_cache *cache, uint64_t *key, guillotiere_place *place);

/* The least recently used key, and its place; it doesn't count as a use. DONE; NOT_HELD if no key is held; EMPTY. */
GUILLOTIERE_CHECKED
uint32_t guillotiere_cache_oldest(const guillotiere_cache *cache, uint64_t *key, guillotiere_place *place);

/* The next less recently used key, and its place; this doesn't count as a use. From the newest key on, this gives each key
 * once. DONE: it is in `older`. NOT_HELD if `key` is the least recently used, or isn't held; EMPTY. */
GUILLOTIERE_CHECKED
uint32_t guillotiere_cache_older(const guillotiere_cache *cache, uint64_t key, uint64_t *older, guillotiere_place *place);

/* Makes sure that there is memory for this many more keys; nothing else changes. A key that is added takes one of them; one
 * that goes gives none back, but guillotiere_cache_clear does. An insertion also takes slots of pages and room for changes:
 * for these there are the next two calls. DONE; MEMORY; EMPTY. */
GUILLOTIERE_CHECKED
uint32_t guillotiere_cache_reserve(guillotiere_cache *cache, size_t additional);

/* Makes sure that this many slots are in reserve on each page. An insertion that neither adds a page nor grows one uses at
 * most 4 of each page; a page that is added later has none in reserve, one that grows uses up to 3, one that is repacked may
 * have none, and one that goes takes its own along; removing, trimming and clearing take none. So once
 * guillotiere_cache_reserve(n), this with 4 times n and guillotiere_cache_reserve_changes for n and all keys that are
 * held were DONE, and every page is there and at its largest, none of n insertions is refused with SLOTS or MEMORY.
 * DONE; SLOTS if those of a page don't suffice; MEMORY; EMPTY. The pages before the one that was refused have theirs
 * then, and it and those after it are as they were. */
GUILLOTIERE_CHECKED
uint32_t guillotiere_cache_reserve_slots(guillotiere_cache *cache, uint32_t additional);

/* Takes memory for this many changes besides those that wait to be handed over; nothing else changes. DONE; MEMORY;
 * EMPTY. */
GUILLOTIERE_CHECKED
uint32_t guillotiere_cache_reserve_changes(guillotiere_cache *cache, size_t additional);

/* How many keys are held, at most 4294967295. DONE; EMPTY. */
uint32_t guillotiere_cache_len(const guillotiere_cache *cache, size_t *len);

/* How many numbers keys have had since the cache was made or cleared: the number of each place is below this, and there are
 * never more than there ever were keys at once. DONE; EMPTY. */
uint32_t guillotiere_cache_numbers(const guillotiere_cache *cache, uint32_t *numbers);

/* How many pages there are. DONE; EMPTY. */
uint32_t guillotiere_cache_page_count(const guillotiere_cache *cache, uint32_t *pages);

/* The size of a page, counted from 0. DONE; NO_PAGE; EMPTY. */
GUILLOTIERE_CHECKED
uint32_t guillotiere_cache_page_size(const guillotiere_cache *cache, uint32_t page, guillotiere_size *size);

/* The areas of a page, counted from 0: that of its keys, with their padding and what the alignment added, and that which is
 * free; together that of the page. Takes a step, however many keys there are. A page with much that is free, from which keys
 * are evicted all the same, is worth a repacking. DONE; NO_PAGE; EMPTY. */
GUILLOTIERE_CHECKED
uint32_t guillotiere_cache_areas(const guillotiere_cache *cache, uint32_t page, guillotiere_areas *areas);

/* Of the area of a page that is free, what lies in free boxes which have no room for a key of this size, with its padding
 * and rounded up to the alignment. A side below 0 counts as 0, and 0 as the padding on both sides, though a key of an empty
 * size takes no room. Asked with the size of a usual key it says how fragmented the page is: where much is of no use, it is
 * time to repack it. Takes memory for a list of the page's free boxes, if there is such a page.
 * DONE; NO_PAGE; MEMORY; EMPTY. */
GUILLOTIERE_CHECKED
uint32_t guillotiere_cache_unusable_area(const guillotiere_cache *cache, uint32_t page, int32_t width, int32_t height,
                                         uint64_t *area);

/* The options with which the cache was made. DONE; EMPTY. */
uint32_t guillotiere_cache_options_of(const guillotiere_cache *cache, guillotiere_cache_options *options);

/* The counts since the cache was made. Where a frame asks by guillotiere_cache_get, and inserts what that doesn't find, the
 * hit rate is `hits` by `hits` and `misses` together; where it only inserts, no miss is counted, and it is `hits` by calls.
 * Where `forced` grows, a guillotiere_cache_repack or a guillotiere_cache_compact helps; where `evictions` grows without
 * it, the pages are too small for what is drawn. DONE; EMPTY. */
uint32_t guillotiere_cache_statistics(const guillotiere_cache *cache, guillotiere_counts *counts);

/* --- A sheet of sprites that are known beforehand -------------------------------------------------------------------- */

/* Packs all sprites into the smallest sheet of those allowed that is found, by ten ways to order them and then by `effort`
 * small changes of the order. DONE: `size` has the sheet's size, and `places` where each sprite lies, in the order of the
 * sprites; no two places overlap, and what `places` has after them stays. Nothing is kept by the library, and nothing is to
 * be freed. There may be no sprites: then the sheet is the least.
 * NO_ROOM if not even the greatest sheet took all sprites; BAD_CALL if `allowed` is no kind of sheets or the padding is
 * above 65535; SHORT if places_len is below sprites_len; EMPTY_SHEET; EMPTY_RANGE; EMPTY_ALIGNMENT; EMPTY_SPRITE
 * and GREAT_SPRITE, and then `sprite` has the number of the first such sprite, counted from 0, and otherwise it stays as
 * before; MEMORY. Faults are looked for in this order; of powers of two and of one width the least side is 1, so a
 * greatest side of 0 is EMPTY_RANGE. Sprites that rank equal keep their order: in another order there may be another
 * sheet, or none. */
GUILLOTIERE_CHECKED
uint32_t guillotiere_pack(const guillotiere_size *sprites, size_t sprites_len, const guillotiere_sheet_options *options,
                          guillotiere_placed *places, size_t places_len, guillotiere_size *size, size_t *sprite);

/* Packs as guillotiere_pack, and then tries smaller sheets of those allowed, laid out without guillotine cuts: each
 * sprite, the highest first, as high up as it can lie, and there as far left. The sheet never has more pixels than that of
 * guillotiere_pack; in one that has fewer no sprite is turned. It may find a sheet where guillotiere_pack finds none. It
 * takes longer. All else as guillotiere_pack. */
GUILLOTIERE_CHECKED
uint32_t guillotiere_pack_dense(const guillotiere_size *sprites, size_t sprites_len,
                                const guillotiere_sheet_options *options, guillotiere_placed *places, size_t places_len,
                                guillotiere_size *size, size_t *sprite);

/* Packs all sprites into as few sheets as are found: the greatest of those allowed gets what guillotiere_fill places
 * there, the same is done with the sprites that are left, and the last of them get as small a sheet as guillotiere_pack
 * finds. For each sheet `effort` changes of the order are tried. DONE: `places` has where each sprite lies, in the order
 * of the sprites, `count` how many sheets there are, at most as many as sprites, and `sizes` their sizes; what the arrays
 * have after that stays. No two places on one sheet overlap, and no sheet is empty. There may be no sprites: then there are
 * no sheets.
 * NO_ROOM if a sprite is too large for an empty sheet; SHORT also if there are more sheets than sizes_len; else as
 * guillotiere_pack. */
GUILLOTIERE_CHECKED
uint32_t guillotiere_pack_pages(const guillotiere_size *sprites, size_t sprites_len,
                                const guillotiere_sheet_options *options, guillotiere_on_page *places, size_t places_len,
                                guillotiere_size *sizes, size_t sizes_len, size_t *count, size_t *sprite);

/* Packs as guillotiere_pack_pages, with all sprites of a group on one sheet. `groups` has the number of each sprite's
 * group, in the order of the sprites; GUILLOTIERE_NO_GROUP, or no number where groups_len is below sprites_len, says that
 * a sprite is in none, and numbers past the last sprite are ignored. A group that none of the ten ways packs by itself into
 * the greatest of the sheets allowed is given up before the first sheet is begun: each of its sprites counts as one in no
 * group. The other groups come in the order of their first sprites. The first opens a sheet; then each other group that the
 * greatest sheet takes as well goes onto it, and then sprites in no group, in their order: all, or so many that it doesn't
 * take the next one as well. Then the sheet is made as small as guillotiere_pack finds it. Once no group is left, the
 * sprites without a place are packed as by guillotiere_pack_pages. All else as guillotiere_pack_pages. */
GUILLOTIERE_CHECKED
uint32_t guillotiere_pack_groups(const guillotiere_size *sprites, size_t sprites_len, const uint32_t *groups,
                                 size_t groups_len, const guillotiere_sheet_options *options, guillotiere_on_page *places,
                                 size_t places_len, guillotiere_size *sizes, size_t sizes_len, size_t *count,
                                 size_t *sprite);

/* Places sprites in the greatest sheet that is allowed, as many pixels of them as it finds room for. DONE, even if not all
 * of them have a place: `places` has a place or none for each, in the order of the sprites, `left` how many have none, and
 * `size` the sheet's size. Never NO_ROOM; else as guillotiere_pack. */
GUILLOTIERE_CHECKED
uint32_t guillotiere_fill(const guillotiere_size *sprites, size_t sprites_len, const guillotiere_sheet_options *options,
                          guillotiere_maybe_placed *places, size_t places_len, size_t *left, guillotiere_size *size,
                          size_t *sprite);

#ifdef __cplusplus
}
#endif
#endif
