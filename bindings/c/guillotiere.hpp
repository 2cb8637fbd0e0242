// The atlas allocators of guillotiere and its sheets of sprites, for C++17: guillotiere.h with owners.
//
// An atlas, a simple allocator, a paged atlas or a cache is owned by an object that is moved and not copied, and frees it at its end. An
// object that was moved from holds nothing: each call of it answers status::empty. Nothing here throws but what a std::vector
// throws when memory runs out; it compiles without exceptions.
//
// Meaning, units and statuses are those of guillotiere.h, with what a caller owes there. As with a std::vector, any number of
// threads may call `const` methods of one object at once, as long as none calls another one.
#ifndef GUILLOTIERE_HPP
#define GUILLOTIERE_HPP

#include "guillotiere.h"

#include <cstddef>
#include <cstdint>
#include <optional>
#include <utility>
#include <vector>

namespace guillotiere {

enum class status : std::uint32_t {
    done = GUILLOTIERE_DONE,
    no_room = GUILLOTIERE_NO_ROOM,
    bad_call = GUILLOTIERE_BAD_CALL,
    not_live = GUILLOTIERE_NOT_LIVE,
    slots = GUILLOTIERE_SLOTS,
    memory = GUILLOTIERE_MEMORY,
    too_short = GUILLOTIERE_SHORT,
    empty = GUILLOTIERE_EMPTY,
    empty_sheet = GUILLOTIERE_EMPTY_SHEET,
    empty_range = GUILLOTIERE_EMPTY_RANGE,
    empty_alignment = GUILLOTIERE_EMPTY_ALIGNMENT,
    empty_sprite = GUILLOTIERE_EMPTY_SPRITE,
    great_sprite = GUILLOTIERE_GREAT_SPRITE,
    other_size = GUILLOTIERE_OTHER_SIZE,
    numbers = GUILLOTIERE_NUMBERS,
    empty_page = GUILLOTIERE_EMPTY_PAGE,
    largest_page = GUILLOTIERE_LARGEST_PAGE,
    no_pages = GUILLOTIERE_NO_PAGES,
    bad_padding = GUILLOTIERE_BAD_PADDING,
    bad_atlas = GUILLOTIERE_BAD_ATLAS,
    not_held = GUILLOTIERE_NOT_HELD,
    no_change = GUILLOTIERE_NO_CHANGE,
    no_page = GUILLOTIERE_NO_PAGE,
    held = GUILLOTIERE_HELD,
    frame_full = GUILLOTIERE_FRAME_FULL,
    never_fits = GUILLOTIERE_NEVER_FITS,
    nothing_fits = GUILLOTIERE_NOTHING_FITS,
    null_pointer = GUILLOTIERE_NULL_POINTER,
    occupied = GUILLOTIERE_OCCUPIED,
};

// What a status means, in a few words of English.
inline const char *text(status of) { return guillotiere_status_text(static_cast<std::uint32_t>(of)); }

// Kinds of sheets.
enum class sheets : std::uint32_t {
    one_size = GUILLOTIERE_ONE_SIZE,
    squares = GUILLOTIERE_SQUARES,
    powers = GUILLOTIERE_POWERS,
    heights = GUILLOTIERE_HEIGHTS,
};

// Kinds of changes of a cache.
enum class change_kind : std::uint32_t {
    page_added = GUILLOTIERE_PAGE_ADDED,
    page_grown = GUILLOTIERE_PAGE_GROWN,
    evicted = GUILLOTIERE_EVICTED,
    moved = GUILLOTIERE_MOVED,
    page_removed = GUILLOTIERE_PAGE_REMOVED,
};

using size = guillotiere_size;
using rectangle = guillotiere_rectangle;
using allocation = guillotiere_allocation;
using page_allocation = guillotiere_page_allocation;
using change = guillotiere_change;
using options = guillotiere_options;
using slots = guillotiere_slots;
using areas = guillotiere_areas;
using placed = guillotiere_placed;
using on_page = guillotiere_on_page;
using cache_options = guillotiere_cache_options;
using place = guillotiere_place;
using counts = guillotiere_counts;

// The version of this header, and that of the library that was linked: a million times the first number, plus a thousand times
// the second, plus the third.
inline constexpr std::uint32_t header_version = GUILLOTIERE_VERSION;
inline std::uint32_t version() { return guillotiere_version(); }
// The interface of this header, and that of the library that was linked: a program runs where the two are equal.
inline constexpr std::uint32_t header_interface = GUILLOTIERE_INTERFACE;
inline std::uint32_t linked_interface() { return guillotiere_interface(); }

// What a cache did. Its kind says which fields have a meaning; the others have none.
struct cache_change {
    change_kind kind;
    std::uint32_t page;
    guillotiere::size size;
    std::uint64_t key;
    place from;
    place to;
};

// A key of a cache, and its place.
struct keyed_place {
    std::uint64_t key;
    place at;
};

inline constexpr options default_options = GUILLOTIERE_DEFAULT_OPTIONS;
inline constexpr cache_options default_cache_options = GUILLOTIERE_DEFAULT_CACHE_OPTIONS;

// What an insertion into a cache answers.
enum class insertion : std::uint32_t {
    fresh = GUILLOTIERE_DONE,            // the key is new: its pixels are to be written to its place, which is empty if it has none
    held = GUILLOTIERE_HELD,             // the key was held, and its pixels are in its place
    frame_full = GUILLOTIERE_FRAME_FULL, // draw what is batched, begin a frame, and insert again
    never_fits = GUILLOTIERE_NEVER_FITS, // with the padding, rounded up to the alignment, the size exceeds the largest page
};

// The answer of an insertion, and the place of a key that is new or was held.
struct inserted {
    insertion answer;
    std::optional<place> at;
};

// Which sheets are allowed, and how sprites lie in them: squares with a side up to 4096, unless set otherwise. Of `width`,
// `height`, `least` and `greatest` only those that the kind of sheets names are read.
struct sheet_options {
    sheets allowed = sheets::squares;
    std::int32_t width = 0;
    std::int32_t height = 0;
    std::int32_t least = 1;
    std::int32_t greatest = 4096;
    std::uint32_t padding = 0;
    std::int32_t alignment_width = 1; // a place takes multiples of these, also at the right and lower border
    std::int32_t alignment_height = 1;
    bool turn = false;
    std::uint32_t effort = 0;
    std::uint64_t seed = 0;

    // This size alone.
    static constexpr sheet_options of_size(size only) {
        sheet_options made;
        made.allowed = sheets::one_size;
        made.width = only.width;
        made.height = only.height;
        return made;
    }
    // Squares with a side from `from` to `to`.
    static constexpr sheet_options of_squares(std::int32_t from, std::int32_t to) {
        sheet_options made;
        made.least = from;
        made.greatest = to;
        return made;
    }
    // Each side a power of two, at most `to`.
    static constexpr sheet_options of_powers(std::int32_t to) {
        sheet_options made;
        made.allowed = sheets::powers;
        made.greatest = to;
        return made;
    }
    // The width `across`, and a height from 1 to `to`.
    static constexpr sheet_options of_heights(std::int32_t across, std::int32_t to) {
        sheet_options made;
        made.allowed = sheets::heights;
        made.width = across;
        made.greatest = to;
        return made;
    }
};

inline constexpr std::uint32_t most_slots = GUILLOTIERE_MOST_SLOTS;

// Instead of the number of a group: the sprite is in none.
inline constexpr std::uint32_t no_group = GUILLOTIERE_NO_GROUP;

// A value, or the status that says why there is none, which is never status::done; without either, status::empty.
template <class T>
class [[nodiscard]] result {
public:
    result() : error_(status::empty) {}
    result(T value) : value_(std::move(value)), error_(status::done) {}
    result(status error) : error_(error) {}

    explicit operator bool() const { return value_.has_value(); }
    bool has_value() const { return value_.has_value(); }
    // Requires that there is a value.
    T &operator*() { return *value_; }
    const T &operator*() const { return *value_; }
    T *operator->() { return &*value_; }
    const T *operator->() const { return &*value_; }
    // Why there is no value; status::done where there is one.
    status error() const { return error_; }

private:
    std::optional<T> value_;
    status error_;
};

// What a rearranging moved, and what found no room and is no longer live.
struct change_list {
    std::vector<change> changes;
    std::vector<allocation> failures;
};

class simple_atlas;

// An atlas: hands out boxes, takes them back and joins free space at once.
class atlas {
public:
    static result<atlas> make(guillotiere::size of, const guillotiere::options &with = default_options, std::uint32_t limit = most_slots) {
        atlas made;
        const auto answer = guillotiere_atlas_with_slot_limit(of.width, of.height, &with, limit, &made.handle_);
        return made.held(answer);
    }

    atlas(atlas &&other) noexcept : handle_(std::exchange(other.handle_, guillotiere_atlas{})) {}
    atlas &operator=(atlas &&other) noexcept {
        atlas moved(std::move(other)); // what this held goes with it
        std::swap(handle_, moved.handle_);
        return *this;
    }
    atlas(const atlas &) = delete;
    atlas &operator=(const atlas &) = delete;
    ~atlas() { guillotiere_atlas_free(&handle_); }

    // A copy that shares nothing with this atlas.
    result<atlas> clone() const {
        atlas copy;
        const auto answer = guillotiere_atlas_clone(&handle_, &copy.handle_);
        return copy.held(answer);
    }

    // A box, or nothing where the request has no room.
    result<std::optional<allocation>> allocate(guillotiere::size requested) {
        allocation granted;
        const auto answer = guillotiere_atlas_allocate(&handle_, requested.width, requested.height, &granted);
        if (answer == GUILLOTIERE_DONE) return std::optional<allocation>(granted);
        if (answer == GUILLOTIERE_NO_ROOM) return std::optional<allocation>();
        return static_cast<status>(answer);
    }

    [[nodiscard]] status deallocate(std::uint32_t id) { return static_cast<status>(guillotiere_atlas_deallocate(&handle_, id)); }

    // All of these, or none.
    [[nodiscard]] status deallocate_all(const std::uint32_t *ids, std::size_t count) {
        const std::uint32_t none = 0;
        return static_cast<status>(guillotiere_atlas_deallocate_all(&handle_, count == 0 ? &none : ids, count));
    }
    [[nodiscard]] status deallocate_all(const std::vector<std::uint32_t> &ids) { return deallocate_all(ids.data(), ids.size()); }

    // The rectangle of a live id.
    std::optional<rectangle> get(std::uint32_t id) const {
        rectangle found;
        if (guillotiere_atlas_get(&handle_, id, &found) != GUILLOTIERE_DONE) return std::nullopt;
        return found;
    }

    // Whether a request has room: then `allocate` grants it, slots and memory aside.
    bool can_fit(guillotiere::size requested) const { return guillotiere_atlas_can_fit(&handle_, requested.width, requested.height); }
    // Takes memory for this many slots beyond those in use: a request takes at most 4, a growth 3.
    [[nodiscard]] status reserve(std::uint32_t additional) {
        return static_cast<status>(guillotiere_atlas_reserve(&handle_, additional));
    }

    [[nodiscard]] status grow(guillotiere::size to) { return static_cast<status>(guillotiere_atlas_grow(&handle_, to.width, to.height)); }
    // Whether no side shrinks.
    bool can_grow_to(guillotiere::size to) const { return guillotiere_atlas_can_grow_to(&handle_, to.width, to.height); }
    [[nodiscard]] status clear() { return static_cast<status>(guillotiere_atlas_clear(&handle_)); }
    [[nodiscard]] status reset(guillotiere::size of, const guillotiere::options &with = default_options) {
        return static_cast<status>(guillotiere_atlas_reset(&handle_, of.width, of.height, &with));
    }

    // Repacks what is live, at the present size or at another one.
    result<change_list> rearrange() {
        return listed([this](auto &...places) { return guillotiere_atlas_rearrange(&handle_, places...); });
    }
    result<change_list> resize_and_rearrange(guillotiere::size to) {
        return listed([this, to](auto &...places) {
            return guillotiere_atlas_resize_and_rearrange(&handle_, to.width, to.height, places...);
        });
    }

    // Of an atlas that was moved from: 0 by 0.
    guillotiere::size size() const {
        guillotiere::size found{};
        guillotiere_atlas_size(&handle_, &found);
        return found;
    }
    // Of an atlas that was moved from: all zero.
    guillotiere::options options() const {
        guillotiere::options found{};
        guillotiere_atlas_options(&handle_, &found);
        return found;
    }
    bool is_empty() const { return guillotiere_atlas_is_empty(&handle_); }
    guillotiere::slots slots() const {
        guillotiere::slots found{};
        guillotiere_atlas_slots(&handle_, &found);
        return found;
    }
    // The areas of all live and of all free boxes.
    guillotiere::areas areas() const {
        guillotiere::areas found{};
        guillotiere_atlas_areas(&handle_, &found);
        return found;
    }
    // What is free in boxes that have no room for a request of this size: where that is much, it is time to rearrange. 0 of an atlas
    // that was moved from.
    std::uint64_t unusable_area(guillotiere::size of) const {
        std::uint64_t found = 0;
        guillotiere_atlas_unusable_area(&handle_, of.width, of.height, &found);
        return found;
    }
    // The free box of the largest area; of several the topmost one, and of these the leftmost. None where nothing is free.
    std::optional<rectangle> largest_free() const {
        rectangle found{};
        if (guillotiere_atlas_largest_free(&handle_, &found) != GUILLOTIERE_DONE) return std::nullopt;
        return found;
    }

    // The live boxes, by rising slot.
    result<std::vector<allocation>> live() const {
        return gathered<allocation>([this](auto &...places) { return guillotiere_atlas_live(&handle_, places...); });
    }
    // The free boxes, in an order that is left open.
    result<std::vector<rectangle>> free_boxes() const {
        return gathered<rectangle>([this](auto &...places) { return guillotiere_atlas_free_boxes(&handle_, places...); });
    }

private:
    friend class simple_atlas;

    atlas() : handle_{} {}

    result<atlas> held(std::uint32_t answer) {
        if (answer == GUILLOTIERE_DONE) return std::move(*this);
        return static_cast<status>(answer);
    }

    // There are as many live and free boxes as used slots at most; one more, as no array of the library's is at null.
    template <class T, class Call>
    result<std::vector<T>> gathered(Call call) const {
        std::vector<T> found(slots().used + std::size_t{1});
        T *const data = found.data();
        const std::size_t room = found.size();
        std::size_t count = 0;
        std::size_t *const counted = &count;
        const auto answer = call(data, room, counted);
        if (answer != GUILLOTIERE_DONE) return static_cast<status>(answer);
        found.resize(count);
        return found;
    }

    template <class Call>
    result<change_list> listed(Call call) {
        change_list list;
        list.changes.resize(slots().used + std::size_t{1});
        list.failures.resize(list.changes.size());
        change *const changes = list.changes.data();
        allocation *const failures = list.failures.data();
        const std::size_t room = list.changes.size();
        guillotiere_change_count count{};
        guillotiere_change_count *const counted = &count;
        const auto answer = call(changes, room, failures, room, counted);
        if (answer != GUILLOTIERE_DONE) return static_cast<status>(answer);
        list.changes.resize(count.changes);
        list.failures.resize(count.failures);
        return list;
    }

    guillotiere_atlas handle_;
};

// A simple allocator: hands out boxes and takes none back.
class simple_atlas {
public:
    static result<simple_atlas> make(guillotiere::size of, const guillotiere::options &with = default_options) {
        simple_atlas made;
        const auto answer = guillotiere_simple_with_options(of.width, of.height, &with, &made.handle_);
        if (answer != GUILLOTIERE_DONE) return static_cast<status>(answer);
        return made;
    }

    simple_atlas(simple_atlas &&other) noexcept : handle_(std::exchange(other.handle_, guillotiere_simple{})) {}
    simple_atlas &operator=(simple_atlas &&other) noexcept {
        simple_atlas moved(std::move(other)); // what this held goes with it
        std::swap(handle_, moved.handle_);
        return *this;
    }
    simple_atlas(const simple_atlas &) = delete;
    simple_atlas &operator=(const simple_atlas &) = delete;
    ~simple_atlas() { guillotiere_simple_free(&handle_); }

    // A box, or nothing where the request has no room.
    result<std::optional<rectangle>> allocate(guillotiere::size requested) {
        rectangle granted;
        const auto answer = guillotiere_simple_allocate(&handle_, requested.width, requested.height, &granted);
        if (answer == GUILLOTIERE_DONE) return std::optional<rectangle>(granted);
        if (answer == GUILLOTIERE_NO_ROOM) return std::optional<rectangle>();
        return static_cast<status>(answer);
    }

    [[nodiscard]] status grow(guillotiere::size to) { return static_cast<status>(guillotiere_simple_grow(&handle_, to.width, to.height)); }
    // Whether no side shrinks.
    bool can_grow_to(guillotiere::size to) const { return guillotiere_simple_can_grow_to(&handle_, to.width, to.height); }
    [[nodiscard]] status clear() { return static_cast<status>(guillotiere_simple_clear(&handle_)); }
    [[nodiscard]] status reset(guillotiere::size of, const guillotiere::options &with = default_options) {
        return static_cast<status>(guillotiere_simple_reset(&handle_, of.width, of.height, &with));
    }
    // Takes over an atlas's size, options and free boxes; the atlas stays as it is.
    [[nodiscard]] status init_from_allocator(const atlas &source) {
        return static_cast<status>(guillotiere_simple_init_from_allocator(&handle_, &source.handle_));
    }

    guillotiere::size size() const {
        guillotiere::size found{};
        guillotiere_simple_size(&handle_, &found);
        return found;
    }
    // Of an allocator that was moved from: all zero.
    guillotiere::options options() const {
        guillotiere::options found{};
        guillotiere_simple_options(&handle_, &found);
        return found;
    }
    // The entries, one of which each free box takes.
    guillotiere::slots slots() const {
        guillotiere::slots found{};
        guillotiere_simple_slots(&handle_, &found);
        return found;
    }
    bool is_empty() const { return guillotiere_simple_is_empty(&handle_); }

private:
    simple_atlas() : handle_{} {}

    guillotiere_simple handle_;
};

// Boxes on several pages, such as the layers of a texture array, which come where no other has room.
class paged_atlas {
public:
    // No page yet, and at most so many, of this size.
    static result<paged_atlas> make(guillotiere::size of, std::uint32_t most, const guillotiere::options &with = default_options) {
        paged_atlas made;
        const auto answer = guillotiere_paged_with_options(of.width, of.height, &with, most, &made.handle_);
        if (answer != GUILLOTIERE_DONE) return static_cast<status>(answer);
        return made;
    }

    paged_atlas(paged_atlas &&other) noexcept : handle_(std::exchange(other.handle_, guillotiere_paged{})) {}
    paged_atlas &operator=(paged_atlas &&other) noexcept {
        paged_atlas moved(std::move(other)); // what this held goes with it
        std::swap(handle_, moved.handle_);
        return *this;
    }
    paged_atlas(const paged_atlas &) = delete;
    paged_atlas &operator=(const paged_atlas &) = delete;
    ~paged_atlas() { guillotiere_paged_free(&handle_); }

    // A box on the first page that has room, where none has on a new one; nothing where there is none.
    result<std::optional<page_allocation>> allocate(guillotiere::size requested) {
        page_allocation granted;
        const auto answer = guillotiere_paged_allocate(&handle_, requested.width, requested.height, &granted);
        if (answer == GUILLOTIERE_DONE) return std::optional<page_allocation>(granted);
        if (answer == GUILLOTIERE_NO_ROOM) return std::optional<page_allocation>();
        return static_cast<status>(answer);
    }

    [[nodiscard]] status deallocate(std::uint32_t page, std::uint32_t id) {
        return static_cast<status>(guillotiere_paged_deallocate(&handle_, page, id));
    }

    // The rectangle of an id that is live on a page.
    std::optional<rectangle> get(std::uint32_t page, std::uint32_t id) const {
        rectangle found;
        if (guillotiere_paged_get(&handle_, page, id, &found) != GUILLOTIERE_DONE) return std::nullopt;
        return found;
    }

    // Makes a page larger; later pages are made as before.
    [[nodiscard]] status grow(std::uint32_t page, guillotiere::size to) {
        return static_cast<status>(guillotiere_paged_grow(&handle_, page, to.width, to.height));
    }
    // Drops the pages behind the last one with a live id: how many are left. Of what was moved from: 0.
    std::uint32_t shrink() {
        std::uint32_t left = 0;
        guillotiere_paged_shrink(&handle_, &left);
        return left;
    }
    // Frees all boxes; the pages stay.
    [[nodiscard]] status clear() { return static_cast<status>(guillotiere_paged_clear(&handle_)); }

    // Of what was moved from: 0.
    std::uint32_t page_count() const {
        std::uint32_t found = 0;
        guillotiere_paged_page_count(&handle_, &found);
        return found;
    }
    std::optional<guillotiere::size> page_size(std::uint32_t page) const {
        guillotiere::size found;
        if (guillotiere_paged_page_size(&handle_, page, &found) != GUILLOTIERE_DONE) return std::nullopt;
        return found;
    }
    // The areas of all live and of all free boxes of a page.
    std::optional<guillotiere::areas> areas(std::uint32_t page) const {
        guillotiere::areas found;
        if (guillotiere_paged_areas(&handle_, page, &found) != GUILLOTIERE_DONE) return std::nullopt;
        return found;
    }
    // The live boxes of a page, by rising slot.
    result<std::vector<allocation>> live(std::uint32_t page) const {
        std::size_t count = 0;
        auto answer = guillotiere_paged_live(&handle_, page, nullptr, 0, &count);
        std::vector<allocation> found(count + 1);
        if (answer == GUILLOTIERE_DONE) answer = guillotiere_paged_live(&handle_, page, found.data(), count, &count);
        if (answer != GUILLOTIERE_DONE) return static_cast<status>(answer);
        found.resize(count);
        return found;
    }

private:
    paged_atlas() : handle_{} {}

    guillotiere_paged handle_;
};

// A cache of rectangles under keys, in pages that are textures or the layers of a texture array.
class cache {
public:
    static result<cache> make(const cache_options &with = default_cache_options) {
        cache made;
        const auto answer = guillotiere_cache_new(&with, &made.handle_);
        if (answer != GUILLOTIERE_DONE) return static_cast<status>(answer);
        return made;
    }

    cache(cache &&other) noexcept : handle_(std::exchange(other.handle_, guillotiere_cache{})) {}
    cache &operator=(cache &&other) noexcept {
        cache moved(std::move(other)); // what this held goes with it
        std::swap(handle_, moved.handle_);
        return *this;
    }
    cache(const cache &) = delete;
    cache &operator=(const cache &) = delete;
    ~cache() { guillotiere_cache_free(&handle_); }

    // A copy that shares nothing with this cache; the same changes wait, and nothing is in reserve.
    result<cache> clone() const {
        cache copy;
        const auto answer = guillotiere_cache_clone(&handle_, &copy.handle_);
        if (answer != GUILLOTIERE_DONE) return static_cast<status>(answer);
        return copy;
    }

    // Begins a new frame: what isn't used in it may be evicted. Until the first call no key is evicted for another.
    [[nodiscard]] status begin_frame() { return static_cast<status>(guillotiere_cache_begin_frame(&handle_)); }

    // The place of a key, which is used in this frame from now on.
    std::optional<place> get(std::uint64_t key) {
        return found([this, key](place &at) { return guillotiere_cache_get(&handle_, key, &at); });
    }
    // The place of a key; it doesn't count as a use.
    std::optional<place> peek(std::uint64_t key) const {
        return found([this, key](place &at) { return guillotiere_cache_peek(&handle_, key, &at); });
    }
    // A place for a key. Follow the changes before it is used, and also after another answer and after an error. After `slots`
    // no later frame helps, but remove, trim and clear do.
    result<inserted> insert(std::uint64_t key, guillotiere::size of) {
        place at;
        const auto answer = guillotiere_cache_insert(&handle_, key, of.width, of.height, &at);
        switch (answer) {
        case GUILLOTIERE_DONE:
        case GUILLOTIERE_HELD: return inserted{static_cast<insertion>(answer), at};
        case GUILLOTIERE_FRAME_FULL:
        case GUILLOTIERE_NEVER_FITS: return inserted{static_cast<insertion>(answer), std::nullopt};
        default: return static_cast<status>(answer);
        }
    }
    // Removes a key, and gives the place that it had.
    std::optional<place> remove(std::uint64_t key) {
        return found([this, key](place &at) { return guillotiere_cache_remove(&handle_, key, &at); });
    }
    // The first change that wasn't handed over yet.
    std::optional<cache_change> next_change() {
        guillotiere_cache_change next;
        if (guillotiere_cache_next_change(&handle_, &next) != GUILLOTIERE_DONE) return std::nullopt;
        return cache_change{static_cast<change_kind>(next.kind), next.page, next.size, next.key, next.from, next.to};
    }
    // Removes all keys; no change reports this.
    [[nodiscard]] status clear() { return static_cast<status>(guillotiere_cache_clear(&handle_)); }
    // Evicts what wasn't used for at least this many frames: with 1 what wasn't used since the last begin_frame, with 0 all.
    [[nodiscard]] status trim(std::uint64_t frames) { return static_cast<status>(guillotiere_cache_trim(&handle_, frames)); }
    // Ends a batch, which was drawn: this many of the most recently used keys go, and the frame goes on.
    [[nodiscard]] status end_batch(std::size_t keys) { return static_cast<status>(guillotiere_cache_end_batch(&handle_, keys)); }
    // Removes the pages after the last one with a key. Each takes its slots in reserve along; keys in reserve stay.
    [[nodiscard]] status shrink() { return static_cast<status>(guillotiere_cache_shrink(&handle_)); }
    // Keys of the last page move to pages before it, as many as these pixels are enough for: how many pixels moved. After an error what
    // moved before stays, and is reported.
    [[nodiscard]] result<std::uint64_t> compact(std::uint64_t pixels) {
        std::uint64_t moved = 0;
        const auto answer = static_cast<status>(guillotiere_cache_compact(&handle_, pixels, &moved));
        if (answer != status::done) return answer;
        return moved;
    }
    // A page's keys are placed anew; what finds no room when its turn came is evicted, also if this frame uses it. Copy all pixels
    // from the page as it was before the call. The page may have no slots in reserve then; keys in reserve stay.
    [[nodiscard]] status repack(std::uint32_t page) { return static_cast<status>(guillotiere_cache_repack(&handle_, page)); }
    // As repack, but only where each key of the page finds room: no_room, and nothing changes, where one would find none.
    [[nodiscard]] status repack_keeping_all(std::uint32_t page) {
        return static_cast<status>(guillotiere_cache_repack_keeping_all(&handle_, page));
    }

    // Makes sure that there is memory for this many more keys.
    [[nodiscard]] status reserve(std::size_t additional) {
        return static_cast<status>(guillotiere_cache_reserve(&handle_, additional));
    }

    // Makes sure that this many slots are in reserve on each page: an insertion uses at most 4 of each.
    [[nodiscard]] status reserve_slots(std::uint32_t additional) {
        return static_cast<status>(guillotiere_cache_reserve_slots(&handle_, additional));
    }
    // Takes memory for this many changes besides those that wait.
    [[nodiscard]] status reserve_changes(std::size_t additional) {
        return static_cast<status>(guillotiere_cache_reserve_changes(&handle_, additional));
    }

    // The most recently used key, the least recently used one, and the next less recently used one. None of these counts as a use.
    std::optional<keyed_place> newest() const {
        return walked([this](keyed_place &next) { return guillotiere_cache_newest(&handle_, &next.key, &next.at); });
    }
    std::optional<keyed_place> oldest() const {
        return walked([this](keyed_place &next) { return guillotiere_cache_oldest(&handle_, &next.key, &next.at); });
    }
    std::optional<keyed_place> older(std::uint64_t key) const {
        return walked([this, key](keyed_place &next) { return guillotiere_cache_older(&handle_, key, &next.key, &next.at); });
    }

    // Of a cache that was moved from: 0; and so the counts.
    std::size_t len() const {
        std::size_t found = 0;
        guillotiere_cache_len(&handle_, &found);
        return found;
    }
    // How many numbers keys have had since the cache was made or cleared: the number of each place is below this.
    std::uint32_t numbers() const {
        std::uint32_t found = 0;
        guillotiere_cache_numbers(&handle_, &found);
        return found;
    }
    std::uint32_t page_count() const {
        std::uint32_t found = 0;
        guillotiere_cache_page_count(&handle_, &found);
        return found;
    }
    std::optional<guillotiere::size> page_size(std::uint32_t page) const {
        guillotiere::size found;
        if (guillotiere_cache_page_size(&handle_, page, &found) != GUILLOTIERE_DONE) return std::nullopt;
        return found;
    }
    // The areas of a page that its keys take, and that are free.
    std::optional<guillotiere::areas> areas(std::uint32_t page) const {
        guillotiere::areas found;
        if (guillotiere_cache_areas(&handle_, page, &found) != GUILLOTIERE_DONE) return std::nullopt;
        return found;
    }
    // What is free on a page in boxes that have no room for a key of this size: where that is much, it is time to repack the page.
    result<std::uint64_t> unusable_area(std::uint32_t page, guillotiere::size of) const {
        std::uint64_t found = 0;
        const auto answer = guillotiere_cache_unusable_area(&handle_, page, of.width, of.height, &found);
        if (answer != GUILLOTIERE_DONE) return static_cast<status>(answer);
        return found;
    }
    // Of a cache that was moved from: all zero.
    cache_options options() const {
        cache_options found{};
        guillotiere_cache_options_of(&handle_, &found);
        return found;
    }
    counts statistics() const {
        counts found{};
        guillotiere_cache_statistics(&handle_, &found);
        return found;
    }

private:
    cache() : handle_{} {}

    template <class Call>
    static std::optional<place> found(Call call) {
        place at;
        if (call(at) != GUILLOTIERE_DONE) return std::nullopt;
        return at;
    }

    template <class Call>
    static std::optional<keyed_place> walked(Call call) {
        keyed_place next;
        if (call(next) != GUILLOTIERE_DONE) return std::nullopt;
        return next;
    }

    guillotiere_cache handle_;
};

// A sheet that takes all sprites: its size, and where each of them lies, in their order.
struct sheet {
    guillotiere::size size;
    std::vector<placed> places;
};

// Sheets that take all sprites: the size of each, and where each sprite lies, in the order of the sprites.
struct pages {
    std::vector<guillotiere::size> sizes;
    std::vector<on_page> places;
};

// A sheet with as many pixels of sprites as room was found for: its size, a place or nothing for each sprite, in their
// order, and how many have none.
struct filled_sheet {
    guillotiere::size size;
    std::vector<std::optional<placed>> places;
    std::size_t left;
};

namespace detail {

inline guillotiere_sheet_options asked(const sheet_options &with) {
    return {static_cast<std::uint32_t>(with.allowed), with.width, with.height, with.least, with.greatest, with.padding,
            with.alignment_width, with.alignment_height, with.turn ? 1u : 0u, with.effort, with.seed};
}

// The status of an answer, and for `bad`, if it isn't null, the number of a sprite that it names.
inline status refused(std::uint32_t answer, std::size_t number, std::size_t *bad) {
    const auto error = static_cast<status>(answer);
    if (bad != nullptr && (error == status::empty_sprite || error == status::great_sprite)) *bad = number;
    return error;
}

} // namespace detail

namespace detail {

// The sheet that one of the two calls for a whole sheet finds.
template <class Call>
inline result<std::optional<sheet>> packed_by(Call call, const size *sprites, std::size_t count, const sheet_options &with,
                                              std::size_t *bad) {
    const size none{};
    std::size_t number = 0;
    sheet made{{}, std::vector<placed>(count + 1)};
    const auto options = asked(with);
    const auto answer = call(count == 0 ? &none : sprites, count, &options, made.places.data(), count, &made.size, &number);
    if (answer == GUILLOTIERE_DONE) {
        made.places.resize(count);
        return std::optional<sheet>(std::move(made));
    }
    if (answer == GUILLOTIERE_NO_ROOM) return std::optional<sheet>();
    return refused(answer, number, bad);
}

} // namespace detail

// Packs all sprites into the smallest allowed sheet that is found; nothing where not even the greatest took them all. After
// status::empty_sprite and status::great_sprite `bad` has the number of the sprite, if it isn't null; so in the calls below.
inline result<std::optional<sheet>> pack(const size *sprites, std::size_t count, const sheet_options &with,
                                         std::size_t *bad = nullptr) {
    return detail::packed_by(guillotiere_pack, sprites, count, with, bad);
}
inline result<std::optional<sheet>> pack(const std::vector<size> &sprites, const sheet_options &with,
                                         std::size_t *bad = nullptr) {
    return pack(sprites.data(), sprites.size(), with, bad);
}

// The sheet of `pack`, or one with fewer pixels, laid out without guillotine cuts and with no sprite turned; never one with more.
inline result<std::optional<sheet>> pack_dense(const size *sprites, std::size_t count, const sheet_options &with,
                                               std::size_t *bad = nullptr) {
    return detail::packed_by(guillotiere_pack_dense, sprites, count, with, bad);
}
inline result<std::optional<sheet>> pack_dense(const std::vector<size> &sprites, const sheet_options &with,
                                               std::size_t *bad = nullptr) {
    return pack_dense(sprites.data(), sprites.size(), with, bad);
}

namespace detail {

// The sheets that one of the two calls for several sheets finds.
template <class Call>
inline result<std::optional<pages>> pages_by(Call call, std::size_t count, const sheet_options &with, std::size_t *bad) {
    std::size_t number = 0, sheets = 0;
    pages made{std::vector<size>(count + 1), std::vector<on_page>(count + 1)};
    const auto options = asked(with);
    const auto answer = call(options, made, &sheets, &number);
    if (answer == GUILLOTIERE_DONE) {
        made.sizes.resize(sheets);
        made.places.resize(count);
        return std::optional<pages>(std::move(made));
    }
    if (answer == GUILLOTIERE_NO_ROOM) return std::optional<pages>();
    return refused(answer, number, bad);
}

} // namespace detail

// Packs all sprites into as few sheets as are found, each but the last the greatest that is allowed; nothing where a sprite is
// too large for an empty sheet.
inline result<std::optional<pages>> pack_pages(const size *sprites, std::size_t count, const sheet_options &with,
                                               std::size_t *bad = nullptr) {
    const size none{};
    const auto call = [&](const auto &of, pages &made, std::size_t *sheets, std::size_t *number) {
        return guillotiere_pack_pages(count == 0 ? &none : sprites, count, &of, made.places.data(), count, made.sizes.data(),
                                      count, sheets, number);
    };
    return detail::pages_by(call, count, with, bad);
}
inline result<std::optional<pages>> pack_pages(const std::vector<size> &sprites, const sheet_options &with,
                                               std::size_t *bad = nullptr) {
    return pack_pages(sprites.data(), sprites.size(), with, bad);
}

// Packs as `pack_pages`, with all sprites of a group on one sheet, unless no way packs them alone into the greatest that is
// allowed. `groups` has the number of each sprite's group, in the order of the sprites; `no_group`, or no number where it ends
// before, says that a sprite is in none.
inline result<std::optional<pages>> pack_groups(const size *sprites, std::size_t count, const std::uint32_t *groups,
                                                std::size_t groups_count, const sheet_options &with,
                                                std::size_t *bad = nullptr) {
    const size none{};
    const auto *const numbers = groups_count == 0 ? &no_group : groups;
    const auto call = [&](const auto &of, pages &made, std::size_t *sheets, std::size_t *number) {
        return guillotiere_pack_groups(count == 0 ? &none : sprites, count, numbers, groups_count, &of, made.places.data(),
                                       count, made.sizes.data(), count, sheets, number);
    };
    return detail::pages_by(call, count, with, bad);
}
inline result<std::optional<pages>> pack_groups(const std::vector<size> &sprites, const std::vector<std::uint32_t> &groups,
                                                const sheet_options &with, std::size_t *bad = nullptr) {
    return pack_groups(sprites.data(), sprites.size(), groups.data(), groups.size(), with, bad);
}

// Places sprites in the greatest sheet that is allowed, as many pixels of them as it finds room for.
inline result<filled_sheet> fill(const size *sprites, std::size_t count, const sheet_options &with, std::size_t *bad = nullptr) {
    const size none{};
    std::size_t number = 0;
    filled_sheet made{{}, std::vector<std::optional<placed>>(count), 0};
    std::vector<guillotiere_maybe_placed> places(count + 1);
    const auto asked = detail::asked(with);
    const auto answer = guillotiere_fill(count == 0 ? &none : sprites, count, &asked, places.data(), count, &made.left, &made.size,
                                         &number);
    if (answer != GUILLOTIERE_DONE) return detail::refused(answer, number, bad);
    for (std::size_t i = 0; i < count; i++) {
        if (places[i].is_placed != 0) made.places[i] = places[i].placed;
    }
    return made;
}
inline result<filled_sheet> fill(const std::vector<size> &sprites, const sheet_options &with, std::size_t *bad = nullptr) {
    return fill(sprites.data(), sprites.size(), with, bad);
}

} // namespace guillotiere

#endif
