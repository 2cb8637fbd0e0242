// The owners of guillotiere.hpp: moved, cloned, and let go once.
#include "check.h"

#include <guillotiere.hpp>

#include <string>
#include <type_traits>

using namespace guillotiere;

static_assert(!std::is_copy_constructible<atlas>::value && !std::is_copy_assignable<atlas>::value, "atlas is move-only");
static_assert(std::is_nothrow_move_constructible<atlas>::value && std::is_nothrow_move_assignable<atlas>::value, "");
static_assert(!std::is_copy_constructible<simple_atlas>::value, "simple_atlas is move-only");
static_assert(std::is_nothrow_move_constructible<simple_atlas>::value, "");
static_assert(!std::is_copy_constructible<paged_atlas>::value && std::is_nothrow_move_assignable<paged_atlas>::value, "");

static atlas made(size of) {
    auto answer = atlas::make(of);
    CHECK(answer);
    return std::move(*answer);
}

static allocation granted(atlas &from, size wanted) {
    auto answer = from.allocate(wanted);
    CHECK(answer && *answer);
    return **answer;
}

static void makes() {
    CHECK(atlas::make({0, 5}).error() == status::bad_call);
    CHECK(atlas::make({5, 5}, {0, 1, 32, 256}).error() == status::bad_call);
    CHECK(atlas::make({5, 5}, default_options, 0).error() == status::bad_call);
    CHECK(simple_atlas::make({-1, 5}).error() == status::bad_call);
    auto whole = made({100, 50});
    CHECK(whole.size().width == 100 && whole.size().height == 50 && whole.is_empty());
    CHECK(whole.slots().limit == most_slots && whole.areas().free == 5000);
    CHECK(whole.unusable_area({100, 50}) == 0 && whole.unusable_area({100, 51}) == 5000 && whole.largest_free()->max_y == 50);
    CHECK(whole.options().alignment_width == 1 && whole.options().large_size_threshold == 256);
}

static void moves() {
    auto one = made({64, 64});
    const auto box = granted(one, {10, 20});
    atlas other = std::move(one);
    CHECK(one.allocate({1, 1}).error() == status::empty && one.deallocate(box.id) == status::empty);
    CHECK(!one.largest_free() && one.unusable_area({1, 1}) == 0);
    CHECK(!one.can_fit({1, 1}) && !one.can_grow_to({64, 64}) && one.reserve(0) == status::empty);
    CHECK(one.options().alignment_width == 0);
    CHECK(one.is_empty() && one.size().width == 0 && !one.get(box.id) && one.live().error() == status::empty);
    CHECK(other.get(box.id) && other.get(box.id)->max_y == 20);
    one = std::move(other);
    CHECK(one.get(box.id));
    auto full = made({16, 16});
    full = std::move(one); // what it held is freed, and not handed to the source
    CHECK(full.get(box.id) && one.size().width == 0 && one.allocate({1, 1}).error() == status::empty);
    one = std::move(full);
    CHECK(full.size().width == 0);
    auto *const alias = &one;
    one = std::move(*alias);
    CHECK(one.get(box.id));
}

static void calls() {
    auto whole = made({64, 64});
    CHECK(!whole.can_fit({65, 1}) && *whole.allocate({65, 1}) == std::nullopt);
    CHECK(whole.can_fit({64, 64}) && whole.reserve(4) == status::done && whole.reserve(most_slots) == status::slots);
    const auto box = granted(whole, {10, 20}), next = granted(whole, {30, 5});
    auto copy = whole.clone();
    CHECK(copy && copy->get(next.id));
    CHECK(whole.deallocate(box.id) == status::done && whole.deallocate(box.id) == status::not_live);
    CHECK(copy->get(box.id) && copy->deallocate_all({box.id, next.id}) == status::done && copy->is_empty());
    CHECK(copy->deallocate_all(std::vector<std::uint32_t>()) == status::done);
    const auto live = whole.live();
    CHECK(live && live->size() == 1 && (*live)[0].id == next.id);
    const auto free = whole.free_boxes();
    CHECK(free && !free->empty());
    CHECK(!whole.can_grow_to({63, 64}) && whole.can_grow_to({128, 64}));
    CHECK(whole.grow({63, 64}) == status::bad_call && whole.grow({128, 64}) == status::done);
    auto list = whole.rearrange();
    CHECK(list && list->changes.size() == 1 && list->failures.empty() && list->changes[0].before.id == next.id);
    list = whole.resize_and_rearrange({4, 4});
    CHECK(list && list->changes.empty() && list->failures.size() == 1 && whole.is_empty());
    CHECK(whole.reset({0, 0}) == status::bad_call && whole.reset({9, 9}) == status::done && whole.clear() == status::done);
}

static void simple_calls() {
    auto whole = made({64, 64});
    const auto box = granted(whole, {40, 40});
    auto answer = simple_atlas::make({8, 8});
    CHECK(answer);
    simple_atlas simple = std::move(*answer);
    CHECK(simple.is_empty() && simple.init_from_allocator(whole) == status::done && !simple.is_empty());
    auto taken = simple.allocate({20, 20});
    CHECK(taken && *taken && are_apart(&**taken, &box.rectangle));
    CHECK(*simple.allocate({64, 64}) == std::nullopt);
    CHECK(simple.options().small_size_threshold == 32 && simple.slots().used <= simple.slots().kept);
    CHECK(!simple.can_grow_to({80, 63}) && simple.can_grow_to({80, 64}));
    CHECK(simple.grow({1, 1}) == status::bad_call && simple.grow({80, 64}) == status::done);
    CHECK(simple.size().width == 80 && simple.clear() == status::done && simple.is_empty());
    CHECK(simple.reset({0, 1}) == status::bad_call && simple.reset({5, 6}) == status::done && simple.size().height == 6);
}

static void several_pages() {
    CHECK(paged_atlas::make({0, 64}, 2).error() == status::bad_call);
    CHECK(paged_atlas::make({64, 64}, 2, {1, 1, 9, 8}).error() == status::bad_call);
    auto made = paged_atlas::make({64, 64}, 2);
    CHECK(made && made->page_count() == 0 && !made->page_size(0) && !made->areas(0) && made->live(0).error() == status::no_page);
    const auto one = made->allocate({64, 40}), other = made->allocate({64, 40});
    CHECK(one && *one && (*one)->page == 0 && other && *other && (*other)->page == 1 && made->page_count() == 2);
    CHECK(*made->allocate({64, 40}) == std::nullopt && *made->allocate({65, 1}) == std::nullopt);
    CHECK(made->get(1, (*other)->id)->max_y == 40 && !made->get(2, (*other)->id));
    const auto live = made->live(1);
    CHECK(live && live->size() == 1 && (*live)[0].id == (*other)->id && made->areas(1)->free == 64 * 24);
    CHECK(made->grow(1, {64, 63}) == status::bad_call && made->grow(2, {64, 64}) == status::no_page);
    CHECK(made->grow(1, {80, 64}) == status::done && made->page_size(1)->width == 80 && made->page_size(0)->width == 64);
    paged_atlas taken = std::move(*made);
    CHECK(made->page_count() == 0 && made->allocate({1, 1}).error() == status::empty && made->shrink() == 0);
    CHECK(made->deallocate(0, (*one)->id) == status::empty && made->clear() == status::empty && made->live(0).error() == status::empty);
    CHECK(taken.deallocate(0, (*one)->id) == status::done && taken.deallocate(0, (*one)->id) == status::not_live);
    CHECK(taken.shrink() == 2 && taken.live(0)->empty()); // the page before one with a box stays
    CHECK(taken.clear() == status::done && taken.page_count() == 2 && taken.shrink() == 0 && taken.page_count() == 0);
    taken = std::move(*paged_atlas::make({8, 8}, 1));
    CHECK((*taken.allocate({8, 8}))->page == 0 && *taken.allocate({1, 1}) == std::nullopt);
}

static void sheets_of_sprites() {
    CHECK(version() == header_version && header_version == GUILLOTIERE_VERSION);
    const std::vector<size> sprites = {{3, 5}, {3, 5}, {3, 5}};
    auto with = sheet_options::of_heights(9, 100);
    auto made = pack(sprites, with);
    CHECK(made && *made && (*made)->size.width == 9 && (*made)->size.height == 5 && (*made)->places.size() == 3);
    for (std::size_t i = 0; i < 3; i++)
        for (std::size_t k = 0; k < i; k++) CHECK(are_apart(&(*made)->places[i].area, &(*made)->places[k].area));
    made = pack(sprites, sheet_options::of_size({8, 8}));
    CHECK(made && !*made);
    made = pack(sprites, sheet_options::of_powers(64));
    CHECK(made && *made && (*made)->size.width * (*made)->size.height == 64);
    made = pack(std::vector<size>(), sheet_options::of_squares(2, 9));
    CHECK(made && *made && (*made)->size.width == 2 && (*made)->places.empty());
    made = pack(nullptr, 0, sheet_options());
    CHECK(made && *made && (*made)->size.height == 1);
    std::size_t bad = 77;
    CHECK(pack(sprites, sheet_options::of_squares(9, 8), &bad).error() == status::empty_range && bad == 77);
    CHECK(pack({{3, 5}, {0, 5}}, with, &bad).error() == status::empty_sprite && bad == 1);
    with.padding = 70000;
    CHECK(pack(sprites, with).error() == status::bad_call);
}

static void sheets_without_whole_cuts() {
    const std::vector<size> sprites = {{4, 2}, {10, 6}, {4, 2}, {6, 4}};
    auto made = pack_dense(sprites, sheet_options::of_squares(1, 64));
    CHECK(made && *made && (*made)->size.width == 10 && (*made)->size.height == 10 && (*made)->places.size() == 4);
    CHECK((*made)->places[2].area.min_x == 6 && (*made)->places[2].area.min_y == 8);
    made = pack_dense(sprites, sheet_options::of_squares(1, 9));
    CHECK(made && !*made);
    made = pack_dense(nullptr, 0, sheet_options::of_squares(2, 9));
    CHECK(made && *made && (*made)->size.width == 2 && (*made)->places.empty());
    std::size_t bad = 77;
    CHECK(pack_dense(sprites, sheet_options::of_squares(9, 8), &bad).error() == status::empty_range && bad == 77);
    CHECK(pack_dense({{3, 5}, {0, 5}}, sheet_options(), &bad).error() == status::empty_sprite && bad == 1);
}

static void several_sheets() {
    const std::vector<size> sprites = {{4, 4}, {4, 4}, {4, 4}, {4, 4}, {4, 4}};
    const auto with = sheet_options::of_squares(1, 8);
    auto made = pack_pages(sprites, with);
    CHECK(made && *made && (*made)->sizes.size() == 2 && (*made)->sizes[0].width == 8 && (*made)->sizes[1].height == 4);
    std::size_t first = 0;
    for (const auto &each : (*made)->places) first += each.page == 0;
    CHECK(first == 4 && (*made)->places.size() == 5);
    made = pack_pages({{4, 4}, {9, 1}}, with);
    CHECK(made && !*made);
    made = pack_pages(nullptr, 0, with);
    CHECK(made && *made && (*made)->sizes.empty() && (*made)->places.empty());
    std::size_t bad = 77;
    CHECK(pack_pages({{3, 5}, {0, 5}}, with, &bad).error() == status::empty_sprite && bad == 1);
    auto filled = fill(sprites, with);
    CHECK(filled && filled->size.width == 8 && filled->left == 1 && filled->places.size() == 5);
    for (const auto &each : filled->places) first -= each.has_value();
    CHECK(first == 0);
    filled = fill(std::vector<size>(), with);
    CHECK(filled && filled->size.height == 8 && filled->left == 0 && filled->places.empty());
    CHECK(fill({{3, 5}, {4, 4}, {3, -5}}, with, &bad).error() == status::empty_sprite && bad == 2);
    CHECK(fill(sprites, sheet_options::of_squares(9, 8)).error() == status::empty_range);
}

// Squares of 4, of which one of 8 takes four: a group of three, one of two that has no room beside it, and a sprite in none.
static void sheets_with_groups() {
    const std::vector<size> sprites(6, size{4, 4});
    const auto with = sheet_options::of_squares(1, 8);
    auto made = pack_groups(sprites, {0, 9, 0, 9, 0, no_group}, with);
    CHECK(made && *made && (*made)->sizes.size() == 2 && (*made)->sizes[1].width == 8 && (*made)->places.size() == 6);
    for (std::size_t i = 0; i < 6; i++) CHECK((*made)->places[i].page == (i % 2 == 1 && i < 5));
    made = pack_groups(sprites, {}, with);
    const auto plain = pack_pages(sprites, with);
    CHECK(made && *made && plain && *plain && (*made)->sizes.size() == (*plain)->sizes.size());
    for (std::size_t i = 0; i < 6; i++) CHECK((*made)->places[i].page == (*plain)->places[i].page);
    made = pack_groups({{4, 4}, {9, 1}}, {1, 1}, with);
    CHECK(made && !*made);
    made = pack_groups(nullptr, 0, nullptr, 0, with);
    CHECK(made && *made && (*made)->sizes.empty() && (*made)->places.empty());
    std::size_t bad = 77;
    CHECK(pack_groups({{3, 5}, {0, 5}}, {1}, with, &bad).error() == status::empty_sprite && bad == 1);
}

static std::uint64_t evicted(cache &of) {
    const auto change = of.next_change();
    CHECK(change && change->kind == change_kind::evicted);
    return change->key;
}

// A blank key has a place, which is empty, and needs no page.
static void blank_keys() {
    auto made = cache::make({{16, 16}, {16, 32}, 1, 0, default_options});
    const auto space = made->insert(9, {0, 5});
    CHECK(space && space->answer == insertion::fresh && space->at->inner.max_y == 0 && space->at->page == 0);
    CHECK(!made->next_change() && made->page_count() == 0 && made->len() == 1);
    CHECK(made->insert(9, {0, 5})->answer == insertion::held && made->get(9)->number == 0);
    CHECK(made->insert(9, {5, 5}).error() == status::other_size && made->remove(9));
}

// On a page of 16 by 16 a key of 8 by 8 leaves 192 pixels. A second one has room only once it is gone: that is forced if it has as many.
static std::uint64_t forced_by(size second) {
    auto made = cache::make({{16, 16}, {16, 16}, 1, 0, default_options});
    CHECK(made->insert(1, {8, 8})->answer == insertion::fresh && made->begin_frame() == status::done);
    CHECK(made->insert(2, second)->answer == insertion::fresh && made->statistics().evictions == 1);
    return made->statistics().forced;
}

static void forced_evictions() {
    CHECK(forced_by({16, 12}) == 1 && forced_by({16, 13}) == 0);
}

static void caches() {
    cache_options with{{16, 16}, {16, 32}, 1, 0, default_options};
    auto made = cache::make(with);
    CHECK(made && made->begin_frame() == status::done);
    const auto first = made->insert(7, {16, 32});
    CHECK(first && first->answer == insertion::fresh && first->at->inner.max_y == 32);
    const auto again = made->insert(7, {16, 32});
    CHECK(again && again->answer == insertion::held && again->at->inner.max_y == 32);
    CHECK(made->page_count() == 1 && made->page_size(0)->height == 32 && !made->page_size(1));
    const auto added = made->next_change(), grown = made->next_change();
    CHECK(added && added->kind == change_kind::page_added && added->size.height == 16);
    CHECK(grown && grown->kind == change_kind::page_grown && grown->size.height == 32);
    CHECK(!made->next_change() && !made->insert(8, {1, 1})->at);
    CHECK(made->insert(8, {1, 1})->answer == insertion::frame_full);
    CHECK(made->insert(8, {17, 1})->answer == insertion::never_fits);
    CHECK(made->insert(7, {1, 1}).error() == status::other_size);
    CHECK(made->begin_frame() == status::done && made->insert(8, {1, 1})->at && evicted(*made) == 7);
    CHECK(made->get(8) && !made->get(7) && made->peek(8)->page == 0 && made->len() == 1);
    CHECK(made->peek(8)->number == 0 && made->numbers() == 1);
    CHECK(made->statistics().hits == 2 && made->statistics().misses == 1 && made->statistics().evictions == 1);
    CHECK(made->statistics().forced == 0); // the page was full
    CHECK(made->newest()->key == 8 && made->oldest()->at.number == 0 && !made->older(8) && made->reserve(10) == status::done);
    const cache &read = *made;
    CHECK(*read.unusable_area(0, {16, 33}) == 511 && read.unusable_area(1, {1, 1}).error() == status::no_page);
    CHECK(read.areas(0)->allocated == 1 && read.areas(0)->free == 511 && !read.areas(1) && read.options().pages == 1);
    auto copy = read.clone();
    CHECK(copy && copy->peek(8)->page == 0 && copy->insert(9, {17, 1})->answer == insertion::never_fits && copy->clear() == status::done);
    CHECK(copy->len() == 0 && read.len() == 1 && copy->clone());
    auto usual = cache::make();
    CHECK(usual->options().page.width == 512 && usual->options().largest_page.height == 2048 && usual->options().pages == 4);
    CHECK(usual->options().padding == 1 && usual->reserve_slots(8) == status::done && usual->reserve_changes(8) == status::done);
    auto other = cache::make();
    *usual = std::move(*other);
    CHECK(other->options().pages == 0 && other->begin_frame() == status::empty && usual->begin_frame() == status::done);
    cache taken = std::move(*made);
    CHECK(!made->newest() && made->options().pages == 0 && made->reserve(1) == status::empty);
    CHECK(made->insert(8, {1, 1}).error() == status::empty && !made->get(8) && made->len() == 0 && made->clone().error() == status::empty);
    CHECK(taken.remove(8) && !taken.remove(8) && taken.insert(9, {2, 2}) && taken.trim(0) == status::done);
    CHECK(taken.repack(0) == status::done && taken.repack(9) == status::no_page);
    CHECK(taken.repack_keeping_all(0) == status::done && taken.repack_keeping_all(9) == status::no_page);
    CHECK(taken.compact(64) && *taken.compact(64) == 0 && made->compact(64).error() == status::empty);
    CHECK(taken.insert(9, {2, 2}) && taken.end_batch(1) == status::done && taken.len() == 0);
    CHECK(evicted(taken) == 9 && taken.clear() == status::done && taken.len() == 0);
    result<inserted> none;
    CHECK(!none && none.error() == status::empty);
    with.pages = 0;
    CHECK(cache::make(with).error() == status::no_pages);
    CHECK(std::string(text(cache::make(with).error())) == "no pages are allowed");
    CHECK(header_interface == linked_interface() && default_cache_options.pages == 4 && default_cache_options.page.width == 512);
    CHECK(cache::make()->options().largest_page.height == 2048 && cache::make(default_cache_options)->options().padding == 1);
    CHECK(std::string(text(status::done)) == "done" && std::string(guillotiere_status_text(99)) == "no status");
}

int main() {
    blank_keys();
    forced_evictions();
    caches();
    sheets_of_sprites();
    sheets_without_whole_cuts();
    several_sheets();
    sheets_with_groups();
    makes();
    moves();
    calls();
    simple_calls();
    several_pages();
    return 0;
}
