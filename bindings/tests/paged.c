/* Boxes on several pages. What is expected was worked out by hand. */
#include "check.h"

#include <string.h>

static const guillotiere_options defaults = GUILLOTIERE_DEFAULT_OPTIONS;

static guillotiere_page_allocation granted_by(guillotiere_paged *paged, int32_t width, int32_t height) {
    guillotiere_page_allocation granted;
    CHECK(guillotiere_paged_allocate(paged, width, height, &granted) == GUILLOTIERE_DONE);
    CHECK(granted.rectangle.max_x - granted.rectangle.min_x >= width && granted.rectangle.max_y - granted.rectangle.min_y >= height);
    return granted;
}

static uint32_t pages_of(const guillotiere_paged *paged) {
    uint32_t pages = 99;
    CHECK(guillotiere_paged_page_count(paged, &pages) == GUILLOTIERE_DONE);
    return pages;
}

/* A page comes where no other has room; a request goes to the first that has; the last ones go where nothing is on them. */
static void pages_come_and_go(void) {
    guillotiere_paged paged = GUILLOTIERE_NONE;
    guillotiere_page_allocation box;
    uint32_t left = 99;
    CHECK(guillotiere_paged_new(64, 64, 3, &paged) == GUILLOTIERE_DONE && pages_of(&paged) == 0);
    const guillotiere_page_allocation one = granted_by(&paged, 64, 40), two = granted_by(&paged, 50, 40);
    const guillotiere_page_allocation three = granted_by(&paged, 64, 64);
    CHECK(one.page == 0 && two.page == 1 && three.page == 2 && pages_of(&paged) == 3);
    CHECK(granted_by(&paged, 64, 24).page == 0 && granted_by(&paged, 64, 24).page == 1 && granted_by(&paged, 14, 40).page == 1);
    box = one;
    CHECK(guillotiere_paged_allocate(&paged, 1, 1, &box) == GUILLOTIERE_NO_ROOM && memcmp(&box, &one, sizeof box) == 0);
    CHECK(guillotiere_paged_deallocate(&paged, 0, one.id) == GUILLOTIERE_DONE && granted_by(&paged, 10, 40).page == 0);
    CHECK(guillotiere_paged_shrink(&paged, &left) == GUILLOTIERE_DONE && left == 3 && pages_of(&paged) == 3);
    CHECK(guillotiere_paged_deallocate(&paged, 2, three.id) == GUILLOTIERE_DONE && pages_of(&paged) == 3);
    CHECK(guillotiere_paged_shrink(&paged, &left) == GUILLOTIERE_DONE && left == 2 && pages_of(&paged) == 2);
    CHECK(guillotiere_paged_clear(&paged) == GUILLOTIERE_DONE && pages_of(&paged) == 2);
    CHECK(guillotiere_paged_allocate(&paged, 64, 64, &box) == GUILLOTIERE_DONE && box.page == 0);
    CHECK(guillotiere_paged_shrink(&paged, &left) == GUILLOTIERE_DONE && left == 1);
    CHECK(guillotiere_paged_clear(&paged) == GUILLOTIERE_DONE && guillotiere_paged_shrink(&paged, &left) == GUILLOTIERE_DONE && left == 0);
    guillotiere_paged_free(&paged);
    CHECK(paged.at == NULL && guillotiere_paged_clear(&paged) == GUILLOTIERE_EMPTY);
    guillotiere_paged_free(&paged);
}

/* What is told of a page, and an id that is one of its page alone. */
static void asked(void) {
    guillotiere_paged paged = GUILLOTIERE_NONE;
    guillotiere_rectangle found = {9, 9, 9, 9};
    guillotiere_allocation live[3];
    guillotiere_areas areas = {9, 9};
    guillotiere_size size = {9, 9};
    size_t count = 9;
    CHECK(guillotiere_paged_new(100, 50, 4, &paged) == GUILLOTIERE_DONE);
    const guillotiere_page_allocation one = granted_by(&paged, 100, 30), two = granted_by(&paged, 70, 50);
    CHECK(guillotiere_paged_get(&paged, 1, two.id, &found) == GUILLOTIERE_DONE && are_same(&found, &two.rectangle));
    found.min_x = 9;
    CHECK(guillotiere_paged_get(&paged, 1, 99, &found) == GUILLOTIERE_NOT_LIVE && found.min_x == 9);
    CHECK(guillotiere_paged_get(&paged, 2, two.id, &found) == GUILLOTIERE_NOT_LIVE && found.min_x == 9);
    CHECK(guillotiere_paged_get(&paged, UINT32_MAX, UINT32_MAX, &found) == GUILLOTIERE_NOT_LIVE && found.min_x == 9);
    CHECK(guillotiere_paged_page_size(&paged, 2, &size) == GUILLOTIERE_NO_PAGE && size.width == 9);
    CHECK(guillotiere_paged_page_size(&paged, 1, &size) == GUILLOTIERE_DONE && size.width == 100 && size.height == 50);
    CHECK(guillotiere_paged_areas(&paged, 2, &areas) == GUILLOTIERE_NO_PAGE && areas.free == 9);
    CHECK(guillotiere_paged_areas(&paged, 1, &areas) == GUILLOTIERE_DONE && areas.allocated == 3500 && areas.free == 1500);
    CHECK(guillotiere_paged_live(&paged, 2, live, 3, &count) == GUILLOTIERE_NO_PAGE && count == 9);
    memset(live, 0x55, sizeof live);
    const guillotiere_allocation untouched = live[0];
    CHECK(guillotiere_paged_live(&paged, 0, live, 0, &count) == GUILLOTIERE_DONE && count == 1);
    CHECK(guillotiere_paged_live(&paged, 0, NULL, 0, &count) == GUILLOTIERE_DONE && count == 1);
    CHECK(memcmp(&untouched, &live[0], sizeof untouched) == 0);
    CHECK(guillotiere_paged_live(&paged, 0, live, 3, &count) == GUILLOTIERE_DONE && count == 1 && live[0].id == one.id);
    CHECK(are_same(&live[0].rectangle, &one.rectangle) && memcmp(&untouched, &live[1], sizeof untouched) == 0);
    CHECK(guillotiere_paged_deallocate(&paged, 2, one.id) == GUILLOTIERE_NOT_LIVE);
    CHECK(guillotiere_paged_deallocate(&paged, 0, 99) == GUILLOTIERE_NOT_LIVE);
    CHECK(guillotiere_paged_deallocate(&paged, 0, one.id) == GUILLOTIERE_DONE);
    CHECK(guillotiere_paged_deallocate(&paged, 0, one.id) == GUILLOTIERE_NOT_LIVE);
    CHECK(guillotiere_paged_live(&paged, 0, live, 3, &count) == GUILLOTIERE_DONE && count == 0);
    guillotiere_paged_free(&paged);
}

/* A page that grows has room for more, and the next page is as small as before. */
static void grows(void) {
    guillotiere_paged paged = GUILLOTIERE_NONE;
    guillotiere_size size;
    guillotiere_rectangle found;
    CHECK(guillotiere_paged_new(64, 64, 2, &paged) == GUILLOTIERE_DONE);
    CHECK(guillotiere_paged_grow(&paged, 0, 128, 64) == GUILLOTIERE_NO_PAGE);
    const guillotiere_page_allocation one = granted_by(&paged, 60, 60);
    CHECK(guillotiere_paged_grow(&paged, 0, 128, 63) == GUILLOTIERE_BAD_CALL);
    CHECK(guillotiere_paged_grow(&paged, 0, 63, 128) == GUILLOTIERE_BAD_CALL);
    CHECK(guillotiere_paged_grow(&paged, 0, -1, INT32_MIN) == GUILLOTIERE_BAD_CALL);
    CHECK(guillotiere_paged_grow(&paged, 1, 128, 128) == GUILLOTIERE_NO_PAGE);
    CHECK(guillotiere_paged_page_size(&paged, 0, &size) == GUILLOTIERE_DONE && size.width == 64);
    CHECK(guillotiere_paged_grow(&paged, 0, 128, 64) == GUILLOTIERE_DONE);
    CHECK(guillotiere_paged_page_size(&paged, 0, &size) == GUILLOTIERE_DONE && size.width == 128 && size.height == 64);
    CHECK(guillotiere_paged_get(&paged, 0, one.id, &found) == GUILLOTIERE_DONE && are_same(&found, &one.rectangle));
    CHECK(granted_by(&paged, 60, 60).page == 0 && granted_by(&paged, 60, 60).page == 1);
    CHECK(guillotiere_paged_page_size(&paged, 1, &size) == GUILLOTIERE_DONE && size.width == 64);
    guillotiere_paged_free(&paged);
}

/* Sides, options and numbers of pages that are no good, and one that is. */
static void makes(void) {
    static const int32_t numbers[] = {INT32_MIN, -1, 0, 1, 64, INT32_MAX};
    guillotiere_paged paged = GUILLOTIERE_NONE;
    guillotiere_page_allocation box;
    for (int i = 0; i < 6; i++)
        for (int k = 0; k < 6; k++) {
            const guillotiere_options aligned = {numbers[i], numbers[k], 32, 256}, tested = {1, 1, numbers[i], numbers[k]};
            const bool are_positive = numbers[i] > 0 && numbers[k] > 0;
            uint32_t status = guillotiere_paged_new(numbers[i], numbers[k], 2, &paged);
            CHECK(status == (are_positive ? GUILLOTIERE_DONE : GUILLOTIERE_BAD_CALL) && (paged.at != NULL) == are_positive);
            guillotiere_paged_free(&paged);
            CHECK(guillotiere_paged_with_options(64, 64, &aligned, 2, &paged) == status);
            guillotiere_paged_free(&paged);
            status = guillotiere_paged_with_options(64, 64, &tested, 2, &paged);
            CHECK(status == (numbers[i] <= numbers[k] ? GUILLOTIERE_DONE : GUILLOTIERE_BAD_CALL));
            guillotiere_paged_free(&paged);
            CHECK(guillotiere_paged_new(64, 64, 1, &paged) == GUILLOTIERE_DONE);
            const bool fits = are_positive && numbers[i] <= 64 && numbers[k] <= 64;
            CHECK(guillotiere_paged_allocate(&paged, numbers[i], numbers[k], &box) == (fits ? GUILLOTIERE_DONE : GUILLOTIERE_NO_ROOM));
            CHECK(pages_of(&paged) == fits);
            guillotiere_paged_free(&paged);
        }
    CHECK(guillotiere_paged_new(64, 64, 0, &paged) == GUILLOTIERE_DONE);
    CHECK(guillotiere_paged_allocate(&paged, 1, 1, &box) == GUILLOTIERE_NO_ROOM && pages_of(&paged) == 0);
    CHECK(guillotiere_paged_new(0, 64, 0, &paged) == GUILLOTIERE_OCCUPIED);
    CHECK(guillotiere_paged_with_options(64, 64, &defaults, 9, &paged) == GUILLOTIERE_OCCUPIED);
    guillotiere_paged_free(&paged);
    const guillotiere_options aligned = {4, 16, 32, 256};
    CHECK(guillotiere_paged_with_options(64, 64, &aligned, UINT32_MAX, &paged) == GUILLOTIERE_DONE);
    box = granted_by(&paged, 5, 17);
    CHECK(box.rectangle.max_x - box.rectangle.min_x == 8 && box.rectangle.max_y - box.rectangle.min_y == 32);
    guillotiere_paged_free(&paged);
}

int main(void) {
    pages_come_and_go();
    asked();
    grows();
    makes();
    return 0;
}
