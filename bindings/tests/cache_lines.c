/* Carries out lines of standard input that are as those of cache.lines, and writes each with its replies, as in cache.replies. What lines
   say, and what their replies mean, stands at the head of rust/tests/src/cache/lines.rs, which plays the same lines. */
#include "check.h"

#include <string.h>

static guillotiere_cache cache;

static void print_corners(const guillotiere_rectangle *r) {
    printf("%d %d %d %d", (int)r->min_x, (int)r->min_y, (int)r->max_x, (int)r->max_y);
}

static void print_place(const guillotiere_place *place) {
    printf("%u on %u at ", (unsigned)place->number, (unsigned)place->page);
    print_corners(&place->rectangle);
    printf(" inner ");
    print_corners(&place->inner);
}

static void print_keyed(const char *word, uint64_t key, const guillotiere_place *place) {
    printf("%s%llu ", word, (unsigned long long)key);
    print_place(place);
}

static void print_changes(void) {
    static const char *const words[] = {"added", "grown", "evicted ", "moved ", "dropped"};
    guillotiere_cache_change change;
    while (guillotiere_cache_next_change(&cache, &change) == GUILLOTIERE_DONE) {
        const bool is_keyed = change.kind == GUILLOTIERE_EVICTED || change.kind == GUILLOTIERE_MOVED;
        CHECK(change.kind < sizeof words / sizeof *words);
        if (is_keyed)
            print_keyed(words[change.kind], change.key, &change.from);
        else
            printf("%s %u", words[change.kind], (unsigned)change.page);
        if (change.kind == GUILLOTIERE_PAGE_ADDED || change.kind == GUILLOTIERE_PAGE_GROWN)
            printf(" %d %d", (int)change.size.width, (int)change.size.height);
        if (change.kind == GUILLOTIERE_MOVED) printf(" to "), print_place(&change.to);
        puts("");
    }
}

/* The reply to a call that answered nothing but its status, after a line for each change. */
static void reply(uint32_t status) {
    static const struct {
        uint32_t status;
        const char *text;
    } replies[] = {
        {GUILLOTIERE_DONE, "ok"},
        {GUILLOTIERE_NOT_HELD, "none"},
        {GUILLOTIERE_NO_PAGE, "none"},
        {GUILLOTIERE_FRAME_FULL, "full"},
        {GUILLOTIERE_NEVER_FITS, "never"},
        {GUILLOTIERE_EMPTY, "no cache"},
        {GUILLOTIERE_MEMORY, "refused memory"},
        {GUILLOTIERE_NUMBERS, "refused numbers"},
        {GUILLOTIERE_SLOTS, "refused slots"},
        {GUILLOTIERE_OTHER_SIZE, "refused other size"},
        {GUILLOTIERE_EMPTY_PAGE, "refused empty page"},
        {GUILLOTIERE_LARGEST_PAGE, "refused largest page"},
        {GUILLOTIERE_NO_PAGES, "refused no pages"},
        {GUILLOTIERE_BAD_PADDING, "refused padding"},
        {GUILLOTIERE_BAD_ATLAS, "refused atlas"},
        {GUILLOTIERE_NOTHING_FITS, "refused nothing fits"},
    };
    size_t i = 0;
    while (i < sizeof replies / sizeof *replies && replies[i].status != status) i++;
    CHECK(i < sizeof replies / sizeof *replies);
    print_changes();
    puts(replies[i].text);
}

static void reply_place(uint32_t status, const char *before, const guillotiere_place *place) {
    if (status != GUILLOTIERE_DONE && status != GUILLOTIERE_HELD) {
        reply(status);
        return;
    }
    print_changes();
    printf("%s", before);
    print_place(place);
    puts("");
}

static void reply_keyed(uint32_t status, uint64_t key, const guillotiere_place *place) {
    if (status != GUILLOTIERE_DONE) {
        reply(status);
        return;
    }
    print_keyed("", key, place);
    puts("");
}

static void reply_number(uint32_t status, uint64_t number) {
    if (status != GUILLOTIERE_DONE)
        reply(status);
    else
        printf("%llu\n", (unsigned long long)number);
}

/* A new cache takes the place of the old one, unless it is refused. */
static void make(const int32_t *n) {
    const guillotiere_cache_options options = {{n[0], n[1]}, {n[2], n[3]}, n[4] < 0 ? 0 : (uint32_t)n[4], n[5], {n[6], n[7], n[8], n[9]}};
    guillotiere_cache made = GUILLOTIERE_NONE;
    const uint32_t status = guillotiere_cache_new(&options, &made);
    if (status == GUILLOTIERE_DONE) {
        guillotiere_cache_free(&cache);
        cache = made;
    }
    if (status == GUILLOTIERE_DONE)
        puts("ok");
    else
        reply(status);
}

static void options(void) {
    guillotiere_cache_options o;
    const uint32_t status = guillotiere_cache_options_of(&cache, &o);
    if (status != GUILLOTIERE_DONE)
        reply(status);
    else
        printf("%d %d %d %d %u %d %d %d %d %d\n", (int)o.page.width, (int)o.page.height, (int)o.largest_page.width,
               (int)o.largest_page.height, (unsigned)o.pages, (int)o.padding, (int)o.atlas.alignment_width,
               (int)o.atlas.alignment_height, (int)o.atlas.small_size_threshold, (int)o.atlas.large_size_threshold);
}

/* A word alone; false for every other word. */
static bool ask(const char *word) {
    guillotiere_place place;
    guillotiere_counts counts;
    uint64_t key = 0;
    size_t len = 0;
    uint32_t number = 0;
    const uint32_t known = guillotiere_cache_len(&cache, &len);
    if (strcmp(word, "frame") == 0) return reply(guillotiere_cache_begin_frame(&cache)), true;
    if (strcmp(word, "clear") == 0) return reply(guillotiere_cache_clear(&cache)), true;
    if (strcmp(word, "shrink") == 0) return reply(guillotiere_cache_shrink(&cache)), true;
    if (strcmp(word, "options") == 0) return options(), true;
    if (strcmp(word, "len") == 0) return reply_number(known, len), true;
    if (strcmp(word, "empty") == 0) return puts(known != GUILLOTIERE_DONE ? "no cache" : len == 0 ? "yes" : "no"), true;
    if (strcmp(word, "numbers") == 0) {
        const uint32_t status = guillotiere_cache_numbers(&cache, &number);
        return reply_number(status, number), true;
    }
    if (strcmp(word, "pages") == 0) {
        const uint32_t status = guillotiere_cache_page_count(&cache, &number);
        return reply_number(status, number), true;
    }
    if (strcmp(word, "newest") == 0 || strcmp(word, "oldest") == 0) {
        const uint32_t status = word[0] == 'n' ? guillotiere_cache_newest(&cache, &key, &place)
                                               : guillotiere_cache_oldest(&cache, &key, &place);
        return reply_keyed(status, key, &place), true;
    }
    if (strcmp(word, "statistics") != 0) return false;
    const uint32_t status = guillotiere_cache_statistics(&cache, &counts);
    if (status != GUILLOTIERE_DONE)
        reply(status);
    else
        printf("hits %llu misses %llu evictions %llu forced %llu\n", (unsigned long long)counts.hits, (unsigned long long)counts.misses,
               (unsigned long long)counts.evictions, (unsigned long long)counts.forced);
    return true;
}

/* A word with a key, a page or a count; false for every other word. */
static bool use_number(const char *word, uint32_t number) {
    guillotiere_place place;
    guillotiere_size size;
    guillotiere_areas areas = {0, 0};
    uint64_t key = 0;
    if (strcmp(word, "get") == 0) {
        const uint32_t status = guillotiere_cache_get(&cache, number, &place);
        return reply_place(status, "", &place), true;
    }
    if (strcmp(word, "peek") == 0) {
        const uint32_t status = guillotiere_cache_peek(&cache, number, &place);
        return reply_place(status, "", &place), true;
    }
    if (strcmp(word, "remove") == 0) {
        const uint32_t status = guillotiere_cache_remove(&cache, number, &place);
        return reply_place(status, "", &place), true;
    }
    if (strcmp(word, "older") == 0) {
        const uint32_t status = guillotiere_cache_older(&cache, number, &key, &place);
        return reply_keyed(status, key, &place), true;
    }
    if (strcmp(word, "trim") == 0) return reply(guillotiere_cache_trim(&cache, number)), true;
    if (strcmp(word, "batch") == 0) return reply(guillotiere_cache_end_batch(&cache, number)), true;
    if (strcmp(word, "compact") == 0) {
        uint64_t moved = 0;
        const uint32_t status = guillotiere_cache_compact(&cache, number, &moved);
        if (status != GUILLOTIERE_DONE) return reply(status), true;
        return printf("%llu\n", (unsigned long long)moved), true;
    }
    if (strcmp(word, "reserve") == 0) return reply(guillotiere_cache_reserve(&cache, number)), true;
    if (strcmp(word, "repack") == 0) return reply(guillotiere_cache_repack(&cache, number)), true;
    if (strcmp(word, "size") == 0) {
        const uint32_t status = guillotiere_cache_page_size(&cache, number, &size);
        if (status != GUILLOTIERE_DONE) return reply(status), true;
        return printf("%d %d\n", (int)size.width, (int)size.height), true;
    }
    if (strcmp(word, "live") != 0 && strcmp(word, "free") != 0) return false;
    const uint32_t status = guillotiere_cache_areas(&cache, number, &areas);
    return reply_number(status, word[0] == 'l' ? areas.allocated : areas.free), true;
}

static bool use_size(const char *word, uint32_t number, const int32_t *sides) {
    guillotiere_place place;
    uint64_t area = 0;
    if (strcmp(word, "insert") == 0) {
        const uint32_t status = guillotiere_cache_insert(&cache, number, sides[0], sides[1], &place);
        return reply_place(status, status == GUILLOTIERE_HELD ? "held " : "placed ", &place), true;
    }
    if (strcmp(word, "unusable") != 0) return false;
    const uint32_t status = guillotiere_cache_unusable_area(&cache, number, sides[0], sides[1], &area);
    return reply_number(status, area), true;
}

/* The number of decimal digits after an optional '-', from `least` to `greatest`; false for every other text. */
static bool read_number(const char *text, long long least, long long greatest, long long *number) {
    const char *const digits = text + (*text == '-' && least < 0);
    long long value = 0;
    if (*digits == 0) return false;
    for (const char *at = digits; *at != 0; at++) {
        if (*at < '0' || *at > '9' || value > greatest) return false;
        value = 10 * value + (*at - '0');
    }
    *number = digits == text ? value : -value;
    return least <= *number && *number <= greatest;
}

/* Whether a line says a call; it is carried out then. */
static bool carry_out(char *line) {
    char *words[12];
    int count = 0;
    long long n[10] = {0, 0, 0, 0, 0, 0, 1, 1, 32, 256};
    int32_t narrow[10];
    for (char *at = line; at != NULL && count < 12; count++) {
        words[count] = at;
        at = strchr(at, ' ');
        if (at != NULL) *at++ = 0;
    }
    const bool is_start = strcmp(words[0], "cache") == 0;
    if (count > 11 || (is_start ? count != 7 && count != 11 : count == 3 || count > 4)) return false;
    for (int i = 1; i < count; i++) {
        const bool is_count = !is_start && i == 1;
        if (!read_number(words[i], is_count ? 0 : INT32_MIN, is_count ? UINT32_MAX : INT32_MAX, &n[i - 1])) return false;
    }
    for (int i = 0; i < 10; i++) narrow[i] = (int32_t)n[i];
    if (is_start) return make(narrow), true;
    if (count == 1) return ask(words[0]);
    return count == 2 ? use_number(words[0], (uint32_t)n[0]) : use_size(words[0], (uint32_t)n[0], narrow + 1);
}

int main(void) {
    char line[200];
    while (fgets(line, sizeof line, stdin) != NULL) {
        line[strcspn(line, "\n")] = 0;
        printf("%s%s\n", line[0] == 0 || line[0] == '#' ? "" : "> ", line);
        if (line[0] != 0 && line[0] != '#' && !carry_out(line)) puts("bad line");
    }
    guillotiere_cache_free(&cache);
    return 0;
}
