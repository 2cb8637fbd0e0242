/* The random calls of bindings/tests/digest.c, while requests for memory are refused: prints their digest, and how many were refused.
 *
 *     refused CALLS TURNS
 *
 * First one in twenty of CALLS calls' requests; then of TURNS calls, which are made from nothing for each, one request alone: the first, the
 * second and so on to the last. */
#define DIGEST_BARE
#include "digest.c"
#include <stdio.h>
#include <stdlib.h>
#include <string.h>

static uint64_t drawn = 99;
static long refused, blocks, left; /* `left` are granted before one is refused, where it isn't below 0 */
static bool is_random = true;

static bool refuses(void) {
    if (!is_random) return left-- == 0;
    drawn = drawn * 6364136223846793005u + 1442695040888963407u;
    return (drawn >> 33) % 20 == 0;
}

static void *resize(void *user, void *block, size_t size_before, size_t size) {
    void *made;
    (void)user;
    (void)size_before;
    if (size == 0) {
        blocks -= block != NULL;
        free(block);
        return NULL;
    }
    if (refuses()) {
        refused++;
        return NULL;
    }
    made = realloc(block, size);
    blocks += block == NULL && made != NULL;
    return made;
}

static void end(void) {
    for (int i = 0; i < 2; i++) guillotiere_atlas_free(&both[i].atlas);
    guillotiere_simple_free(&simple);
    guillotiere_paged_free(&paged);
    guillotiere_cache_free(&cache);
    memset(both, 0, sizeof both);
    on_pages_count = 0;
}

int main(int count, char **words) {
    uint64_t all;
    long turn, before;
    if (count != 3) return 2;
    guillotiere_set_memory(resize, NULL);
    digest_start(7);
    all = digest_calls((uint32_t)strtoul(words[1], NULL, 10));
    printf("%016llx refused %ld\n", (unsigned long long)all, refused);
    is_random = false;
    for (turn = 0, before = -1; refused > before; turn++) {
        before = refused;
        end();
        if (blocks != 0) return 1;
        digest_start(7);
        left = turn;
        all = all * 1099511628211u ^ digest_calls((uint32_t)strtoul(words[2], NULL, 10));
    }
    printf("%016llx in %ld turns\n", (unsigned long long)all, turn);
    return turn < 2;
}
