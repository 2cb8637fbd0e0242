/* The heap: malloc, realloc and free, or what guillotiere_set_memory names. A block of its begins with its whole size, since the caller of
 * libc_heap_rattle_dealloc doesn't say it. Then comes what is handed out, aligned as malloc aligns. */
static guillotiere_resize hook;
static void *hook_user;

void guillotiere_set_memory(guillotiere_resize resize, void *user) {
    hook = resize;
    hook_user = user;
}

enum { HEAD = 16 };

static size_t *head_of(void *at) { return (size_t *)(void *)((char *)at - HEAD); }

static Tried found_at(void *at) {
    Tried it;
    it.ok = at != NULL;
    it.p = at != NULL ? at : (void *)&nothing;
    return it;
}

static Tried from_hook(void *at, uint64_t bytes) {
    size_t *before = at != NULL ? head_of(at) : NULL;
    size_t *whole = bytes > (size_t)-1 - HEAD ? NULL
        : (size_t *)hook(hook_user, before, before != NULL ? *before : 0, (size_t)bytes + HEAD);
    if (whole == NULL) return found_at(NULL);
    *whole = (size_t)bytes + HEAD;
    return found_at((char *)(void *)whole + HEAD);
}

static Tried libc_heap_rattle_alloc(uint64_t bytes, uint64_t alignment) {
    const uint64_t wanted = bytes > 0 ? bytes : alignment;
    if (hook != NULL) return from_hook(NULL, wanted);
    return found_at(wanted > (size_t)-1 ? NULL : malloc((size_t)wanted));
}

static Tried libc_heap_rattle_realloc(void *at, uint64_t bytes_before, uint64_t bytes, uint64_t alignment) {
    const uint64_t wanted = bytes > 0 ? bytes : alignment;
    (void)bytes_before;
    if (hook != NULL) return from_hook(at, wanted);
    return found_at(wanted > (size_t)-1 ? NULL : realloc(at, (size_t)wanted));
}

static void libc_heap_rattle_dealloc(void *at) {
    if (hook == NULL || at == NULL) {
        free(at);
    } else {
        hook(hook_user, head_of(at), *head_of(at), 0);
    }
}
