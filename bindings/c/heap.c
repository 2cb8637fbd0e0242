/* The three functions by which code that the Rattle kit compiles reaches a heap, and the call that sets which: bindings/build
 * compiles them into the library.
 *
 * A block is asked for by its bytes and its alignment, which malloc's meets. The answer is whether there is one, and
 * where; a block of no bytes has an address of its own all the same. */
/* No header is read: the kit's compiler, which compiles this, has none of the C library. */
typedef __SIZE_TYPE__ size_t;
typedef __UINT64_TYPE__ uint64_t;
typedef void *(*guillotiere_resize)(void *user, void *block, size_t size_before, size_t size);
#define NULL ((void *)0)

void *malloc(size_t size);
void *realloc(void *block, size_t size);
void free(void *block);
void guillotiere_set_memory(guillotiere_resize resize, void *user);

/* Returned in two registers, as the compiled code expects it: so by the rules of x86-64 and aarch64 under Linux. */
struct block {
    uint64_t is_there;
    void *at;
};

struct block rattle_alloc(uint64_t bytes, uint64_t alignment);
struct block rattle_realloc(void *at, uint64_t bytes_before, uint64_t bytes, uint64_t alignment);
void rattle_dealloc(void *at);

static guillotiere_resize hook;
static void *hook_user;

void guillotiere_set_memory(guillotiere_resize resize, void *user) {
    hook = resize;
    hook_user = user;
}

/* A block of the hook's begins with its whole size, since rattle_dealloc isn't told it. Then comes what is handed out, aligned as malloc
 * aligns. */
enum { HEAD = 16 };

static uint64_t *head_of(void *at) { return (uint64_t *)((char *)at - HEAD); }

static struct block answer(void *at) {
    static uint64_t nowhere[2];
    const struct block found = {at != NULL, at != NULL ? at : (void *)nowhere};
    return found;
}

static struct block from_hook(void *at, uint64_t bytes) {
    uint64_t *const before = at != NULL ? head_of(at) : NULL;
    uint64_t *const whole = bytes > (size_t)-1 - HEAD ? NULL : hook(hook_user, before, before != NULL ? *before : 0, bytes + HEAD);
    if (whole == NULL) return answer(NULL);
    *whole = bytes + HEAD;
    return answer((char *)whole + HEAD);
}

struct block rattle_alloc(uint64_t bytes, uint64_t alignment) {
    const uint64_t wanted = bytes > 0 ? bytes : alignment;
    return hook != NULL ? from_hook(NULL, wanted) : answer(malloc(wanted));
}

struct block rattle_realloc(void *at, uint64_t bytes_before, uint64_t bytes, uint64_t alignment) {
    const uint64_t wanted = bytes > 0 ? bytes : alignment;
    (void)bytes_before;
    return hook != NULL ? from_hook(at, wanted) : answer(realloc(at, wanted));
}

void rattle_dealloc(void *at) {
    if (hook == NULL || at == NULL) {
        free(at);
    } else {
        hook(hook_user, head_of(at), *head_of(at), 0);
    }
}
