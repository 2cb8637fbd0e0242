/* The lines that crates/atlas_tool/stdin has, as calls, and the replies that crates/atlas_tool/stdout has. */
#include <guillotiere.h>

#include <stdio.h>

static void take(guillotiere_simple *simple, int32_t width, int32_t height) {
    guillotiere_rectangle at;
    switch (guillotiere_simple_allocate(simple, width, height, &at)) {
    case GUILLOTIERE_DONE:
        printf("at %d %d %d %d\n", (int)at.min_x, (int)at.min_y, (int)at.max_x, (int)at.max_y);
        break;
    case GUILLOTIERE_NO_ROOM:
        puts("none");
        break;
    case GUILLOTIERE_MEMORY:
        puts("refused memory");
        break;
    default:
        puts("no simple");
    }
}

int main(void) {
    guillotiere_simple simple = GUILLOTIERE_NONE;
    if (guillotiere_simple_new(100, 300, &simple) == GUILLOTIERE_DONE) puts("ok");
    for (int i = 0; i < 3; i++) take(&simple, 100, 100);
    take(&simple, 1, 1);
    guillotiere_simple_free(&simple);
    return 0;
}
