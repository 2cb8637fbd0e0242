#include "guillotiere.h"
#include <stdio.h>

int main(void) {
    guillotiere_atlas atlas = GUILLOTIERE_NONE;
    guillotiere_allocation box;
    if (guillotiere_atlas_new(1024, 1024, &atlas) || guillotiere_atlas_allocate(&atlas, 20, 60, &box)) return 1;
    printf("20 by 60 at %d, %d\n", (int)box.rectangle.min_x, (int)box.rectangle.min_y);
    guillotiere_atlas_free(&atlas);
}
