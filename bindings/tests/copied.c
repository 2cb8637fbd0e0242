/* What the header calls a fault: a handle that is copied, and used after its allocator was freed by the other one. This program ends
 * badly where something notices, which is what is tested: AddressSanitizer notices that it is freed twice, valgrind each call.
 *
 *     copied            frees both
 *     copied size       frees one, and asks the other for its size
 *     copied moved      copies, and never uses the first one again: that is no fault */
#include "check.h"

#include <string.h>

int main(int words, char **word) {
    const char *const what = words > 1 ? word[1] : "";
    guillotiere_atlas atlas = GUILLOTIERE_NONE;
    guillotiere_size size = {0, 0};
    CHECK(guillotiere_atlas_new(64, 64, &atlas) == GUILLOTIERE_DONE);
    guillotiere_atlas copy = atlas;
    if (strcmp(what, "moved") != 0) guillotiere_atlas_free(&atlas);
    if (strcmp(what, "size") == 0) return (int)guillotiere_atlas_size(&copy, &size);
    guillotiere_atlas_free(&copy);
    return 0;
}
