/* Written by rust/erase from the exports of crates/guillotiere_c: don't edit. */
const char *guillotiere_status_text(__UINT32_TYPE__ status);

const char *guillotiere_status_text(__UINT32_TYPE__ status) {
    switch (status) {
    case 0: return "done";
    case 1: return "the request has no room";
    case 2: return "an empty size, options that aren't valid, a growth that shrinks a side, or a bad limit";
    case 3: return "an id isn't live, or is listed twice";
    case 4: return "more slots would be used than the limit allows";
    case 5: return "memory was refused";
    case 6: return "an array is too short";
    case 7: return "a handle holds nothing";
    case 8: return "a side of the sheet, or the least that is allowed, is below 1";
    case 9: return "the greatest side of a sheet is below the least";
    case 10: return "a side of the alignment is below 1";
    case 11: return "a sprite has a side below 1";
    case 12: return "a side of a sprite, with the padding at both its ends, exceeds 2147483647 pixels";
    case 13: return "a key is held with another size";
    case 14: return "a cache holds 4294967295 keys, and can hold no more";
    case 15: return "a side of a new page is below 1";
    case 16: return "a side of the largest page is less than that of a new one";
    case 17: return "no pages are allowed";
    case 18: return "the padding is below 0";
    case 19: return "the options of the pages' atlases aren't valid";
    case 20: return "a key isn't held";
    case 21: return "each change was handed over";
    case 22: return "there is no such page";
    case 23: return "a key that is inserted was held already";
    case 24: return "this frame uses all that the pages of a cache have room for";
    case 25: return "with the padding, rounded up to the alignment, a size exceeds the largest page";
    case 27: return "with the padding and rounded up, not even 1 by 1 fits the largest page";
    case 28: return "a pointer is null, or that of an array whose length isn't 0";
    case 29: return "a handle that is to be filled holds something already";
    default: return "no status";
    }
}
