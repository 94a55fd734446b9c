/* Characters of UTF-8. See told.h. */
#include "told.h"

int length_of_character(const char *text) {
    const unsigned char *at = (const unsigned char *)text, first = at[0];
    int length = 0;
    if (first < 0x80) length = 1;
    else if (first >= 0xc2 && first < 0xe0) length = 2;
    else if (first >= 0xe0 && first < 0xf0) length = 3;
    else if (first >= 0xf0 && first < 0xf5) length = 4;
    for (int i = 1; i < length; i++)
        if ((at[i] & 0xc0) != 0x80) return 0;
    /* Longer than they need to be, halves of pairs, and numbers above the last character. */
    const bool is_long = (first == 0xe0 && at[1] < 0xa0) || (first == 0xf0 && at[1] < 0x90);
    const bool is_none = (first == 0xed && at[1] >= 0xa0) || (first == 0xf4 && at[1] >= 0x90);
    return is_long || is_none ? 0 : length;
}
