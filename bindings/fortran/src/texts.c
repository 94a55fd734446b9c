/* Texts and the common blocks: see wrappers.h. */
#include "wrappers.h"

/* As gfortran aligns common blocks. */
_Alignas(32) struct places mpi_f_places_;
_Alignas(32) char mpi_f_texts_[2];

char *text_of(const char *text, size_t length) {
    while (length > 0 && text[length - 1] == ' ') length--;
    char *made = malloc(length + 1);
    if (made == NULL) return NULL;
    memcpy(made, text, length);
    made[length] = '\0';
    return made;
}

char *bare_text_of(const char *text, size_t length) {
    for (; length > 0 && *text == ' '; length--) text++;
    return text_of(text, length);
}

void put_text(char *into, size_t length, const char *text) {
    size_t own = strlen(text);
    if (own > length) own = length;
    memcpy(into, text, own);
    memset(into + own, ' ', length - own);
}
