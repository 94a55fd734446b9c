/* What the two files of the page share. */
#ifndef EXPLORER_PAGE_H
#define EXPLORER_PAGE_H

#include "shell.h"

/* Writes text so that HTML and SVG show it as it is. */
void put_escaped(FILE *into, const char *from);
/* Writes the heads of all arrows once, so that each picture has them, also where the first one is folded. */
void put_arrowheads(FILE *into);
/* Draws the messages of a result: a column a rank, time downwards. */
void put_picture(FILE *into, const struct result *it);

#endif
