/* What the unit tests of pure functions share: they need neither MPI nor the engine. */
#ifndef UNIT_H
#define UNIT_H

#include <stdbool.h>
#include <stdio.h>
#include <stdlib.h>
#include <string.h>

static int unit_errors;

static inline void unit_check(bool is_so, const char *text, const char *file, int line) {
    if (is_so) return;
    if (++unit_errors <= 10) fprintf(stderr, "%s:%d: not so: %s\n", file, line, text);
}
#define CHECK(condition) unit_check((condition), #condition, __FILE__, __LINE__)

/* The program's status. */
static inline int unit_end(void) {
    if (unit_errors == 0) printf("No Errors\n");
    else printf("%d errors\n", unit_errors);
    return unit_errors != 0;
}

#endif
