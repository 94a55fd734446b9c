/* What the marks of a job's ranks mean, a byte of each: pure functions. docs/LAUNCHING.md says where they stand. */
#ifndef KOMBAZILY_MARKS_H
#define KOMBAZILY_MARKS_H

#include <stdbool.h>

enum {
    MARK_BEGUN = '-', /* it has begun, and waits for nothing in vain; of one that hasn't begun the mark is 0 */
    MARK_ENDED = 'e', /* its program ended for good and never began: its launcher makes this mark */
    MARK_LEFT = 'l'   /* it ends, since another one never begins */
};

/* One that has begun and waits in vain says so by one of three marks in turn: the nth. */
char mark_of_look(unsigned look);
/* Whether a mark says so. */
bool is_waiting(char mark);

/* Whether the rank of this mark has its port. */
bool has_port(char mark);
/* Whether each rank has come so far, or never will. */
bool have_all_come(const char *marks, int size);
/* Whether each of them has its port. */
bool have_all_ports(const char *marks, int size);

/* The first rank of this mark, or -1. */
int first_marked(const char *marks, int size, char mark);

#endif
