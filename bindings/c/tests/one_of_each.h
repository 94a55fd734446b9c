/* For tests that begin one collective of each kind: what each member hands in, and where what comes goes. */
#ifndef ONE_OF_EACH_H
#define ONE_OF_EACH_H

#include "test.h"

enum { MOST = 8, COUNT = 5, KINDS = 17 };

/* What is handed in differs from round to round. */
static unsigned round_now;
static int of(int member, int at) { return (int)(mixed((unsigned)member, (unsigned)at, round_now) % 100000); }

static int sum_to(int last, int at) {
    int sum = 0;
    for (int member = 0; member <= last; member++) sum += of(member, at);
    return sum;
}

/* What is handed in, and what comes, of one of each. */
static int given[KINDS][MOST * COUNT], got[KINDS][MOST * COUNT];
static int counts[MOST], places[MOST], bytes[MOST];
static MPI_Datatype types[MOST];

static void fill_all(void) {
    for (int kind = 0; kind < KINDS; kind++)
        for (int at = 0; at < MOST * COUNT; at++) given[kind][at] = of(test_rank, at), got[kind][at] = -1;
    for (int member = 0; member < test_size; member++) {
        counts[member] = COUNT;
        places[member] = member * COUNT;
        bytes[member] = places[member] * (int)sizeof(int);
        types[member] = MPI_INT;
    }
}

#endif
