/* Of several requests that are at their ends each has its turn, however often others are begun anew (MPI 3.1, 3.7.5).
 */
#include "test.h"

enum { LIST = 4, TURNS = 200, EACH = TURNS / LIST };

static int in[LIST];

/* A receive that is at its end at once; or a persistent one. */
static void begin(int place, MPI_Request *request, bool is_persistent) {
    if (is_persistent) MPI_Start(request);
    else MPI_Irecv(&in[place], 1, MPI_INT, MPI_PROC_NULL, 0, MPI_COMM_WORLD, request);
}

/* Whichever is ended is begun anew. The list is looked at at another address each time. */
static void check_any(bool is_persistent, bool waits) {
    MPI_Request room[LIST + 3];
    int served[LIST] = {0}, place = -1, flag = 0;
    for (int i = 0; i < LIST; i++) {
        if (is_persistent) MPI_Recv_init(&in[i], 1, MPI_INT, MPI_PROC_NULL, 0, MPI_COMM_WORLD, &room[i]);
        begin(i, &room[i], is_persistent);
    }
    for (int turn = 0, at = 0; turn < TURNS; turn++) {
        if (waits) MPI_Waitany(LIST, room + at, &place, MPI_STATUS_IGNORE);
        else MPI_Testany(LIST, room + at, &place, &flag, MPI_STATUS_IGNORE);
        CHECK(place >= 0 && place < LIST);
        served[place]++;
        begin(place, &room[at + place], is_persistent);
        memmove(room + (turn + 1) % 4, room + at, LIST * sizeof *room);
        at = (turn + 1) % 4;
    }
    for (int i = 0; i < LIST; i++) CHECK(served[i] == EACH);
    MPI_Request *list = room + TURNS % 4;
    MPI_Waitall(LIST, list, MPI_STATUSES_IGNORE);
    for (int i = 0; i < LIST && is_persistent; i++) MPI_Request_free(&list[i]);
}

/* All that are at their ends are served at once. */
static void check_some(bool waits) {
    MPI_Request list[LIST];
    int count = -1, places[LIST], served[LIST] = {0};
    for (int i = 0; i < LIST; i++) begin(i, &list[i], false);
    for (int turn = 0; turn < EACH; turn++) {
        if (waits) MPI_Waitsome(LIST, list, &count, places, MPI_STATUSES_IGNORE);
        else MPI_Testsome(LIST, list, &count, places, MPI_STATUSES_IGNORE);
        for (int i = 0; i < count; i++) served[places[i]]++, begin(places[i], &list[places[i]], false);
    }
    for (int i = 0; i < LIST; i++) CHECK(served[i] == EACH);
    MPI_Waitall(LIST, list, MPI_STATUSES_IGNORE);
}

/* A rank that sends all the time doesn't keep the others from being heard: they send once, and it until all are. */
static void check_senders(void) {
    if (test_rank != 0) {
        int number = 0, more = 1;
        while (more) {
            MPI_Send(&number, 1, MPI_INT, 0, 0, MPI_COMM_WORLD);
            if (test_rank != 1) break;
            MPI_Recv(&more, 1, MPI_INT, 0, 1, MPI_COMM_WORLD, MPI_STATUS_IGNORE);
        }
        return;
    }
    MPI_Request list[LIST];
    int numbers[LIST], heard = 0, others = test_size - 2, turns = 0, place, more = 1;
    for (int rank = 1; rank < test_size; rank++)
        MPI_Irecv(&numbers[rank - 1], 1, MPI_INT, rank, 0, MPI_COMM_WORLD, &list[rank - 1]);
    while (more) {
        MPI_Waitany(test_size - 1, list, &place, MPI_STATUS_IGNORE);
        if (place > 0) {
            heard++;
            continue;
        }
        more = heard < others && ++turns < 1000000;
        if (more) MPI_Irecv(&numbers[0], 1, MPI_INT, 1, 0, MPI_COMM_WORLD, &list[0]);
        MPI_Send(&more, 1, MPI_INT, 1, 1, MPI_COMM_WORLD);
    }
    CHECK(heard == others);
}

int main(int argc, char **argv) {
    test_begin(&argc, &argv);
    for (int waits = 0; waits < 2; waits++) {
        check_any(false, waits);
        check_any(true, waits);
        check_some(waits);
    }
    check_senders();
    return test_end();
}
