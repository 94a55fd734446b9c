/* A message of another type than its receive is told (MPI 3.1, 3.3.1), and is used up; what MPI matches by isn't the
 * type. */
#include "test.h"

static MPI_Datatype sent[] = {MPI_INT, MPI_INT, MPI_DOUBLE, MPI_DOUBLE, MPI_FLOAT, MPI_CHAR, MPI_LONG, MPI_SHORT};
static MPI_Datatype wanted[] = {MPI_DOUBLE, MPI_FLOAT, MPI_FLOAT, MPI_LONG,
                                MPI_INT,    MPI_INT,   MPI_INT,   MPI_UNSIGNED_SHORT};
enum { PAIRS = sizeof sent / sizeof *sent };

/* Collectives in which members have different types, counts or roots end with an error at a member at least. */
static void check_collective(int which) {
    MPI_Comm comm;
    double room[8] = {0};
    int own = 0, all = 0, failed;
    MPI_Comm_dup(MPI_COMM_WORLD, &comm);
    if (which == 0) own = MPI_Bcast(room, 1, test_rank == 0 ? MPI_INT : MPI_DOUBLE, 0, comm);
    if (which == 1) own = MPI_Bcast(room, test_rank == 0 ? 2 : 3, MPI_INT, 0, comm);
    if (which == 2) own = MPI_Allreduce(MPI_IN_PLACE, room, 1, MPI_INT, test_rank == 0 ? MPI_SUM : MPI_MAX, comm);
    if (which == 3) own = MPI_Allreduce(MPI_IN_PLACE, room, test_rank + 1, MPI_INT, MPI_SUM, comm);
    failed = own != MPI_SUCCESS;
    CHECK(own == MPI_SUCCESS || class_of(own) == MPI_ERR_NOT_SAME);
    MPI_Allreduce(&failed, &all, 1, MPI_INT, MPI_SUM, MPI_COMM_WORLD);
    CHECK(all > 0);
    MPI_Comm_free(&comm);
}

int main(int argc, char **argv) {
    test_begin(&argc, &argv);
    return_errors();
    for (int i = 0; i < PAIRS; i++) {
        double room[2] = {0.5, 0.5};
        int next = -1;
        if (test_rank == 0) {
            MPI_Send(room, 1, sent[i], 1, 5, MPI_COMM_WORLD);
            MPI_Send(&i, 1, MPI_INT, 1, 5, MPI_COMM_WORLD);
        } else if (test_rank == 1) {
            CHECK(class_of(MPI_Recv(room, 1, wanted[i], 0, 5, MPI_COMM_WORLD, MPI_STATUS_IGNORE)) == MPI_ERR_TYPE);
            CHECK(room[0] == 0.5);
            CHECK(MPI_Recv(&next, 1, MPI_INT, 0, 5, MPI_COMM_WORLD, MPI_STATUS_IGNORE) == MPI_SUCCESS);
            CHECK(next == i);
        }
    }
    for (int which = 0; which < 4; which++) check_collective(which);
    return test_end();
}
