/* Collectives of MPI_COMM_WORLD that ranks entered differently, and of which one of them was told by the call: whoever
 * goes on then comes to the end of MPI, which tells of them no more. */
#include "test.h"

enum { BCAST, GATHER, IBCAST, IGATHER, ALLGATHER, KINDS };

/* Rank 1 has more than the others. */
static int enter(int kind) {
    int own[4] = {0}, all[16], items = test_rank == 1 ? 3 : 2, code = MPI_SUCCESS;
    MPI_Request request = MPI_REQUEST_NULL;
    if (kind == BCAST) code = MPI_Bcast(own, items, MPI_INT, 0, MPI_COMM_WORLD);
    if (kind == GATHER) code = MPI_Gather(own, items, MPI_INT, all, items, MPI_INT, 0, MPI_COMM_WORLD);
    if (kind == IBCAST) MPI_Ibcast(own, items, MPI_INT, 0, MPI_COMM_WORLD, &request);
    if (kind == IGATHER) MPI_Igather(own, items, MPI_INT, all, items, MPI_INT, 0, MPI_COMM_WORLD, &request);
    if (kind == ALLGATHER) code = MPI_Allgather(own, items, MPI_INT, all, items, MPI_INT, MPI_COMM_WORLD);
    if (request != MPI_REQUEST_NULL) code = MPI_Wait(&request, MPI_STATUS_IGNORE);
    return code;
}

int main(int argc, char **argv) {
    test_begin(&argc, &argv);
    return_errors();
    for (int kind = 0; kind < KINDS; kind++) {
        int failed = enter(kind) != MPI_SUCCESS, all = 0;
        MPI_Allreduce(&failed, &all, 1, MPI_INT, MPI_SUM, MPI_COMM_WORLD);
        CHECK(all > 0);
    }
    int total = -1;
    MPI_Reduce(&test_errors, &total, 1, MPI_INT, MPI_SUM, 0, MPI_COMM_WORLD);
    int code = MPI_Finalize();
    if (code != MPI_SUCCESS) fprintf(stderr, "rank %d: MPI_Finalize answered %d\n", test_rank, code);
    if (test_rank == 0 && total == 0 && code == MPI_SUCCESS) printf("No Errors\n");
    return code != MPI_SUCCESS || test_errors != 0;
}
