/* Collectives that don't wait in lists (MPI 3.1, 3.7.5 and 5.12): MPI_Testsome and MPI_Waitsome count each of which
 * they end the request, and no other. A look moves a collective on, so it may end within the call that ends requests.
 */
#include "test.h"

enum { MANY = 8, TURNS = 40 };

static int open_ones(const MPI_Request list[MANY]) {
    int open = 0;
    for (int i = 0; i < MANY; i++) open += list[i] != MPI_REQUEST_NULL;
    return open;
}

int main(int argc, char **argv) {
    test_begin(&argc, &argv);
    for (int turn = 0; turn < TURNS; turn++) {
        MPI_Request list[MANY];
        int sums[MANY], places[MANY], left = MANY;
        for (int i = 0; i < MANY; i++)
            MPI_Iallreduce(&test_rank, &sums[i], 1, MPI_INT, MPI_SUM, MPI_COMM_WORLD, &list[i]);
        while (left > 0) {
            int count = -1;
            if (turn % 4 == 3) MPI_Waitsome(MANY, list, &count, places, MPI_STATUSES_IGNORE);
            else MPI_Testsome(MANY, list, &count, places, MPI_STATUSES_IGNORE);
            CHECK(count == left - open_ones(list));
            left = open_ones(list);
            for (int i = 0; i < count; i++) CHECK(list[places[i]] == MPI_REQUEST_NULL && sums[places[i]] == 3);
        }
    }
    return test_end();
}
