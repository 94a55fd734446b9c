/* Each rank sends to each other one messages of drawn lengths, tags and modes, and receives them in another order. */
#include "test.h"

enum { EACH = 25, LONGEST = 6000 };

/* What the message with this number from one rank to another is like. */
struct message {
    int tag, length, mode;
};
static struct message message_of(int from, int to, int number) {
    unsigned drawn = mixed((unsigned)(from * 100 + to), (unsigned)number, 13);
    int length = drawn % 7 == 0 ? (int)(drawn / 7 % LONGEST) : (int)(drawn / 7 % 40);
    return (struct message){(int)(drawn >> 20) % 3, length, (int)(drawn >> 28) % 2};
}

static void begin_sends(MPI_Request *requests, unsigned char *rows) {
    for (int to = 0; to < test_size; to++) {
        for (int i = 0; i < EACH; i++) {
            struct message it = message_of(test_rank, to, i);
            unsigned char *row = rows + (size_t)(to * EACH + i) * LONGEST;
            fill(row, (size_t)it.length, (unsigned)(test_rank * 1000 + to * 100 + i));
            MPI_Request *request = &requests[to * EACH + i];
            if (it.mode == 0) MPI_Isend(row, it.length, MPI_BYTE, to, it.tag, MPI_COMM_WORLD, request);
            else MPI_Issend(row, it.length, MPI_BYTE, to, it.tag, MPI_COMM_WORLD, request);
        }
    }
}

/* Takes the messages of each tag in turn, from any source: those of one source and tag come in order. */
static void receive_all(void) {
    static unsigned char row[LONGEST];
    int *next = calloc((size_t)test_size, sizeof *next);
    for (int tag = 2; tag >= 0; tag--) {
        int expected = 0;
        for (int from = 0; from < test_size; from++) {
            next[from] = 0;
            for (int i = 0; i < EACH; i++) expected += message_of(from, test_rank, i).tag == tag;
        }
        while (expected-- > 0) {
            MPI_Status status;
            int count = -1;
            MPI_Recv(row, LONGEST, MPI_BYTE, MPI_ANY_SOURCE, tag, MPI_COMM_WORLD, &status);
            MPI_Get_count(&status, MPI_BYTE, &count);
            int from = status.MPI_SOURCE;
            while (next[from] < EACH && message_of(from, test_rank, next[from]).tag != tag) next[from]++;
            CHECK(next[from] < EACH && count == message_of(from, test_rank, next[from]).length);
            CHECK(is_filled(row, (size_t)count, (unsigned)(from * 1000 + test_rank * 100 + next[from])));
            next[from]++;
        }
    }
    free(next);
}

int main(int argc, char **argv) {
    test_begin(&argc, &argv);
    size_t sends = (size_t)(test_size * EACH);
    MPI_Request *requests = malloc(sends * sizeof *requests);
    unsigned char *rows = malloc(sends * LONGEST);
    begin_sends(requests, rows);
    receive_all();
    MPI_Waitall((int)sends, requests, MPI_STATUSES_IGNORE);
    free(requests);
    free(rows);
    return test_end();
}
