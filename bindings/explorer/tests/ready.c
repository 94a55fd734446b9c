/* Ready sends, by the first word: right ones, whose ranks know that the receive is posted, and wrong ones, which may
 * come before it (MPI 3.1, 3.4). */
#include <mpi.h>
#include <string.h>
static int me, number;
static MPI_Request request;
static int is(int argc, char **argv, const char *word) { return argc > 1 && strcmp(argv[1], word) == 0; }
static void post(void) { MPI_Irecv(&number, 1, MPI_INT, 0, 1, MPI_COMM_WORLD, &request); }
static void take(void) { MPI_Recv(&number, 1, MPI_INT, 0, 1, MPI_COMM_WORLD, MPI_STATUS_IGNORE); }
static void send(void) { MPI_Rsend(&me, 1, MPI_INT, 1, 1, MPI_COMM_WORLD); }
static void early(void) {
    if (me == 0) send();
    if (me == 1) take();
}
static void later(void) {
    if (me == 0) MPI_Irsend(&me, 1, MPI_INT, 1, 1, MPI_COMM_WORLD, &request);
    if (me == 1) post();
    if (me < 2) MPI_Wait(&request, MPI_STATUS_IGNORE);
}
static void again(void) {
    if (me == 0) MPI_Rsend_init(&me, 1, MPI_INT, 1, 1, MPI_COMM_WORLD, &request);
    if (me == 1) MPI_Recv_init(&number, 1, MPI_INT, 0, 1, MPI_COMM_WORLD, &request);
    for (int i = 0; i < 2 && me < 2; i++) {
        MPI_Start(&request);
        MPI_Wait(&request, MPI_STATUS_IGNORE);
    }
    if (me < 2) MPI_Request_free(&request);
}
static void met(void) {
    if (me == 1) post();
    MPI_Barrier(MPI_COMM_WORLD);
    if (me == 0) send();
    if (me == 1) MPI_Wait(&request, MPI_STATUS_IGNORE);
}
/* What is posted is told by way of rank 2. */
static void told(void) {
    if (me == 1) post();
    if (me == 1) MPI_Send(&me, 1, MPI_INT, 2, 2, MPI_COMM_WORLD);
    if (me == 2) MPI_Recv(&number, 1, MPI_INT, 1, 2, MPI_COMM_WORLD, MPI_STATUS_IGNORE);
    if (me == 2) MPI_Send(&me, 1, MPI_INT, 0, 2, MPI_COMM_WORLD);
    if (me == 0) MPI_Recv(&number, 1, MPI_INT, 2, 2, MPI_COMM_WORLD, MPI_STATUS_IGNORE);
    if (me == 0) send();
    if (me == 1) MPI_Wait(&request, MPI_STATUS_IGNORE);
}
/* The root of a broadcast doesn't hear of the others. */
static void misled(void) {
    if (me == 1) post();
    MPI_Bcast(&number, 1, MPI_INT, 0, MPI_COMM_WORLD);
    if (me == 0) send();
    if (me == 1) MPI_Wait(&request, MPI_STATUS_IGNORE);
}
/* Only where rank 2's message comes first. */
static void perhaps(void) {
    int from = 0;
    if (me == 1) post();
    if (me != 0) MPI_Send(&me, 1, MPI_INT, 0, 3, MPI_COMM_WORLD);
    if (me == 0) MPI_Recv(&from, 1, MPI_INT, MPI_ANY_SOURCE, 3, MPI_COMM_WORLD, MPI_STATUS_IGNORE);
    if (me == 0) send();
    if (me == 0) MPI_Recv(&from, 1, MPI_INT, MPI_ANY_SOURCE, 3, MPI_COMM_WORLD, MPI_STATUS_IGNORE);
    if (me == 1) MPI_Wait(&request, MPI_STATUS_IGNORE);
}
static void alone(void) {
    if (me == 1) MPI_Irecv(&number, 1, MPI_INT, 1, 1, MPI_COMM_WORLD, &request);
    if (me == 1) send();
    if (me == 1) MPI_Wait(&request, MPI_STATUS_IGNORE);
}
int main(int argc, char **argv) {
    MPI_Init(&argc, &argv);
    MPI_Comm_rank(MPI_COMM_WORLD, &me);
    if (argc == 1) early();
    if (is(argc, argv, "later")) later();
    if (is(argc, argv, "again")) again();
    if (is(argc, argv, "met")) met();
    if (is(argc, argv, "told")) told();
    if (is(argc, argv, "misled")) misled();
    if (is(argc, argv, "perhaps")) perhaps();
    if (is(argc, argv, "alone")) alone();
    if (is(argc, argv, "none") && me == 0) send();
    MPI_Finalize();
}
