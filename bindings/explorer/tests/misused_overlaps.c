/* Two ranks whose operations have bytes in common, in the way that the word says; beyond 19 they have none. */
#include <mpi.h>
#include <stdlib.h>
static int row[100], me, other;
static MPI_Request open[4];
static MPI_Status statuses[4];
static MPI_Datatype column;
static const MPI_Comm all = MPI_COMM_WORLD;
static void receive(int at, int tag, int which) { MPI_Irecv(&row[at], 10, MPI_INT, other, tag, all, &open[which]); }
static void send(int at, int tag, int which) { MPI_Isend(&row[at], 10, MPI_INT, other, tag, all, &open[which]); }
static void two_receives(int apart) {
    receive(0, 1, 0);
    receive(apart, 2, 1);
    send(50, 1, 2);
    send(70, 2, 3);
    MPI_Waitall(4, open, statuses);
}
static void send_of_a_receive(int apart) {
    receive(0, 1, 0);
    send(apart, 1, 1);
    MPI_Waitall(2, open, statuses);
}
static void columns(int first, int second) {
    MPI_Irecv(&row[first], 1, column, other, 1, all, &open[0]);
    MPI_Irecv(&row[second], 1, column, other, 2, all, &open[1]);
    MPI_Send(&row[5], 1, column, other, 1, all);
    MPI_Send(&row[6], 1, column, other, 2, all);
    MPI_Waitall(2, open, statuses);
}
static void persistent(int apart) {
    MPI_Recv_init(&row[0], 10, MPI_INT, other, 1, all, &open[0]);
    MPI_Send_init(&row[apart], 10, MPI_INT, other, 1, all, &open[1]);
    for (int round = 0; round < 2; round++) {
        MPI_Startall(2, open);
        MPI_Waitall(2, open, statuses);
    }
    /* Where they aren't active at once there's nothing wrong. */
    for (int turn = 0; turn < 2; turn++) {
        MPI_Start(&open[turn == me]);
        MPI_Wait(&open[turn == me], statuses);
    }
    MPI_Request_free(&open[0]);
    MPI_Request_free(&open[1]);
}
static void collectives(int apart) {
    MPI_Iallreduce(&row[0], &row[20], 10, MPI_INT, MPI_SUM, all, &open[0]);
    MPI_Ibcast(&row[20 + apart], 10, MPI_INT, 0, all, &open[1]);
    MPI_Waitall(2, open, statuses);
}
static void within_one(int apart) {
    MPI_Ialltoall(&row[0], 5, MPI_INT, &row[apart], 5, MPI_INT, all, &open[0]);
    MPI_Wait(&open[0], statuses);
}
static void matched(int apart) {
    MPI_Message message;
    receive(0, 1, 0);
    send(50, 1, 1);
    send(70, 2, 2);
    MPI_Mprobe(other, 2, all, &message, statuses);
    MPI_Imrecv(&row[apart], 10, MPI_INT, &message, &open[3]);
    MPI_Waitall(4, open, statuses);
}
static void exchange(int apart) {
    MPI_Sendrecv(&row[0], 10, MPI_INT, other, 1, &row[apart], 10, MPI_INT, other, 1, all, statuses);
}
static void exchange_later(int apart) {
    MPI_Isendrecv(&row[0], 10, MPI_INT, other, 1, &row[apart], 10, MPI_INT, other, 1, all, &open[0]);
    MPI_Wait(&open[0], statuses);
}
static void replaced(void) {
    MPI_Sendrecv_replace(&row[0], 10, MPI_INT, other, 1, other, 1, all, statuses);
    MPI_Isendrecv_replace(&row[0], 10, MPI_INT, other, 1, other, 1, all, &open[0]);
    MPI_Wait(&open[0], statuses);
}
static void of_nobody(void) {
    MPI_Irecv(&row[0], 10, MPI_INT, MPI_PROC_NULL, 1, all, &open[0]);
    MPI_Irecv(&row[0], 0, MPI_INT, other, 2, all, &open[1]);
    MPI_Isend(&row[0], 0, MPI_INT, other, 2, all, &open[2]);
    MPI_Sendrecv(&row[0], 10, MPI_INT, other, 1, &row[20], 10, MPI_INT, other, 1, all, statuses);
    MPI_Waitall(3, open, statuses);
}
static void two_sends(void) {
    send(0, 1, 0);
    send(0, 2, 1);
    receive(20, 1, 2);
    receive(40, 2, 3);
    MPI_Waitall(4, open, statuses);
}
static void in_place(void) {
    MPI_Iallreduce(MPI_IN_PLACE, row, 10, MPI_INT, MPI_SUM, all, &open[0]);
    MPI_Wait(&open[0], statuses);
    MPI_Ialltoall(MPI_IN_PLACE, 0, MPI_INT, row, 5, MPI_INT, all, &open[0]);
    MPI_Wait(&open[0], statuses);
}
static void blocking(int apart) {
    send(0, 1, 0);
    MPI_Recv(&row[apart], 10, MPI_INT, other, 1, all, statuses);
    MPI_Wait(&open[0], statuses);
}
int main(int argc, char **argv) {
    MPI_Init(&argc, &argv);
    MPI_Comm_rank(all, &me);
    other = 1 - me;
    for (int i = 0; i < 100; i++) row[i] = 100 * me + i;
    MPI_Type_vector(8, 2, 10, MPI_INT, &column);
    MPI_Type_commit(&column);
    switch (argc > 1 ? atoi(argv[1]) : 0) {
    case 0: two_receives(9); break;
    case 1: exchange(9); break;
    case 2: send_of_a_receive(9); break;
    case 3: persistent(9); break;
    case 4: collectives(9); break;
    case 5: within_one(9); break;
    case 6: matched(9); break;
    case 7: exchange_later(9); break;
    case 8: columns(0, 1); break;
    case 9: blocking(9); break;
    case 20: two_receives(10); break;
    case 21: exchange(10); break;
    case 22: send_of_a_receive(10); break;
    case 23: persistent(10); break;
    case 24: collectives(10); break;
    case 25: within_one(10); break;
    case 26: matched(10); break;
    case 27: exchange_later(10); break;
    case 28: columns(0, 2); break;
    case 29: blocking(10); break;
    case 30: replaced(); break;
    case 31: of_nobody(); break;
    case 32: two_sends(); break;
    case 33: in_place(); break;
    default: columns(12, 0); break;
    }
    MPI_Type_free(&column);
    MPI_Finalize();
}
