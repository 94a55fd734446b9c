/* Rank 0 has operations with rank 1, and writes where it shouldn't meanwhile, in the way that the word says; beyond 19
 * it writes where it may. */
#include <mpi.h>
#include <stdlib.h>
#include <string.h>
#include <sys/mman.h>
enum { LONG = 1000000 };
static int row[100], me, flag, count = 10;
static MPI_Request open;
static const MPI_Comm all = MPI_COMM_WORLD;
static void *mapped(void) {
    return mmap(NULL, LONG, PROT_READ | PROT_WRITE, MAP_PRIVATE | MAP_ANONYMOUS, -1, 0);
}
/* What rank 1 does for a send of rank 0, and for a receive. */
static void take(void) { MPI_Recv(row, 100, MPI_INT, 0, 1, all, MPI_STATUS_IGNORE); }
static void give(void) { MPI_Send(row, count, MPI_INT, 0, 1, all); }
static void end(int at) {
    row[at]++;
    MPI_Wait(&open, MPI_STATUS_IGNORE);
}
typedef int sender(const void *, int, MPI_Datatype, int, int, MPI_Comm, MPI_Request *);
static void sends(sender *begin, int at) {
    if (me == 1) {
        take();
        return;
    }
    begin(row, 10, MPI_INT, 1, 1, all, &open);
    end(at);
}
static void persistent(int at) {
    if (me == 1) {
        take();
        return;
    }
    MPI_Send_init(row, 10, MPI_INT, 1, 1, all, &open);
    row[0]++;
    MPI_Start(&open);
    end(at);
    row[0]++;
    MPI_Request_free(&open);
}
static void broadcast(int at) {
    MPI_Ibcast(row, 10, MPI_INT, 0, all, &open);
    if (me == 0) row[at]++;
    MPI_Wait(&open, MPI_STATUS_IGNORE);
}
static void column(int at) {
    MPI_Datatype every_tenth;
    MPI_Type_vector(8, 1, 10, MPI_INT, &every_tenth);
    MPI_Type_commit(&every_tenth);
    if (me == 1) take();
    else MPI_Isend(row, 1, every_tenth, 1, 1, all, &open), end(at);
    MPI_Type_free(&every_tenth);
}
static void receive(int at) {
    if (me == 1) {
        give();
        return;
    }
    MPI_Irecv(row, 10, MPI_INT, 1, 1, all, &open);
    end(at);
}
static void tested(int at) {
    if (me == 1) {
        give();
        return;
    }
    MPI_Irecv(row, 10, MPI_INT, 1, 1, all, &open);
    row[at]++;
    for (flag = 0; !flag;) MPI_Test(&open, &flag, MPI_STATUS_IGNORE);
    row[0]++;
}
static void looked_at(int at) {
    if (me == 1) {
        take();
        return;
    }
    MPI_Issend(row, 10, MPI_INT, 1, 1, all, &open);
    for (flag = 0; !flag;) {
        row[at]++;
        MPI_Request_get_status(open, &flag, MPI_STATUS_IGNORE);
    }
    end(0);
}
static void freed_request(void) {
    if (me == 1) {
        take();
        give();
        return;
    }
    MPI_Isend(row, 10, MPI_INT, 1, 1, all, &open);
    MPI_Request_free(&open);
    row[0]++;
    MPI_Recv(row, 10, MPI_INT, 1, 1, all, MPI_STATUS_IGNORE);
}
static void gone(int is_send, int is_early) {
    int *own = mapped();
    if (me == 1) {
        if (is_send) take();
        else give();
        return;
    }
    if (is_send) MPI_Isend(own, 10, MPI_INT, 1, 1, all, &open);
    else MPI_Irecv(own, 10, MPI_INT, 1, 1, all, &open);
    if (is_early) munmap(own, LONG);
    MPI_Wait(&open, MPI_STATUS_IGNORE);
    if (!is_early) munmap(own, LONG);
}
static void given_back(void) {
    int *own = malloc(40);
    if (me == 1) {
        give();
        free(own);
        return;
    }
    memset(own, 7, 40);
    MPI_Irecv(own, 10, MPI_INT, 1, 1, all, &open);
    free(own);
    own = malloc(40);
    memset(own, 8, 40);
    MPI_Wait(&open, MPI_STATUS_IGNORE);
    free(own);
}
int main(int argc, char **argv) {
    MPI_Init(&argc, &argv);
    MPI_Comm_rank(all, &me);
    static char buffer[1000];
    MPI_Buffer_attach(buffer, sizeof buffer);
    switch (argc > 1 ? atoi(argv[1]) : 0) {
    case 0: sends(MPI_Isend, 9); break;
    case 1: sends(MPI_Issend, 9); break;
    case 2: sends(MPI_Ibsend, 9); break;
    case 3: sends(MPI_Irsend, 9); break;
    case 4: persistent(9); break;
    case 5: broadcast(9); break;
    case 6: column(70); break;
    case 7: receive(9); break;
    case 8: tested(9); break;
    case 9: looked_at(9); break;
    case 10: gone(1, 1); break;
    case 11: gone(0, 1); break;
    case 12: given_back(); break;
    case 20: sends(MPI_Isend, 10); break;
    case 21: sends(MPI_Issend, 10); break;
    case 22: sends(MPI_Ibsend, 10); break;
    case 24: persistent(10); break;
    case 25: broadcast(10); break;
    case 26: column(71); break;
    case 27: receive(10); break;
    case 28: tested(10); break;
    case 29: looked_at(10); break;
    case 30: gone(1, 0); break;
    case 31: gone(0, 0); break;
    default: freed_request(); break;
    }
    void *at;
    int size;
    MPI_Buffer_detach(&at, &size);
    MPI_Finalize();
}
