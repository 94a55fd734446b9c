/* Plays a list of calls: tools/random/explored_programs makes it, and the same as a script. */
#include <mpi.h>
#include <stdio.h>
#include <stdlib.h>
#include <string.h>
static int number(const char *w) {
    return !strcmp(w, "any") ? MPI_ANY_SOURCE : atoi(w);
}
static int tag_of(const char *w) { return !strcmp(w, "any") ? MPI_ANY_TAG : atoi(w); }
static void tell(const int *b, const MPI_Status *s) { printf("%d\nsource %d tag %d count 1\n", *b, s->MPI_SOURCE, s->MPI_TAG); }
int main(int n, char **v) {
    static int bufs[256];
    static MPI_Request reqs[256];
    int me;
    MPI_Init(&n, &v);
    MPI_Comm_rank(MPI_COMM_WORLD, &me);
    FILE *f = fopen(v[1], "r");
    char line[200], op[20], a[20], b[20], c[20];
    MPI_Status s;
    while (fgets(line, sizeof line, f)) {
        int who;
        if (sscanf(line, "%d %19s %19s %19s %19s", &who, op, a, b, c) < 2 || who != me) continue;
        if (!strcmp(op, "send")) {
            int x = atoi(c);
            MPI_Send(&x, 1, MPI_INT, number(a), tag_of(b), MPI_COMM_WORLD);
        } else if (!strcmp(op, "ssend")) {
            int x = atoi(c);
            MPI_Ssend(&x, 1, MPI_INT, number(a), tag_of(b), MPI_COMM_WORLD);
        } else if (!strcmp(op, "recv")) {
            int x = 0;
            MPI_Recv(&x, 1, MPI_INT, number(a), tag_of(b), MPI_COMM_WORLD, &s);
            tell(&x, &s);
        } else if (!strcmp(op, "irecv")) {
            MPI_Irecv(&bufs[atoi(c)], 1, MPI_INT, number(a), tag_of(b), MPI_COMM_WORLD, &reqs[atoi(c)]);
        } else if (!strcmp(op, "wait")) {
            MPI_Wait(&reqs[atoi(a)], &s);
            printf("%d\n", bufs[atoi(a)]);
        } else if (!strcmp(op, "test")) {
            int flag;
            MPI_Test(&reqs[atoi(a)], &flag, &s);
            if (!flag) printf("pending\n");
        } else if (!strcmp(op, "iprobe")) {
            int flag;
            MPI_Iprobe(number(a), tag_of(b), MPI_COMM_WORLD, &flag, &s);
            if (!flag) printf("none\n");
        } else if (!strcmp(op, "isend")) {
            static int kept[256];
            kept[atoi(c)] = atoi(c);
            MPI_Isend(&kept[atoi(c)], 1, MPI_INT, number(a), tag_of(b), MPI_COMM_WORLD, &reqs[atoi(c)]);
        } else if (!strcmp(op, "send_double")) {
            double x = 0;
            MPI_Send(&x, 1, MPI_DOUBLE, number(a), tag_of(b), MPI_COMM_WORLD);
        } else if (!strcmp(op, "send_two")) {
            int x[2] = {0};
            MPI_Send(x, 2, MPI_INT, number(a), tag_of(b), MPI_COMM_WORLD);
        } else if (!strcmp(op, "end")) {
            MPI_Wait(&reqs[atoi(a)], MPI_STATUS_IGNORE);
        } else if (!strcmp(op, "take")) {
            int x = 0;
            MPI_Recv(&x, 1, MPI_INT, number(a), tag_of(b), MPI_COMM_WORLD, MPI_STATUS_IGNORE);
        } else if (!strcmp(op, "allreduce")) {
            int x = me, sum;
            MPI_Allreduce(&x, &sum, 1, MPI_INT, MPI_SUM, MPI_COMM_WORLD);
        } else if (!strcmp(op, "scan")) {
            int x = me, sum;
            MPI_Scan(&x, &sum, 1, MPI_INT, MPI_SUM, MPI_COMM_WORLD);
        } else if (!strcmp(op, "iallreduce")) {
            static int own = 1, sums[256];
            MPI_Iallreduce(&own, &sums[atoi(a)], 1, MPI_INT, MPI_SUM, MPI_COMM_WORLD, &reqs[atoi(a)]);
        } else if (!strcmp(op, "ibarrier")) {
            MPI_Ibarrier(MPI_COMM_WORLD, &reqs[atoi(a)]);
        } else if (!strcmp(op, "barrier")) {
            MPI_Barrier(MPI_COMM_WORLD);
        } else if (!strcmp(op, "abort")) {
            MPI_Abort(MPI_COMM_WORLD, 3);
        }
    }
    fclose(f);
    MPI_Finalize();
}
