/* Right, but for the last, which hangs where rank 2's message comes first: calls that the explorer knows nothing of, by
 * the first word. */
#include <mpi.h>
#include <string.h>
int main(int argc, char **argv) {
    int me, number = 0, two[2] = {0, 2};
    const char *how = argc > 1 ? argv[1] : "group";
    MPI_Comm made;
    MPI_Group all, some;
    MPI_Win window;
    MPI_File file;
    MPI_Status status;
    MPI_Init(&argc, &argv);
    MPI_Comm_rank(MPI_COMM_WORLD, &me);
    MPI_Comm_group(MPI_COMM_WORLD, &all);
    MPI_Group_incl(all, 2, two, &some);
    if (strcmp(how, "returned") == 0) MPI_Comm_set_errhandler(MPI_COMM_WORLD, MPI_ERRORS_RETURN);
    if ((strcmp(how, "group") == 0 || strcmp(how, "returned") == 0) && me != 1)
        MPI_Comm_create_group(MPI_COMM_WORLD, some, 3, &made);
    if (strcmp(how, "pair") == 0) MPI_Intercomm_create(MPI_COMM_SELF, 0, MPI_COMM_WORLD, 1 - me, 7, &made);
    if (strcmp(how, "window") == 0) MPI_Win_create(&number, sizeof number, 1, MPI_INFO_NULL, MPI_COMM_WORLD, &window);
    if (strcmp(how, "file") == 0) MPI_File_open(MPI_COMM_WORLD, "x", MPI_MODE_RDONLY, MPI_INFO_NULL, &file);
    if (strcmp(how, "start") == 0)
        MPI_Comm_spawn("x", MPI_ARGV_NULL, 1, MPI_INFO_NULL, 0, MPI_COMM_WORLD, &made, MPI_ERRCODES_IGNORE);
    if (strcmp(how, "branch") == 0 && me != 0) MPI_Send(&me, 1, MPI_INT, 0, 1, MPI_COMM_WORLD);
    if (strcmp(how, "branch") == 0 && me == 0) {
        MPI_Recv(&number, 1, MPI_INT, MPI_ANY_SOURCE, 1, MPI_COMM_WORLD, &status);
        MPI_Recv(&number, 1, MPI_INT, 2, 1, MPI_COMM_WORLD, &status);
        MPI_File_open(MPI_COMM_SELF, "x", MPI_MODE_RDONLY, MPI_INFO_NULL, &file);
    }
    MPI_Finalize();
}
