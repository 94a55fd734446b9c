/* Opens a file, which isn't supported, where errors of files are to be fatal. */
#include <mpi.h>

int main(int argc, char **argv) {
    MPI_File file;
    MPI_Init(&argc, &argv);
    if (MPI_File_open(MPI_COMM_WORLD, "none", MPI_MODE_RDONLY, MPI_INFO_NULL, &file) == MPI_SUCCESS) return 1;
    MPI_File_set_errhandler(MPI_FILE_NULL, MPI_ERRORS_ARE_FATAL);
    MPI_File_open(MPI_COMM_WORLD, "none", MPI_MODE_RDONLY, MPI_INFO_NULL, &file);
    MPI_Finalize();
    return 0;
}
