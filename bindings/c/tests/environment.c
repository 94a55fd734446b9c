/* What a program may ask of its surroundings (MPI 3.1, 8.1, 8.2, 8.6, 8.7 and 12.4). */
#include "test.h"

static void check_versions(void) {
    int version = 0, subversion = -1, length = -1;
    char text[MPI_MAX_LIBRARY_VERSION_STRING], name[MPI_MAX_PROCESSOR_NAME];
    MPI_Get_version(&version, &subversion);
    CHECK(version == MPI_VERSION && subversion == MPI_SUBVERSION && version >= 3);
    MPI_Get_library_version(text, &length);
    CHECK(length > 0 && length < MPI_MAX_LIBRARY_VERSION_STRING && strlen(text) <= (size_t)length);
    MPI_Get_processor_name(name, &length);
    CHECK(length > 0 && length < MPI_MAX_PROCESSOR_NAME && strlen(name) == (size_t)length);
}

static void check_time(void) {
    double before = MPI_Wtime(), after = MPI_Wtime();
    CHECK(after >= before && MPI_Wtick() > 0 && MPI_Wtick() < 1);
    while (MPI_Wtime() < before + 0.02) {}
    CHECK(MPI_Wtime() > after);
}

static void check_memory(void) {
    unsigned char *row = NULL;
    CHECK(MPI_Alloc_mem(1000, MPI_INFO_NULL, &row) == MPI_SUCCESS && row != NULL);
    if (row == NULL) return;
    memset(row, 5, 1000);
    CHECK(MPI_Free_mem(row) == MPI_SUCCESS);
}

int main(int argc, char **argv) {
    int flag = -1, provided = -1, told = -1;
    char *program = argv[0];
    /* These may be asked before MPI is initialised. */
    MPI_Initialized(&flag);
    bool was_initialised = flag != 0;
    MPI_Finalized(&flag);
    bool was_finalised = flag != 0;
    MPI_Init_thread(&argc, &argv, MPI_THREAD_FUNNELED, &provided);
    MPI_Comm_rank(MPI_COMM_WORLD, &test_rank);
    MPI_Comm_size(MPI_COMM_WORLD, &test_size);
    CHECK(!was_initialised && !was_finalised);
    MPI_Initialized(&flag);
    CHECK(flag);
    MPI_Finalized(&flag);
    CHECK(!flag);
    /* The words are the program's own again. */
    CHECK(argc == 1 && argv[0] == program && argv[1] == NULL);
    MPI_Query_thread(&told);
    CHECK(provided == told && provided >= MPI_THREAD_SINGLE && provided <= MPI_THREAD_MULTIPLE);
    MPI_Is_thread_main(&flag);
    CHECK(flag);
    CHECK(MPI_Pcontrol(1) == MPI_SUCCESS);
    check_versions();
    check_time();
    check_memory();
    int status = test_end();
    MPI_Finalized(&flag);
    MPI_Initialized(&told);
    return status != 0 || !flag || !told;
}
