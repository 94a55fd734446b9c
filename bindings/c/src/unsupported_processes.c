/* Processes (MPI 3.1, 10): processes can't be started or joined, and each call says so.
 * Made by tools/unsupported_calls of unsupported.txt. */
/* clang-format off */
#include "unsupported.h"

#pragma GCC diagnostic ignored "-Wunused-parameter"

int MPI_Close_port(const char *port_name) {
    NOTE_CALLER();
    static const char call[] = "MPI_Close_port";
    check_running(call);
    return unsupported(MPI_COMM_WORLD, call, "processes can't be started or joined");
}

int MPI_Comm_accept(const char *port_name, MPI_Info info, int root, MPI_Comm comm, MPI_Comm *newcomm) {
    NOTE_CALLER();
    static const char call[] = "MPI_Comm_accept";
    check_running(call);
    if (newcomm != NULL) *newcomm = MPI_COMM_NULL;
    return unsupported(comm, call, "processes can't be started or joined");
}

int MPI_Comm_connect(const char *port_name, MPI_Info info, int root, MPI_Comm comm, MPI_Comm *newcomm) {
    NOTE_CALLER();
    static const char call[] = "MPI_Comm_connect";
    check_running(call);
    if (newcomm != NULL) *newcomm = MPI_COMM_NULL;
    return unsupported(comm, call, "processes can't be started or joined");
}

int MPI_Comm_join(int fd, MPI_Comm *intercomm) {
    NOTE_CALLER();
    static const char call[] = "MPI_Comm_join";
    check_running(call);
    if (intercomm != NULL) *intercomm = MPI_COMM_NULL;
    return unsupported(MPI_COMM_WORLD, call, "processes can't be started or joined");
}

int MPI_Comm_spawn(const char *command, char *argv[], int maxprocs, MPI_Info info, int root, MPI_Comm comm,
    MPI_Comm *intercomm, int array_of_errcodes[]) {
    NOTE_CALLER();
    static const char call[] = "MPI_Comm_spawn";
    check_running(call);
    if (intercomm != NULL) *intercomm = MPI_COMM_NULL;
    return unsupported(comm, call, "processes can't be started or joined");
}

int MPI_Comm_spawn_multiple(int count, char *array_of_commands[], char **array_of_argv[],
    const int array_of_maxprocs[], const MPI_Info array_of_info[], int root, MPI_Comm comm, MPI_Comm *intercomm,
    int array_of_errcodes[]) {
    NOTE_CALLER();
    static const char call[] = "MPI_Comm_spawn_multiple";
    check_running(call);
    if (intercomm != NULL) *intercomm = MPI_COMM_NULL;
    return unsupported(comm, call, "processes can't be started or joined");
}

int MPI_Lookup_name(const char *service_name, MPI_Info info, char *port_name) {
    NOTE_CALLER();
    static const char call[] = "MPI_Lookup_name";
    check_running(call);
    return unsupported(MPI_COMM_WORLD, call, "processes can't be started or joined");
}

int MPI_Open_port(MPI_Info info, char *port_name) {
    NOTE_CALLER();
    static const char call[] = "MPI_Open_port";
    check_running(call);
    return unsupported(MPI_COMM_WORLD, call, "processes can't be started or joined");
}

int MPI_Publish_name(const char *service_name, MPI_Info info, const char *port_name) {
    NOTE_CALLER();
    static const char call[] = "MPI_Publish_name";
    check_running(call);
    return unsupported(MPI_COMM_WORLD, call, "processes can't be started or joined");
}

int MPI_Unpublish_name(const char *service_name, MPI_Info info, const char *port_name) {
    NOTE_CALLER();
    static const char call[] = "MPI_Unpublish_name";
    check_running(call);
    return unsupported(MPI_COMM_WORLD, call, "processes can't be started or joined");
}
