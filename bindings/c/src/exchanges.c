/* Collectives in which each hands blocks to each (MPI 3.1, 5.7 and 5.8), blocking and nonblocking (5.12). */
#include "errors.h"
#include "intercollectives.h"
#include "plan_calls.h"

/* ---- allgather ---- */

/* Block j of each result is what member j hands in. */
static int allgather(struct asked *asked, const struct blocks *send, const struct blocks *receive) {
    struct plan_call call = {.kind = PLAN_ALLGATHER, .are_alike = receive->counts == NULL};
    if (is_of_inter(asked->handle)) return inter_allgather(asked, send, receive);
    int class = check_asked(asked);
    if (class == MPI_SUCCESS) class = list_blocks(asked, receive, asked->comm->size, &call.got);
    if (class != MPI_SUCCESS) return class;
    const int rank = asked->comm->rank;
    const bool is_in_place = send->at == MPI_IN_PLACE;
    class = is_in_place ? list_again(asked, &call.got, rank, 1, &call.given) : list_blocks(asked, send, 1, &call.given);
    if (class == MPI_SUCCESS && !is_in_place) {
        class = check_apart_places(asked, send->at, receive->at, place_length(call.given.list[0]));
        if (class == MPI_SUCCESS) class = check_own_places(asked, call.given.list[0], call.got.list[rank]);
    }
    if (class == MPI_SUCCESS) return carry_out(asked, &call);
    free_places(&call.given);
    free_places(&call.got);
    return class;
}

int MPI_Allgather(const void *sendbuf, int sendcount, MPI_Datatype sendtype, void *recvbuf, int recvcount,
                  MPI_Datatype recvtype, MPI_Comm comm) {
    NOTE_CALLER();
    return allgather(BLOCKING("MPI_Allgather", comm),
                     &(struct blocks){.at = sendbuf, .count = sendcount, .type = sendtype},
                     &(struct blocks){.at = recvbuf, .count = recvcount, .type = recvtype});
}

int MPI_Iallgather(const void *sendbuf, int sendcount, MPI_Datatype sendtype, void *recvbuf, int recvcount,
                   MPI_Datatype recvtype, MPI_Comm comm, MPI_Request *request) {
    NOTE_CALLER();
    return allgather(NONBLOCKING("MPI_Iallgather", comm, request),
                     &(struct blocks){.at = sendbuf, .count = sendcount, .type = sendtype},
                     &(struct blocks){.at = recvbuf, .count = recvcount, .type = recvtype});
}

int MPI_Allgatherv(const void *sendbuf, int sendcount, MPI_Datatype sendtype, void *recvbuf, const int recvcounts[],
                   const int displs[], MPI_Datatype recvtype, MPI_Comm comm) {
    NOTE_CALLER();
    return allgather(BLOCKING("MPI_Allgatherv", comm),
                     &(struct blocks){.at = sendbuf, .count = sendcount, .type = sendtype},
                     &(struct blocks){.at = recvbuf, .counts = recvcounts, .displacements = displs, .type = recvtype});
}

int MPI_Iallgatherv(const void *sendbuf, int sendcount, MPI_Datatype sendtype, void *recvbuf, const int recvcounts[],
                    const int displs[], MPI_Datatype recvtype, MPI_Comm comm, MPI_Request *request) {
    NOTE_CALLER();
    return allgather(NONBLOCKING("MPI_Iallgatherv", comm, request),
                     &(struct blocks){.at = sendbuf, .count = sendcount, .type = sendtype},
                     &(struct blocks){.at = recvbuf, .counts = recvcounts, .displacements = displs, .type = recvtype});
}

/* ---- alltoall ---- */

/* Block j of a member's result is what member j hands in for it. */
static int alltoall(struct asked *asked, const struct blocks *send, const struct blocks *receive) {
    struct plan_call call = {.kind = PLAN_ALLTOALL, .are_alike = receive->counts == NULL};
    if (is_of_inter(asked->handle)) return inter_alltoall(asked, send, receive);
    int class = check_asked(asked);
    if (class == MPI_SUCCESS) class = list_blocks(asked, receive, asked->comm->size, &call.got);
    if (class != MPI_SUCCESS) return class;
    const int rank = asked->comm->rank, size = asked->comm->size;
    const bool is_in_place = send->at == MPI_IN_PLACE;
    class =
        is_in_place ? list_again(asked, &call.got, 0, size, &call.given) : list_blocks(asked, send, size, &call.given);
    if (class == MPI_SUCCESS && !is_in_place) {
        class = check_apart_places(asked, send->at, receive->at, place_length(call.given.list[rank]));
        if (class == MPI_SUCCESS) class = check_own_places(asked, call.given.list[rank], call.got.list[rank]);
    }
    if (class == MPI_SUCCESS) return carry_out(asked, &call);
    free_places(&call.given);
    free_places(&call.got);
    return class;
}

int MPI_Alltoall(const void *sendbuf, int sendcount, MPI_Datatype sendtype, void *recvbuf, int recvcount,
                 MPI_Datatype recvtype, MPI_Comm comm) {
    NOTE_CALLER();
    return alltoall(BLOCKING("MPI_Alltoall", comm),
                    &(struct blocks){.at = sendbuf, .count = sendcount, .type = sendtype},
                    &(struct blocks){.at = recvbuf, .count = recvcount, .type = recvtype});
}

int MPI_Ialltoall(const void *sendbuf, int sendcount, MPI_Datatype sendtype, void *recvbuf, int recvcount,
                  MPI_Datatype recvtype, MPI_Comm comm, MPI_Request *request) {
    NOTE_CALLER();
    return alltoall(NONBLOCKING("MPI_Ialltoall", comm, request),
                    &(struct blocks){.at = sendbuf, .count = sendcount, .type = sendtype},
                    &(struct blocks){.at = recvbuf, .count = recvcount, .type = recvtype});
}

int MPI_Alltoallv(const void *sendbuf, const int sendcounts[], const int sdispls[], MPI_Datatype sendtype,
                  void *recvbuf, const int recvcounts[], const int rdispls[], MPI_Datatype recvtype, MPI_Comm comm) {
    NOTE_CALLER();
    return alltoall(BLOCKING("MPI_Alltoallv", comm),
                    &(struct blocks){.at = sendbuf, .counts = sendcounts, .displacements = sdispls, .type = sendtype},
                    &(struct blocks){.at = recvbuf, .counts = recvcounts, .displacements = rdispls, .type = recvtype});
}

int MPI_Ialltoallv(const void *sendbuf, const int sendcounts[], const int sdispls[], MPI_Datatype sendtype,
                   void *recvbuf, const int recvcounts[], const int rdispls[], MPI_Datatype recvtype, MPI_Comm comm,
                   MPI_Request *request) {
    NOTE_CALLER();
    return alltoall(NONBLOCKING("MPI_Ialltoallv", comm, request),
                    &(struct blocks){.at = sendbuf, .counts = sendcounts, .displacements = sdispls, .type = sendtype},
                    &(struct blocks){.at = recvbuf, .counts = recvcounts, .displacements = rdispls, .type = recvtype});
}

int MPI_Alltoallw(const void *sendbuf, const int sendcounts[], const int sdispls[], const MPI_Datatype sendtypes[],
                  void *recvbuf, const int recvcounts[], const int rdispls[], const MPI_Datatype recvtypes[],
                  MPI_Comm comm) {
    NOTE_CALLER();
    return alltoall(
        BLOCKING("MPI_Alltoallw", comm),
        &(struct blocks){.at = sendbuf, .counts = sendcounts, .displacements = sdispls, .types = sendtypes},
        &(struct blocks){.at = recvbuf, .counts = recvcounts, .displacements = rdispls, .types = recvtypes});
}

int MPI_Ialltoallw(const void *sendbuf, const int sendcounts[], const int sdispls[], const MPI_Datatype sendtypes[],
                   void *recvbuf, const int recvcounts[], const int rdispls[], const MPI_Datatype recvtypes[],
                   MPI_Comm comm, MPI_Request *request) {
    NOTE_CALLER();
    return alltoall(
        NONBLOCKING("MPI_Ialltoallw", comm, request),
        &(struct blocks){.at = sendbuf, .counts = sendcounts, .displacements = sdispls, .types = sendtypes},
        &(struct blocks){.at = recvbuf, .counts = recvcounts, .displacements = rdispls, .types = recvtypes});
}

/* ---- persistent (MPI 4.0, 6.13) ---- */

int MPI_Allgather_init(const void *sendbuf, int sendcount, MPI_Datatype sendtype, void *recvbuf, int recvcount,
                       MPI_Datatype recvtype, MPI_Comm comm, MPI_Info info, MPI_Request *request) {
    NOTE_CALLER();
    (void)info;
    return allgather(PERSISTENT("MPI_Allgather_init", comm, request),
                     &(struct blocks){.at = sendbuf, .count = sendcount, .type = sendtype},
                     &(struct blocks){.at = recvbuf, .count = recvcount, .type = recvtype});
}

int MPI_Allgatherv_init(const void *sendbuf, int sendcount, MPI_Datatype sendtype, void *recvbuf,
                        const int recvcounts[], const int displs[], MPI_Datatype recvtype, MPI_Comm comm, MPI_Info info,
                        MPI_Request *request) {
    NOTE_CALLER();
    (void)info;
    return allgather(PERSISTENT("MPI_Allgatherv_init", comm, request),
                     &(struct blocks){.at = sendbuf, .count = sendcount, .type = sendtype},
                     &(struct blocks){.at = recvbuf, .counts = recvcounts, .displacements = displs, .type = recvtype});
}

int MPI_Alltoall_init(const void *sendbuf, int sendcount, MPI_Datatype sendtype, void *recvbuf, int recvcount,
                      MPI_Datatype recvtype, MPI_Comm comm, MPI_Info info, MPI_Request *request) {
    NOTE_CALLER();
    (void)info;
    return alltoall(PERSISTENT("MPI_Alltoall_init", comm, request),
                    &(struct blocks){.at = sendbuf, .count = sendcount, .type = sendtype},
                    &(struct blocks){.at = recvbuf, .count = recvcount, .type = recvtype});
}

int MPI_Alltoallv_init(const void *sendbuf, const int sendcounts[], const int sdispls[], MPI_Datatype sendtype,
                       void *recvbuf, const int recvcounts[], const int rdispls[], MPI_Datatype recvtype, MPI_Comm comm,
                       MPI_Info info, MPI_Request *request) {
    NOTE_CALLER();
    (void)info;
    return alltoall(PERSISTENT("MPI_Alltoallv_init", comm, request),
                    &(struct blocks){.at = sendbuf, .counts = sendcounts, .displacements = sdispls, .type = sendtype},
                    &(struct blocks){.at = recvbuf, .counts = recvcounts, .displacements = rdispls, .type = recvtype});
}

int MPI_Alltoallw_init(const void *sendbuf, const int sendcounts[], const int sdispls[], const MPI_Datatype sendtypes[],
                       void *recvbuf, const int recvcounts[], const int rdispls[], const MPI_Datatype recvtypes[],
                       MPI_Comm comm, MPI_Info info, MPI_Request *request) {
    NOTE_CALLER();
    (void)info;
    return alltoall(
        PERSISTENT("MPI_Alltoallw_init", comm, request),
        &(struct blocks){.at = sendbuf, .counts = sendcounts, .displacements = sdispls, .types = sendtypes},
        &(struct blocks){.at = recvbuf, .counts = recvcounts, .displacements = rdispls, .types = recvtypes});
}
