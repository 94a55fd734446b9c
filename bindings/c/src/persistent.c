/* Persistent requests (MPI 3.1, 3.9): what is begun again and again with the same arguments. Here stand those of sends
 * and receives; MPI_Start and MPI_Startall begin those of every kind. */
#include "errors.h"
#include "explored.h"
#include "transfers.h"
#include "types.h"

#include <stdlib.h>

/* ---- sends and receives ---- */

int start_again(const char *call, struct request *request) {
    struct request begun;
    int class = begin_transfer(call, request->state, &begun);
    if (class != MPI_SUCCESS) return class;
    begun.state = request->state;
    begun.is_persistent = true;
    *request = begun;
    return MPI_SUCCESS;
}

int forget_again(struct request *request) {
    struct transfer *it = request->state;
    if (it != NULL) release_type(it->type);
    free(it);
    return MPI_SUCCESS;
}

/* Makes an inactive request of what a call was given. */
static int make_persistent(const struct argument *it, enum transfer_kind kind, MPI_Request *request) {
    struct transfer made, *kept;
    MPI_Request own;
    int class = check_transfer(it, kind, &made);
    if (class == MPI_SUCCESS) class = open_handle(it, request, &own);
    if (class != MPI_SUCCESS) return class;
    kept = malloc(sizeof *kept);
    if (kept == NULL) return hand_over(raise_number(it->comm, it->call, NUMBER_NO_MEMORY), own, request);
    *kept = made;
    hold_type(made.type);
    *request_of(own) = (struct request){.kind = kind == TRANSFER_RECEIVE ? &receive_kind : &send_kind,
                                        .state = kept,
                                        .is_persistent = true,
                                        .is_inactive = true,
                                        .comm = made.comm};
    explored_made(MADE_PERSISTENT, place_of_request(own));
    return hand_over(MPI_SUCCESS, own, request);
}

int MPI_Send_init(const void *buf, int count, MPI_Datatype datatype, int dest, int tag, MPI_Comm comm,
                  MPI_Request *request) {
    NOTE_CALLER();
    const struct argument it = {"MPI_Send_init", (void *)buf, count, datatype, dest, tag, comm};
    return make_persistent(&it, TRANSFER_SEND, request);
}

int MPI_Ssend_init(const void *buf, int count, MPI_Datatype datatype, int dest, int tag, MPI_Comm comm,
                   MPI_Request *request) {
    NOTE_CALLER();
    const struct argument it = {"MPI_Ssend_init", (void *)buf, count, datatype, dest, tag, comm};
    return make_persistent(&it, TRANSFER_SYNCHRONOUS, request);
}

int MPI_Rsend_init(const void *buf, int count, MPI_Datatype datatype, int dest, int tag, MPI_Comm comm,
                   MPI_Request *request) {
    NOTE_CALLER();
    const struct argument it = {"MPI_Rsend_init", (void *)buf, count, datatype, dest, tag, comm};
    return make_persistent(&it, TRANSFER_READY, request);
}

int MPI_Bsend_init(const void *buf, int count, MPI_Datatype datatype, int dest, int tag, MPI_Comm comm,
                   MPI_Request *request) {
    NOTE_CALLER();
    const struct argument it = {"MPI_Bsend_init", (void *)buf, count, datatype, dest, tag, comm};
    return make_persistent(&it, TRANSFER_BUFFERED, request);
}

int MPI_Recv_init(void *buf, int count, MPI_Datatype datatype, int source, int tag, MPI_Comm comm,
                  MPI_Request *request) {
    NOTE_CALLER();
    const struct argument it = {"MPI_Recv_init", buf, count, datatype, source, tag, comm};
    return make_persistent(&it, TRANSFER_RECEIVE, request);
}

/* ---- of every kind ---- */

/* That a request can be begun. */
static int check_start(const char *call, const MPI_Request *handle, struct request **found) {
    int class = check_request(call, handle, found);
    if (class != MPI_SUCCESS) return class;
    if (*found == NULL) return raise_on(MPI_COMM_WORLD, call, MPI_ERR_REQUEST, "the request is MPI_REQUEST_NULL");
    if (!(*found)->is_persistent)
        return raise_in((*found)->comm, call, MPI_ERR_REQUEST, "the request isn't persistent");
    return (*found)->is_inactive ? MPI_SUCCESS
                                 : raise_in((*found)->comm, call, MPI_ERR_REQUEST, "the request is active");
}

int MPI_Start(MPI_Request *request) {
    NOTE_CALLER();
    static const char call[] = "MPI_Start";
    struct request *found;
    check_running(call);
    int class = check_start(call, request, &found);
    return class == MPI_SUCCESS ? found->kind->start(call, found) : class;
}

/* Nothing begins where one can't. */
int MPI_Startall(int count, MPI_Request array_of_requests[]) {
    NOTE_CALLER();
    static const char call[] = "MPI_Startall";
    struct request *found;
    check_running(call);
    if (count < 0) return raise_on(MPI_COMM_WORLD, call, MPI_ERR_ARG, "a list of %d requests", count);
    int class = count > 0 ? check_result(MPI_COMM_WORLD, call, array_of_requests, "array_of_requests") : MPI_SUCCESS;
    for (int i = 0; i < count && class == MPI_SUCCESS; i++) class = check_start(call, &array_of_requests[i], &found);
    for (int i = 0; i < count && class == MPI_SUCCESS; i++) {
        found = request_of(array_of_requests[i]);
        class = found->kind->start(call, found);
    }
    return class;
}
