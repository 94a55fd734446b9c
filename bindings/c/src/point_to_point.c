/* Sends and receives (MPI 3.1, 3.2, 3.4, 3.7 and 3.10). Which message a receive takes, and when a send is at its end,
 * the engine decides; here arguments become its calls. */
#include "errors.h"
#include "explored.h"
#include "intercommunicators.h"
#include "internal.h"
#include "plan_runs.h"
#include "transfers.h"
#include "types.h"
#include "unasked.h"
#include "watches.h"

#include <stdlib.h>

/* ---- beginning ---- */

uint32_t begin_send(struct request *request, struct communicator *comm, bool is_synchronous, const void *buf, int count,
                    const struct datatype *type, int target, int tag) {
    *request = (struct request){.kind = &send_kind, .comm = comm, .peer = target, .tag = tag};
    request->caller = process.caller;
    request->age = next_age();
    if (target == MPI_PROC_NULL) count = 0; /* its data go nowhere (3.11) */
    size_t len = data_size(&type->layout, (size_t)count);
    /* The engine refuses it, too, but behind a copy. */
    if (len > ENGINE_GREATEST_LIMIT) return NUMBER_COUNT;
    request->room = len;
    void *room = NULL;
    const void *row = data_row(&type->layout, buf, (size_t)count, &room);
    if (row == NULL && len > 0) return NUMBER_NO_MEMORY;
    const struct engine_call send = {.kind = is_synchronous ? ENGINE_ISSEND : ENGINE_ISEND,
                                     .communicator = comm->place,
                                     .peer = target == MPI_PROC_NULL ? ENGINE_NULL : member_of(comm, target),
                                     .tag = tag,
                                     .basic = type->basic};
    struct engine_answer answer;
    call_engine(&send, row, len, &answer);
    free(room);
    request->own = answer.request;
    if (answer.kind != ENGINE_STARTED) return answer.number;
    if (target == comm->rank) note_news();
    progress_out();
    return 0;
}

uint32_t begin_receive(struct request *request, struct communicator *comm, void *buf, int count, struct datatype *type,
                       int source, int tag) {
    *request = (struct request){
        .kind = &receive_kind, .comm = comm, .peer = source, .tag = tag, .buf = buf, .element = type->of};
    request->caller = process.caller;
    request->age = next_age();
    request->room = data_size(&type->layout, (size_t)count);
    const struct engine_call receive = {.kind = ENGINE_IRECV,
                                        .communicator = comm->place,
                                        .peer = source == MPI_PROC_NULL    ? ENGINE_NULL
                                                : source == MPI_ANY_SOURCE ? ENGINE_ANY
                                                                           : member_of(comm, source),
                                        .tag = tag == MPI_ANY_TAG ? ENGINE_ANY : tag,
                                        .basic = type->basic,
                                        .count = engine_elements(type, request->room)};
    struct engine_answer answer;
    call_engine(&receive, NULL, 0, &answer);
    request->own = answer.request;
    if (answer.kind != ENGINE_STARTED) return answer.number;
    if (source == comm->rank || source == MPI_ANY_SOURCE) note_news();
    request->type = type;
    hold_type(type);
    progress_out();
    return 0;
}

int tell_number(const struct communicator *comm, const char *call, uint32_t number) {
    if (number == 0) return MPI_SUCCESS;
    const char *cause = number == NUMBER_LIMIT ? LIMIT_OF_REQUESTS : cause_of(number);
    return raise_in(comm, call, class_of(number), "%s (%u)", cause, (unsigned)number);
}

/* Begins a send to another rank. A standard one may go as a synchronous one (3.4): it does where too much waits. Once
 * the engine is free no other thread sends before it has answered. */
static uint32_t send_to_other(const struct transfer *it, bool is_synchronous, int rank, struct request *request) {
    free_engine();
    const size_t len = data_size(&it->type->layout, (size_t)it->count);
    const enum send_course course = is_synchronous ? COURSE_SYNCHRONOUS : begin_unasked(rank, len);
    uint32_t number =
        begin_send(request, it->comm, course == COURSE_SYNCHRONOUS, it->buf, it->count, it->type, it->peer, it->tag);
    if (course != COURSE_AT_ONCE) mark_send(request, rank);
    else if (number != 0) take_back_unasked(rank);
    request->is_crowded = !is_synchronous && course == COURSE_SYNCHRONOUS;
    return number;
}

/* Begins a send of a program. */
static uint32_t send_own(const struct transfer *it, struct request *request) {
    const bool is_synchronous = it->kind == TRANSFER_SYNCHRONOUS || process.sends_wait;
    const bool is_to_a_rank = it->peer != MPI_PROC_NULL && !is_explored;
    const int rank = is_to_a_rank ? world_rank(it->comm, member_of(it->comm, it->peer)) : process.rank;
    explored_note_ready(it->kind == TRANSFER_READY);
    if (rank != process.rank) return send_to_other(it, is_synchronous, rank, request);
    return begin_send(request, it->comm, is_synchronous, it->buf, it->count, it->type, it->peer, it->tag);
}

int begin_transfer(const char *call, const struct transfer *it, struct request *request) {
    int class;
    if (it->kind == TRANSFER_BUFFERED) class = begin_buffered(call, it, request);
    else if (it->kind == TRANSFER_RECEIVE)
        class = tell_number(it->comm, call,
                            begin_receive(request, it->comm, it->buf, it->count, it->type, it->peer, it->tag));
    else class = tell_number(it->comm, call, send_own(it, request));
    if (class == MPI_SUCCESS) watch_transfer(request, it);
    return class;
}

/* ---- checks ---- */

int check_transfer(const struct argument *it, enum transfer_kind kind, struct transfer *made) {
    struct communicator *comm;
    struct datatype *type;
    check_running(it->call);
    int class = check_comm(it->comm, it->call, &comm);
    if (class == 0) class = check_count(it->comm, it->call, it->count);
    if (class == 0) class = check_type(it->comm, it->call, it->type, &type);
    if (class == 0) class = check_buffer(it->comm, it->call, it->buf, it->count, type);
    bool is_receive = kind == TRANSFER_RECEIVE;
    if (class == 0) class = (is_receive ? check_source : check_target)(it->comm, it->call, comm, it->rank);
    if (class == 0) class = (is_receive ? check_receive_tag : check_tag)(it->comm, it->call, it->tag);
    if (class == 0) *made = (struct transfer){kind, it->buf, it->count, type, comm, it->rank, it->tag};
    return class;
}

/* Begins what a call was given. */
static int start(const struct argument *it, enum transfer_kind kind, struct request *request) {
    struct transfer made;
    int class = check_transfer(it, kind, &made);
    return class == 0 ? begin_transfer(it->call, &made, request) : class;
}

/* ---- one send, one receive ---- */

static int send_and_wait(const struct argument *it, enum transfer_kind kind) {
    struct request request;
    int class = start(it, kind, &request);
    if (class != 0) return class;
    (void)await_request(&request);
    drop_watch(&request);
    return request.number == 0 ? MPI_SUCCESS : raise_end(it->call, &request);
}

int open_handle(const struct argument *it, const MPI_Request *request, MPI_Request *own) {
    check_running(it->call);
    int class = check_result(it->comm, it->call, request, "request");
    if (class != 0) return class;
    *own = open_request();
    return *own != MPI_REQUEST_NULL ? MPI_SUCCESS : raise_number(it->comm, it->call, NUMBER_NO_MEMORY);
}

int hand_over(int class, MPI_Request own, MPI_Request *request) {
    struct request *begun = request_of(own);
    if (class != 0) {
        begun->comm = NULL;
        close_request(&own);
        return class;
    }
    hold_communicator(begun->comm);
    *request = own;
    return MPI_SUCCESS;
}

int begin_later(const struct argument *it, enum transfer_kind kind, MPI_Request *request) {
    MPI_Request own;
    int class = open_handle(it, request, &own);
    return class != 0 ? class : hand_over(start(it, kind, request_of(own)), own, request);
}

int MPI_Send(const void *buf, int count, MPI_Datatype datatype, int dest, int tag, MPI_Comm comm) {
    NOTE_CALLER();
    const struct argument it = {"MPI_Send", (void *)buf, count, datatype, dest, tag, comm};
    return send_and_wait(&it, TRANSFER_SEND);
}

int MPI_Ssend(const void *buf, int count, MPI_Datatype datatype, int dest, int tag, MPI_Comm comm) {
    NOTE_CALLER();
    const struct argument it = {"MPI_Ssend", (void *)buf, count, datatype, dest, tag, comm};
    return send_and_wait(&it, TRANSFER_SYNCHRONOUS);
}

/* A ready send may do what a standard one does (3.4). */
int MPI_Rsend(const void *buf, int count, MPI_Datatype datatype, int dest, int tag, MPI_Comm comm) {
    NOTE_CALLER();
    const struct argument it = {"MPI_Rsend", (void *)buf, count, datatype, dest, tag, comm};
    return send_and_wait(&it, TRANSFER_READY);
}

int MPI_Isend(const void *buf, int count, MPI_Datatype datatype, int dest, int tag, MPI_Comm comm,
              MPI_Request *request) {
    NOTE_CALLER();
    const struct argument it = {"MPI_Isend", (void *)buf, count, datatype, dest, tag, comm};
    return begin_later(&it, TRANSFER_SEND, request);
}

int MPI_Issend(const void *buf, int count, MPI_Datatype datatype, int dest, int tag, MPI_Comm comm,
               MPI_Request *request) {
    NOTE_CALLER();
    const struct argument it = {"MPI_Issend", (void *)buf, count, datatype, dest, tag, comm};
    return begin_later(&it, TRANSFER_SYNCHRONOUS, request);
}

int MPI_Irsend(const void *buf, int count, MPI_Datatype datatype, int dest, int tag, MPI_Comm comm,
               MPI_Request *request) {
    NOTE_CALLER();
    const struct argument it = {"MPI_Irsend", (void *)buf, count, datatype, dest, tag, comm};
    return begin_later(&it, TRANSFER_READY, request);
}

int MPI_Recv(void *buf, int count, MPI_Datatype datatype, int source, int tag, MPI_Comm comm, MPI_Status *status) {
    NOTE_CALLER();
    const struct argument it = {"MPI_Recv", buf, count, datatype, source, tag, comm};
    struct request request;
    int class = start(&it, TRANSFER_RECEIVE, &request);
    if (class != 0) return class;
    await_request(&request);
    drop_watch(&request);
    put_status(status, &request.end);
    return request.number == 0 ? MPI_SUCCESS : raise_end(it.call, &request);
}

int MPI_Irecv(void *buf, int count, MPI_Datatype datatype, int source, int tag, MPI_Comm comm, MPI_Request *request) {
    NOTE_CALLER();
    const struct argument it = {"MPI_Irecv", buf, count, datatype, source, tag, comm};
    return begin_later(&it, TRANSFER_RECEIVE, request);
}

/* ---- a send and a receive together (3.10) ---- */

/* How the two go together. */
enum together { APART, REPLACES /* what comes takes the place of what is sent */ };

/* Begins both. The data of the send are taken before anything is received, so the two may name the same memory. A send
 * that has begun goes on where the receive can't begin, and is ended by whatever ends requests next. */
static int start_both(const struct argument *out, const struct argument *in, enum together how, struct request *send,
                      struct request *receive) {
    struct transfer made;
    /* All of the receive is checked before anything is sent. */
    int class = check_transfer(in, TRANSFER_RECEIVE, &made);
    if (class == 0) class = start(out, TRANSFER_SEND, send);
    if (class != 0) return class;
    if (how == REPLACES) drop_watch(send);
    class = begin_transfer(in->call, &made, receive);
    if (class == 0) return class;
    drop_watch(send);
    (void)let_go(send);
    return class;
}

static int exchange(const struct argument *out, const struct argument *in, enum together how, MPI_Status *status) {
    struct request send, receive;
    int class = start_both(out, in, how, &send, &receive);
    if (class != 0) return class;
    await_request(&receive);
    await_request(&send);
    drop_watch(&receive);
    drop_watch(&send);
    put_status(status, &receive.end);
    if (receive.number != 0) return raise_end(in->call, &receive);
    return send.number == 0 ? MPI_SUCCESS : raise_end(out->call, &send);
}

/* The two end together, as one request. */
static int exchange_later(const struct argument *out, const struct argument *in, enum together how,
                          MPI_Request *request) {
    MPI_Request own;
    int class = open_handle(in, request, &own);
    if (class != 0) return class;
    struct request *send = malloc(sizeof *send), *receive = request_of(own);
    if (send == NULL) class = raise_number(in->comm, in->call, NUMBER_NO_MEMORY);
    else class = start_both(out, in, how, send, receive);
    if (class != 0) free(send);
    else receive->other = send;
    return hand_over(class, own, request);
}

int MPI_Sendrecv(const void *sendbuf, int sendcount, MPI_Datatype sendtype, int dest, int sendtag, void *recvbuf,
                 int recvcount, MPI_Datatype recvtype, int source, int recvtag, MPI_Comm comm, MPI_Status *status) {
    NOTE_CALLER();
    static const char call[] = "MPI_Sendrecv";
    const struct argument out = {call, (void *)sendbuf, sendcount, sendtype, dest, sendtag, comm};
    const struct argument in = {call, recvbuf, recvcount, recvtype, source, recvtag, comm};
    return exchange(&out, &in, APART, status);
}

int MPI_Sendrecv_replace(void *buf, int count, MPI_Datatype datatype, int dest, int sendtag, int source, int recvtag,
                         MPI_Comm comm, MPI_Status *status) {
    NOTE_CALLER();
    static const char call[] = "MPI_Sendrecv_replace";
    const struct argument out = {call, buf, count, datatype, dest, sendtag, comm};
    const struct argument in = {call, buf, count, datatype, source, recvtag, comm};
    return exchange(&out, &in, REPLACES, status);
}

int MPI_Isendrecv(const void *sendbuf, int sendcount, MPI_Datatype sendtype, int dest, int sendtag, void *recvbuf,
                  int recvcount, MPI_Datatype recvtype, int source, int recvtag, MPI_Comm comm, MPI_Request *request) {
    NOTE_CALLER();
    static const char call[] = "MPI_Isendrecv";
    const struct argument out = {call, (void *)sendbuf, sendcount, sendtype, dest, sendtag, comm};
    const struct argument in = {call, recvbuf, recvcount, recvtype, source, recvtag, comm};
    return exchange_later(&out, &in, APART, request);
}

int MPI_Isendrecv_replace(void *buf, int count, MPI_Datatype datatype, int dest, int sendtag, int source, int recvtag,
                          MPI_Comm comm, MPI_Request *request) {
    NOTE_CALLER();
    static const char call[] = "MPI_Isendrecv_replace";
    const struct argument out = {call, buf, count, datatype, dest, sendtag, comm};
    const struct argument in = {call, buf, count, datatype, source, recvtag, comm};
    return exchange_later(&out, &in, REPLACES, request);
}
