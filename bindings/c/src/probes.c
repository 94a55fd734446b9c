/* Probes, and receives of the messages that matching probes took out (MPI 3.1, 3.8). */
#include "errors.h"
#include "explored.h"
#include "intercommunicators.h"
#include "internal.h"
#include "table.h"
#include "types.h"
#include "wait_lines.h"
#include "watches.h"

#include <stdlib.h>

/* A message that was taken out: what the engine knows it by, and the communicator whose error handler is told, of its
 * receive also where the program has freed it. */
struct message {
    struct engine_request own;
    MPI_Comm handle;
    struct communicator *comm;
};

static struct table messages = TABLE_OF(KIND_MESSAGE);

/* ---- looking ---- */

/* What a probe asks for, and where it tells of what it found: `flag` of those that don't wait, `message` of those that
 * take it out. */
struct look {
    const char *call;
    int source;
    int tag;
    MPI_Comm comm;
    bool takes_out, waits;
    int *flag;
    MPI_Message *message;
};

static int check_look(const struct look *it, struct communicator **comm) {
    check_running(it->call);
    int class = check_comm(it->comm, it->call, comm);
    if (class == 0 && !it->waits) class = check_result(it->comm, it->call, it->flag, "flag");
    if (class == 0 && it->takes_out) class = check_result(it->comm, it->call, it->message, "message");
    if (class == 0) class = check_source(it->comm, it->call, *comm, it->source);
    if (class == 0) class = check_receive_tag(it->comm, it->call, it->tag);
    return class;
}

static void look_once(const struct look *it, const struct communicator *comm, struct engine_answer *answer) {
    const struct engine_call probe = {.kind = it->takes_out ? ENGINE_IMPROBE : ENGINE_IPROBE,
                                      .communicator = comm->place,
                                      .peer = it->source == MPI_PROC_NULL    ? ENGINE_NULL
                                              : it->source == MPI_ANY_SOURCE ? ENGINE_ANY
                                                                             : member_of(comm, it->source),
                                      .tag = it->tag == MPI_ANY_TAG ? ENGINE_ANY : it->tag};
    if (is_explored) explored_probe(&probe, it->waits, answer);
    else call_engine(&probe, NULL, 0, answer);
}

/* Looks once, or until something is found: 0, or the class of an error, of which was told. */
static int look(const struct look *it, struct engine_answer *answer) {
    struct communicator *comm;
    int class = check_look(it, &comm);
    if (class != 0) return class;
    progress();
    look_once(it, comm, answer);
    if (it->waits && answer->kind == ENGINE_NOTHING) {
        begin_wait(&(struct wait){.kind = WAIT_MESSAGE, .comm = it->comm, .rank = it->source, .tag = it->tag});
        do {
            progress_wait();
            look_once(it, comm, answer);
        } while (answer->kind == ENGINE_NOTHING);
        end_wait();
    }
    if (answer->kind == ENGINE_REFUSED) return raise_limited(it->comm, it->call, answer->number, LIMIT_OF_REQUESTS);
    if (has_freed()) settle_freed();
    return MPI_SUCCESS;
}

/* Hands a message that was taken out to the program. */
static int hand_message(const struct look *it, const struct engine_answer *answer) {
    *it->message = MPI_MESSAGE_NULL;
    if (answer->kind != ENGINE_MATCHED) return MPI_SUCCESS;
    *it->message = MPI_MESSAGE_NO_PROC;
    if (answer->source == ENGINE_NULL) return MPI_SUCCESS;
    struct message *own = malloc(sizeof *own);
    int64_t handle = own == NULL ? 0 : table_add(&messages, own);
    if (handle == 0) {
        free(own);
        return raise_number(it->comm, it->call, NUMBER_NO_MEMORY);
    }
    *own = (struct message){answer->request, it->comm, hold_communicator(communicator_of(it->comm))};
    *it->message = (MPI_Message)(intptr_t)handle;
    return MPI_SUCCESS;
}

/* Looks, and tells of what was found. */
static int probe(const struct look *it, MPI_Status *status) {
    struct engine_answer answer;
    int class = look(it, &answer);
    if (class != 0) return class;
    bool is_found = answer.kind != ENGINE_NOTHING;
    const MPI_Status found = status_of(communicator_of(it->comm), &answer);
    if (is_found) put_status(status, &found);
    if (it->flag != NULL) *it->flag = is_found;
    return it->takes_out ? hand_message(it, &answer) : MPI_SUCCESS;
}

int MPI_Probe(int source, int tag, MPI_Comm comm, MPI_Status *status) {
    NOTE_CALLER();
    const struct look it = {"MPI_Probe", source, tag, comm, .waits = true};
    return probe(&it, status);
}

int MPI_Iprobe(int source, int tag, MPI_Comm comm, int *flag, MPI_Status *status) {
    NOTE_CALLER();
    const struct look it = {"MPI_Iprobe", source, tag, comm, .flag = flag};
    return probe(&it, status);
}

int MPI_Mprobe(int source, int tag, MPI_Comm comm, MPI_Message *message, MPI_Status *status) {
    NOTE_CALLER();
    const struct look it = {"MPI_Mprobe", source, tag, comm, .takes_out = true, .waits = true, .message = message};
    return probe(&it, status);
}

int MPI_Improbe(int source, int tag, MPI_Comm comm, int *flag, MPI_Message *message, MPI_Status *status) {
    NOTE_CALLER();
    const struct look it = {"MPI_Improbe", source, tag, comm, .takes_out = true, .flag = flag, .message = message};
    return probe(&it, status);
}

/* ---- receiving what was taken out ---- */

/* Where a message goes. */
struct room {
    void *buf;
    int count;
    MPI_Datatype type;
};

/* That there is such a message and such a room. No message is found of no process. */
static int check_message(const char *call, const MPI_Message *message, const struct room *room, struct datatype **type,
                         struct message **found) {
    check_running(call);
    int class = check_result(MPI_COMM_WORLD, call, message, "message");
    if (class != 0) return class;
    *found = table_find(&messages, (intptr_t)*message);
    if (*found == NULL && *message != MPI_MESSAGE_NO_PROC)
        return raise_on(MPI_COMM_WORLD, call, MPI_ERR_REQUEST, "a handle that is no message");
    MPI_Comm comm = *found == NULL ? MPI_COMM_WORLD : (*found)->handle;
    class = check_count(comm, call, room->count);
    if (class == 0) class = check_type(comm, call, room->type, type);
    if (class == 0) class = check_buffer(comm, call, room->buf, room->count, *type);
    return class;
}

/* Begins to receive a message, which is the program's no more. */
static void start_message(MPI_Message *message, const struct message *own, const struct room *room,
                          struct datatype *type, struct request *request) {
    static const struct engine_answer of_no_process = {
        .kind = ENGINE_DONE, .outcome = ENGINE_RECEIVED, .source = ENGINE_NULL, .tag = ENGINE_ANY};
    *request = (struct request){.kind = &matched_kind, .type = type, .buf = room->buf, .element = type->of};
    request->caller = process.caller;
    request->age = next_age();
    request->room = data_size(&type->layout, (size_t)room->count);
    request->comm = own == NULL ? hold_communicator(communicator_of(MPI_COMM_WORLD)) : own->comm;
    hold_type(type);
    if (own == NULL) {
        end_request(request, &of_no_process);
    } else {
        request->own = own->own;
        watch_message(request, room->count);
        begin_matched(request);
        free(table_remove(&messages, (intptr_t)*message));
    }
    *message = MPI_MESSAGE_NULL;
}

int MPI_Mrecv(void *buf, int count, MPI_Datatype datatype, MPI_Message *message, MPI_Status *status) {
    NOTE_CALLER();
    static const char call[] = "MPI_Mrecv";
    const struct room room = {buf, count, datatype};
    struct datatype *type;
    struct message *own;
    struct request request;
    int class = check_message(call, message, &room, &type, &own);
    if (class != 0) return class;
    start_message(message, own, &room, type, &request);
    await_request(&request);
    drop_watch(&request);
    put_status(status, &request.end);
    class = request.number == 0 ? MPI_SUCCESS : raise_end(call, &request);
    release_communicator(request.comm);
    return class;
}

int MPI_Imrecv(void *buf, int count, MPI_Datatype datatype, MPI_Message *message, MPI_Request *request) {
    NOTE_CALLER();
    static const char call[] = "MPI_Imrecv";
    const struct room room = {buf, count, datatype};
    struct datatype *type;
    struct message *own;
    int class = check_message(call, message, &room, &type, &own);
    if (class == 0) class = check_result(MPI_COMM_WORLD, call, request, "request");
    if (class != 0) return class;
    MPI_Request begun = open_request();
    if (begun == MPI_REQUEST_NULL) return raise_number(MPI_COMM_WORLD, call, NUMBER_NO_MEMORY);
    start_message(message, own, &room, type, request_of(begun));
    *request = begun;
    return MPI_SUCCESS;
}

uint32_t count_messages(void) {
    uint32_t count = 0;
    for (int place = 0; place < messages.count; place++) count += messages.places[place].object != NULL;
    return count;
}

void close_messages(void) {
    for (int place = 0; place < messages.count; place++) {
        struct message *own = messages.places[place].object;
        if (own != NULL) release_communicator(own->comm);
        free(own);
    }
    table_free(&messages);
}

/* Handles as Fortran has them (17.2.4). */
MPI_Fint MPI_Message_c2f(MPI_Message message) { return (MPI_Fint)(intptr_t)message; }
MPI_Message MPI_Message_f2c(MPI_Fint message) {
    NOTE_CALLER();
    int64_t number = table_number(&messages, (uint32_t)message);
    return (MPI_Message)(intptr_t)(number == 0 ? message : number);
}
