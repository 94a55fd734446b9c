/* Buffered sends (MPI 3.1, 3.6). The engine copies the data of each send at once, so that none stand in the buffer that
 * the program attaches: of it is only counted how much the messages take that aren't on their way yet, by the rule of
 * 3.6.1, each the bytes of its data and MPI_BSEND_OVERHEAD. */
#include "errors.h"
#include "explored.h"
#include "transfers.h"
#include "types.h"
#include "watches.h"

#include <stdlib.h>

/* A message in the buffer. */
struct kept {
    struct request send;
    size_t room;
    struct kept *next;
};

static struct {
    void *at;
    int size;
    bool is_attached, is_detached_now; /* a call waits until it is empty */
    size_t used;
    struct kept *first;
} buffer;

/* ---- what it holds ---- */

static void add(struct kept *kept) {
    struct kept **at = &buffer.first;
    while (*at != NULL) at = &(*at)->next;
    *at = kept;
    buffer.used += kept->room;
    hold_communicator(kept->send.comm);
}

/* Takes the one out that stands there. */
static void take_out(struct kept **at) {
    struct kept *kept = *at;
    *at = kept->next;
    buffer.used -= kept->room;
    release_communicator(kept->send.comm);
    free(kept);
}

/* Takes the first one out, once it is on its way. */
static void await_first(void) {
    (void)await_request(&buffer.first->send);
    take_out(&buffer.first);
}

/* Takes all out that are on their way. */
static void take_sent(void) {
    struct kept **at = &buffer.first;
    while (*at != NULL && !buffer.is_detached_now && !is_explored) {
        if (is_at_end(&(*at)->send)) take_out(at);
        else at = &(*at)->next;
    }
}

/* Under an explorer: takes the first ones out that are known here to have been received, since another run may have all
 * others in the buffer still. Who was sent first goes first (3.6.1). */
static void take_received(void) {
    size_t count = 0, known = 0;
    for (struct kept *it = buffer.first; it != NULL; it = it->next) count++;
    struct explorer_entry *sends = malloc((count + 1) * sizeof *sends);
    if (sends == NULL) return;
    for (struct kept *it = buffer.first; it != NULL; it = it->next)
        sends[known++] = (struct explorer_entry){it->send.is_ended ? EXPLORER_ENDED : it->send.own.key, EXPLORER_ENDED};
    for (known = count == 0 ? 0 : explored_received(sends, count); known > 0; known--) await_first();
    free(sends);
}

static bool has_room(size_t wanted) {
    size_t size = buffer.is_attached ? (size_t)buffer.size : 0;
    if (wanted <= size && buffer.used <= size - wanted) return true;
    if (is_explored) take_received();
    else progress(), take_sent();
    return wanted <= size && buffer.used <= size - wanted;
}

/* ---- sends ---- */

int begin_buffered(const char *call, const struct transfer *it, struct request *request) {
    size_t room = it->peer == MPI_PROC_NULL ? 0 : data_size(&it->type->layout, (size_t)it->count) + MPI_BSEND_OVERHEAD;
    take_sent();
    if (room > 0 && !has_room(room))
        return raise_in(it->comm, call, MPI_ERR_BUFFER, "a message needs %zu bytes in the buffer, which has %zu of %d",
                        room, (size_t)buffer.size - buffer.used, buffer.size);
    struct kept *kept = malloc(sizeof *kept);
    if (kept == NULL) return tell_number(it->comm, call, NUMBER_NO_MEMORY);
    uint32_t number = begin_send(&kept->send, it->comm, false, it->buf, it->count, it->type, it->peer, it->tag);
    if (number != 0) {
        free(kept);
        return tell_number(it->comm, call, number);
    }
    *request = kept->send;
    request->is_ended = true;
    request->end = empty_status();
    kept->room = room;
    kept->next = NULL;
    add(kept);
    take_sent();
    return MPI_SUCCESS;
}

int MPI_Bsend(const void *buf, int count, MPI_Datatype datatype, int dest, int tag, MPI_Comm comm) {
    NOTE_CALLER();
    const struct argument it = {"MPI_Bsend", (void *)buf, count, datatype, dest, tag, comm};
    struct transfer made;
    struct request request;
    int class = check_transfer(&it, TRANSFER_BUFFERED, &made);
    if (class == MPI_SUCCESS) class = begin_transfer(it.call, &made, &request);
    if (class == MPI_SUCCESS) drop_watch(&request);
    return class;
}

int MPI_Ibsend(const void *buf, int count, MPI_Datatype datatype, int dest, int tag, MPI_Comm comm,
               MPI_Request *request) {
    NOTE_CALLER();
    const struct argument it = {"MPI_Ibsend", (void *)buf, count, datatype, dest, tag, comm};
    return begin_later(&it, TRANSFER_BUFFERED, request);
}

/* ---- the buffer ---- */

int MPI_Buffer_attach(void *at, int size) {
    NOTE_CALLER();
    static const char call[] = "MPI_Buffer_attach";
    check_running(call);
    if (size < 0) return raise_on(MPI_COMM_WORLD, call, MPI_ERR_ARG, "a buffer of %d bytes", size);
    if (at == NULL && size > 0) return raise_on(MPI_COMM_WORLD, call, MPI_ERR_BUFFER, "the buffer is NULL");
    if (buffer.is_attached) return raise_on(MPI_COMM_WORLD, call, MPI_ERR_BUFFER, "a buffer is attached already");
    buffer.at = at;
    buffer.size = size;
    buffer.is_attached = true;
    return MPI_SUCCESS;
}

/* Without a buffer it is as if one of no bytes were there (3.6). */
int MPI_Buffer_detach(void *buffer_addr, int *size) {
    NOTE_CALLER();
    static const char call[] = "MPI_Buffer_detach";
    check_running(call);
    int class = check_result(MPI_COMM_WORLD, call, buffer_addr, "buffer_addr");
    if (class == MPI_SUCCESS) class = check_result(MPI_COMM_WORLD, call, size, "size");
    if (class != MPI_SUCCESS) return class;
    buffer.is_detached_now = true;
    while (buffer.first != NULL) await_first();
    *(void **)buffer_addr = buffer.at;
    *size = buffer.size;
    buffer.at = NULL;
    buffer.size = 0;
    buffer.is_attached = buffer.is_detached_now = false;
    return MPI_SUCCESS;
}

void close_buffer(void) {
    while (buffer.first != NULL) take_out(&buffer.first);
    buffer.at = NULL;
    buffer.size = 0;
    buffer.is_attached = false;
}
