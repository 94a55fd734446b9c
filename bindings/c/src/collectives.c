/* Barrier, broadcast, gather and scatter (MPI 3.1, 5.3 to 5.6). */
#include "errors.h"
#include "explored.h"
#include "intercollectives.h"
#include "internal.h"
#include "rows.h"

#include <stdlib.h>

/* Items of a program that come or go: so many of a type at an address. */
struct items {
    void *at;
    size_t count;
    const struct datatype *type;
};

static size_t length_of(struct items items) { return data_size(&items.type->layout, items.count); }

/* The row that items' data come in: the items themselves where they are a row, else a room. */
struct arrival {
    struct items items;
    unsigned char *row;
    void *room;
};

/* False where there is no memory. */
static bool open_arrival(struct arrival *arrival, struct items items) {
    *arrival = (struct arrival){.items = items};
    if (length_of(items) == 0) return true;
    if (is_row(&items.type->layout, items.count)) arrival->row = row_of(&items.type->layout, items.at);
    else arrival->row = arrival->room = malloc(length_of(items));
    return arrival->row != NULL;
}
static void close_arrival(struct arrival *arrival, bool has_come) {
    if (has_come && arrival->room != NULL)
        unpack(&arrival->items.type->layout, arrival->room, length_of(arrival->items), arrival->items.at);
    free(arrival->room);
}

/* Tells of a number of the engine, if it is one. */
static int ended(MPI_Comm comm, const char *call, uint32_t number) {
    return number == 0 ? MPI_SUCCESS : raise_number(comm, call, number);
}

/* Checks items, and gives them. */
static int check_items(MPI_Comm comm, const char *call, const void *at, int count, MPI_Datatype datatype,
                       struct items *found) {
    struct datatype *type;
    int class = check_count(comm, call, count);
    if (class == MPI_SUCCESS) class = check_type(comm, call, datatype, &type);
    if (class == MPI_SUCCESS) class = check_buffer(comm, call, at, count, type);
    if (class == MPI_SUCCESS) *found = (struct items){(void *)at, (size_t)count, type};
    return class;
}

/* What all calls but the barrier check first. */
static int check_rooted(MPI_Comm comm, const char *call, int root, struct communicator **own) {
    check_running(call);
    int class = check_comm(comm, call, own);
    return class == MPI_SUCCESS ? check_root(comm, call, *own, root) : class;
}

/* Checks that what the root sends to itself is what it receives: the same data of the same basic type. */
static int check_own_block(MPI_Comm comm, const char *call, struct items sent, struct items received) {
    size_t out = length_of(sent), in = length_of(received);
    if (out != in)
        return raise_on(comm, call, MPI_ERR_COUNT, "the root sends itself %zu bytes and receives %zu", out, in);
    if (out != 0 && sent.type->basic != received.type->basic)
        return raise_on(comm, call, MPI_ERR_TYPE, "the root sends itself another type than it receives");
    return MPI_SUCCESS;
}

/* Checks that what the root sends is none of what it receives (2.3): its own block stays only by MPI_IN_PLACE. */
static int check_apart(MPI_Comm comm, const char *call, const void *sendbuf, const void *recvbuf, struct items items) {
    if (sendbuf != recvbuf || length_of(items) == 0) return MPI_SUCCESS;
    return raise_on(comm, call, MPI_ERR_BUFFER, "sendbuf is recvbuf: one of them has to be MPI_IN_PLACE");
}

int MPI_Barrier(MPI_Comm comm) {
    NOTE_CALLER();
    struct communicator *own;
    if (is_of_inter(comm)) return inter_barrier(BLOCKING("MPI_Barrier", comm));
    check_running("MPI_Barrier");
    int class = check_comm(comm, "MPI_Barrier", &own);
    if (class != MPI_SUCCESS) return class;
    struct engine_answer answer;
    struct engine_call entry = {.kind = ENGINE_BARRIER, .communicator = own->place};
    return ended(comm, "MPI_Barrier", enter_engine(&entry, NULL, 0, &answer));
}

int MPI_Bcast(void *buffer, int count, MPI_Datatype datatype, int root, MPI_Comm comm) {
    NOTE_CALLER();
    const char *call = "MPI_Bcast";
    struct communicator *own;
    struct items items;
    struct arrival arrival;
    if (is_of_inter(comm) || leaves_early)
        return broadcast_by_plan(BLOCKING(call, comm), root, buffer, count, datatype);
    int class = check_rooted(comm, call, root, &own);
    if (class == MPI_SUCCESS) class = check_items(comm, call, buffer, count, datatype, &items);
    if (class != MPI_SUCCESS) return class;
    if (!open_arrival(&arrival, items)) return raise_on(comm, call, MPI_ERR_NO_MEM, "no memory for %d items", count);
    bool is_root = own->rank == root;
    size_t length = length_of(items);
    if (is_root && arrival.room != NULL) pack(&items.type->layout, buffer, items.count, arrival.room);
    uint32_t number = broadcast_row(collective_of(own, root, items.type, length), arrival.row, length);
    close_arrival(&arrival, number == 0 && !is_root);
    return ended(comm, call, number);
}

/* Gathers these items of each member at the root, where they come to `all`. */
static int gather_items(MPI_Comm comm, const struct communicator *own, int root, struct items sent, struct items all) {
    const char *call = "MPI_Gather";
    bool is_root = own->rank == root;
    size_t length = length_of(sent);
    void *room;
    struct arrival arrival = {.row = NULL};
    const void *row = data_row(&sent.type->layout, sent.at, sent.count, &room);
    if (row == NULL || (is_root && !open_arrival(&arrival, all))) {
        free(room);
        return raise_on(comm, call, MPI_ERR_NO_MEM, "no memory for the members' data");
    }
    uint32_t number = gather_rows(collective_of(own, root, sent.type, length), row, length, arrival.row);
    free(room);
    if (is_root) close_arrival(&arrival, number == 0);
    return ended(comm, call, number);
}

int MPI_Gather(const void *sendbuf, int sendcount, MPI_Datatype sendtype, void *recvbuf, int recvcount,
               MPI_Datatype recvtype, int root, MPI_Comm comm) {
    NOTE_CALLER();
    const char *call = "MPI_Gather";
    struct communicator *own;
    struct items sent, received;
    if (is_of_inter(comm) || leaves_early)
        return gather_by_plan(BLOCKING(call, comm), root,
                              &(struct blocks){.at = sendbuf, .count = sendcount, .type = sendtype},
                              &(struct blocks){.at = recvbuf, .count = recvcount, .type = recvtype});
    int class = check_rooted(comm, call, root, &own);
    if (class != MPI_SUCCESS) return class;
    if (own->rank != root) {
        if (sendbuf == MPI_IN_PLACE) return raise_on(comm, call, MPI_ERR_BUFFER, "MPI_IN_PLACE is the root's alone");
        class = check_items(comm, call, sendbuf, sendcount, sendtype, &sent);
        return class == MPI_SUCCESS ? gather_items(comm, own, root, sent, (struct items){0}) : class;
    }
    class = check_items(comm, call, recvbuf, recvcount, recvtype, &received);
    if (class != MPI_SUCCESS) return class;
    struct items block = received;
    block.at = item_at(&block.type->layout, recvbuf, (size_t)own->rank * block.count);
    if (sendbuf == MPI_IN_PLACE) sent = block;
    else class = check_items(comm, call, sendbuf, sendcount, sendtype, &sent);
    if (class == MPI_SUCCESS) class = check_own_block(comm, call, sent, received);
    if (class == MPI_SUCCESS) class = check_apart(comm, call, sendbuf, recvbuf, sent);
    if (class != MPI_SUCCESS) return class;
    received.count *= (size_t)own->size;
    return gather_items(comm, own, root, sent, received);
}

/* Scatters the root's items; those of this member come to `received`, unless they are to stay where they are. */
static int scatter_items(MPI_Comm comm, const struct communicator *own, int root, struct items all,
                         struct items received, bool stays) {
    const char *call = "MPI_Scatter";
    size_t length = length_of(received);
    void *room = NULL;
    struct arrival arrival = {.row = NULL};
    const void *row = NULL;
    if (own->rank == root) row = data_row(&all.type->layout, all.at, all.count, &room);
    if ((own->rank == root && row == NULL) || (!stays && !open_arrival(&arrival, received))) {
        free(room);
        return raise_on(comm, call, MPI_ERR_NO_MEM, "no memory for the members' data");
    }
    uint32_t number = scatter_rows(collective_of(own, root, received.type, length), row, length, arrival.row);
    free(room);
    close_arrival(&arrival, number == 0);
    return ended(comm, call, number);
}

int MPI_Scatter(const void *sendbuf, int sendcount, MPI_Datatype sendtype, void *recvbuf, int recvcount,
                MPI_Datatype recvtype, int root, MPI_Comm comm) {
    NOTE_CALLER();
    const char *call = "MPI_Scatter";
    struct communicator *own;
    struct items sent = {0}, received;
    bool stays = recvbuf == MPI_IN_PLACE;
    if (is_of_inter(comm) || leaves_early)
        return scatter_by_plan(BLOCKING(call, comm), root,
                               &(struct blocks){.at = sendbuf, .count = sendcount, .type = sendtype},
                               &(struct blocks){.at = recvbuf, .count = recvcount, .type = recvtype});
    int class = check_rooted(comm, call, root, &own);
    if (class != MPI_SUCCESS) return class;
    if (own->rank != root) {
        if (stays) return raise_on(comm, call, MPI_ERR_BUFFER, "MPI_IN_PLACE is the root's alone");
        class = check_items(comm, call, recvbuf, recvcount, recvtype, &received);
        return class == MPI_SUCCESS ? scatter_items(comm, own, root, sent, received, false) : class;
    }
    class = check_items(comm, call, sendbuf, sendcount, sendtype, &sent);
    if (class == MPI_SUCCESS && stays) received = sent;
    else if (class == MPI_SUCCESS) class = check_items(comm, call, recvbuf, recvcount, recvtype, &received);
    if (class == MPI_SUCCESS) class = check_own_block(comm, call, sent, received);
    if (class == MPI_SUCCESS) class = check_apart(comm, call, sendbuf, recvbuf, received);
    if (class != MPI_SUCCESS) return class;
    sent.count *= (size_t)own->size;
    return scatter_items(comm, own, root, sent, received, stays);
}
