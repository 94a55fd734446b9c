/* How the members of a group learn of its world: see invitations.h. */
#include "invitations.h"

#include "errors.h"
#include "internal.h"
#include "plan_runs.h"
#include "wait_lines.h"
#include "worlds.h"

#include <stdlib.h>
#include <string.h>

/* A message's tag: the communicator's number, a kind that no plan has, and the lowest bits of the call's tag. What has
 * come is kept until the call that it is for asks: one that has the same lowest bits may come first. Those of calls
 * with the same mark are opened in the order in which they came. */
enum { COMM_SHIFT = 19, INVITATIONS = 14 << 15, TAG_MASK = (1 << 15) - 1 };

struct letter {
    uint32_t place; /* of the communicator */
    int member, tag;
    struct invitation it;
    struct letter *next;
};

static struct letter *letters;

/* Puts one behind the others. */
static void put_letter(struct letter *made) {
    struct letter **end = &letters;
    while (*end != NULL) end = &(*end)->next;
    *end = made;
}

uint64_t mark_of(int tag, const uint16_t *list, int count) {
    uint64_t sum = UINT64_C(0xcbf29ce484222325) ^ (uint32_t)tag;
    for (int at = 0; at < count; at++) sum = (sum * UINT64_C(0x100000001b3)) ^ list[at];
    return sum;
}

/* ---- messages ---- */

static struct engine_call message_of(enum engine_call_kind kind, const struct communicator *comm, int member, int tag) {
    return (struct engine_call){.kind = kind,
                                .communicator = comm->world->base,
                                .peer = plan_rank(comm, member),
                                .tag = (int32_t)(comm->number << COMM_SHIFT | INVITATIONS) | (tag & TAG_MASK),
                                .basic = ENGINE_BYTE};
}

/* Waits for the end of a send or a receive. */
static void await(const struct engine_request *begun, struct engine_answer *answer) {
    const struct engine_call test = {.kind = ENGINE_TEST, .request = *begun};
    progress_out();
    for (;;) {
        ask_plans(&test, NULL, 0, answer);
        if (answer->kind != ENGINE_PENDING) return;
        progress_wait();
    }
}

uint32_t begin_invitation(const struct communicator *comm, int member, int tag, const struct invitation *it,
                          struct engine_request *begun) {
    const struct engine_call send = message_of(ENGINE_ISEND, comm, member, tag);
    struct engine_answer answer;
    ask_plans(&send, it, offsetof(struct invitation, list) + it->count * sizeof *it->list, &answer);
    *begun = answer.request;
    return answer.kind == ENGINE_STARTED ? 0 : answer.number;
}

uint32_t end_invitation(const struct engine_request *begun) {
    struct engine_answer answer;
    await(begun, &answer);
    return answer.number;
}

/* Takes one in, if it has come: whether it has, or a number says why it can't be had. */
static bool take_letter(const struct communicator *comm, int member, int tag, uint32_t *number) {
    struct engine_call call = message_of(ENGINE_IPROBE, comm, member, tag);
    struct engine_answer answer;
    ask_plans(&call, NULL, 0, &answer);
    if (answer.kind != ENGINE_PROBED) return false;
    struct letter *made = calloc(1, sizeof *made);
    *number = made == NULL ? NUMBER_NO_MEMORY : 0;
    if (made == NULL) return true;
    call.kind = ENGINE_IRECV;
    call.count = sizeof made->it;
    ask_plans(&call, NULL, 0, &answer);
    if (answer.kind == ENGINE_STARTED) {
        const struct engine_request begun = answer.request;
        await(&begun, &answer);
    }
    *number = answer.number;
    take_from_plans((uint8_t *)&made->it, answer.bytes < sizeof made->it ? answer.bytes : sizeof made->it);
    made->place = comm->place;
    made->member = member;
    made->tag = tag & TAG_MASK;
    put_letter(made);
    note_news();
    return true;
}

/* Takes the one out that is for a call: whether it is there. */
static bool open_letter(const struct communicator *comm, int member, int tag, uint64_t mark, struct invitation *into) {
    for (struct letter **at = &letters; *at != NULL; at = &(*at)->next) {
        struct letter *it = *at;
        if (it->place != comm->place || it->member != member || it->tag != (tag & TAG_MASK) || it->it.mark != mark)
            continue;
        *into = it->it;
        *at = it->next;
        free(it);
        return true;
    }
    return false;
}

uint32_t hear_invitation(struct communicator *comm, int member, int tag, uint64_t mark, struct invitation *into) {
    uint32_t number = 0;
    progress();
    begin_wait(&(struct wait){.kind = WAIT_MEMBER, .comm = comm->handle, .rank = member});
    while (number == 0 && !open_letter(comm, member, tag, mark, into))
        if (!take_letter(comm, member, tag, &number)) progress_wait();
    end_wait();
    return number;
}

void close_invitations(void) {
    while (letters != NULL) {
        struct letter *it = letters;
        letters = it->next;
        free(it);
    }
}

/* ---- communicators ---- */

uint32_t place_in_group(struct communicator *made, uint64_t number, uint16_t *members, int size,
                        const struct communicator *parent) {
    if (number == 0) free(members);
    struct world *world = number == 0 ? NULL : open_world(number, members, size);
    if (world == NULL) return number == 0 ? NUMBER_LIMIT : NUMBER_NO_MEMORY;
    place_communicator(made, world->base, parent);
    release_world(world);
    return 0;
}

uint32_t open_group(uint64_t number, uint16_t *members, int size, const struct communicator *parent, MPI_Comm *made) {
    struct communicator *own = new_communicator(made);
    if (own == NULL) {
        free(members);
        *made = MPI_COMM_NULL;
        return NUMBER_NO_MEMORY;
    }
    uint32_t refusal = place_in_group(own, number, members, size, parent);
    if (refusal != 0) {
        drop_communicator(*made);
        *made = MPI_COMM_NULL;
    }
    return refusal;
}
