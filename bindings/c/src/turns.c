/* Turns of collectives where threads speak MPI at the same time: see turns.h. */
#include "turns.h"

#include "internal.h"
#include "plan_runs.h"
#include "wait_lines.h"
#include "worlds.h"

/* What the messages say, by their tags: that a member is there; that all are, and those before the receiver have kept
 * their engines; that all have. A tag has the communicator's number, and then a kind that no plan has. */
enum { TAG_THERE, TAG_KEEP, TAG_GO };
enum { COMM_SHIFT = 19, TURNS = 15 << 15 };

/* Whether a thread keeps the engine for its collective, and whether this one does; how many turns it is in, one within
 * another. */
static bool is_kept;
static _Thread_local bool keeps;
static _Thread_local int depth;

/* ---- messages ---- */

/* Begins a send or a receive of no data, and waits for its end. */
static uint32_t carry_out(enum engine_call_kind kind, const struct communicator *comm, int member, int tag) {
    struct engine_call call = {.kind = kind,
                               .communicator = comm->world->base,
                               .peer = plan_rank(comm, member),
                               .tag = (int32_t)(comm->number << COMM_SHIFT | TURNS) + tag,
                               .basic = ENGINE_BYTE};
    struct engine_answer answer;
    ask_plans(&call, NULL, 0, &answer);
    if (answer.kind != ENGINE_STARTED) return answer.number;
    progress_out();
    call = (struct engine_call){.kind = ENGINE_TEST, .request = answer.request};
    for (;;) {
        ask_plans(&call, NULL, 0, &answer);
        if (answer.kind != ENGINE_PENDING) return answer.number;
        progress_wait();
    }
}

static uint32_t tell(const struct communicator *comm, int member, int tag) {
    return carry_out(ENGINE_ISEND, comm, member, tag);
}

static uint32_t hear(const struct communicator *comm, int member, int tag) {
    return carry_out(ENGINE_IRECV, comm, member, tag);
}

/* ---- the order ---- */

/* Of the members whose ranks in MPI_COMM_WORLD lie above (or below) this one, the one that lies next to it; -1: none.
 */
static int neighbour(const struct communicator *comm, int rank, bool is_above) {
    int found = -1;
    for (int member = 0; member < comm->all_size; member++) {
        const int own = world_rank(comm, member), best = found < 0 ? 0 : world_rank(comm, found);
        if (is_above ? own <= rank : own >= rank) continue;
        if (found < 0 || (is_above ? own < best : own > best)) found = member;
    }
    return found;
}

static int first_member(const struct communicator *comm) { return neighbour(comm, -1, true); }
static int last_member(const struct communicator *comm) { return neighbour(comm, process.size, false); }

/* ---- turns ---- */

/* All members are there. */
static uint32_t come_together(const struct communicator *comm, int first) {
    if (comm->all_rank != first) return tell(comm, first, TAG_THERE);
    uint32_t number = 0;
    for (int member = 0; member < comm->all_size && number == 0; member++)
        if (member != comm->all_rank) number = hear(comm, member, TAG_THERE);
    return number;
}

/* One behind the other keeps its engine; the last one says that all have. */
static uint32_t keep_in_order(const struct communicator *comm) {
    const int before = neighbour(comm, process.rank, false), behind = neighbour(comm, process.rank, true);
    uint32_t number = before < 0 ? 0 : hear(comm, before, TAG_KEEP);
    while (is_kept) progress_wait();
    is_kept = keeps = true;
    if (number != 0) return number;
    if (behind >= 0) {
        number = tell(comm, behind, TAG_KEEP);
        return number != 0 ? number : hear(comm, last_member(comm), TAG_GO);
    }
    for (int member = 0; member < comm->all_size && number == 0; member++)
        if (member != comm->all_rank) number = tell(comm, member, TAG_GO);
    return number;
}

uint32_t begin_turn(const struct communicator *comm, int root) {
    if (depth++ > 0 || !process.is_threaded || comm->all_size == 1) return 0;
    begin_wait(&(struct wait){.kind = WAIT_COLLECTIVE, .place = comm->place, .root = root});
    uint32_t number = come_together(comm, first_member(comm));
    if (number == 0) number = keep_in_order(comm);
    end_wait();
    return number;
}

void end_turn(void) {
    if (--depth > 0 || !keeps) return;
    is_kept = keeps = false;
    note_news();
}
