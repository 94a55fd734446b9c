/* What engine.h and its like have to be so that C and the engine speak of the same bytes: records, numbers, functions.
 * It compiles where that is so. Made by tools/c_records of the sources of c_exports and of the crates below it. */
/* clang-format off */
#include "engine.h"
#include "engine_buffers.h"
#include "engine_grids.h"
#include "engine_groups.h"
#include "engine_plans.h"
#include "engine_sends.h"
#include "engine_types.h"
#include "launching.h"

#define RECORD(name, bytes, alignment)                                                                                 \
    _Static_assert(sizeof(struct name) == (bytes) && _Alignof(struct name) == (alignment), #name)
#define FIELD(name, field, place, bytes)                                                                               \
    _Static_assert(offsetof(struct name, field) == (place) && sizeof(((struct name *)0)->field) == (bytes),            \
                   #name ": " #field)
#define NUMBER(name, value) _Static_assert(name == (value), #name)

RECORD(engine_request, 16, 8);
FIELD(engine_request, key, 0, 8);
FIELD(engine_request, serial, 8, 8);

RECORD(engine_place, 32, 8);
FIELD(engine_place, job, 0, 8);
FIELD(engine_place, message_limit, 8, 8);
FIELD(engine_place, rank, 16, 2);
FIELD(engine_place, size, 18, 2);
FIELD(engine_place, incarnation, 20, 2);
FIELD(engine_place, is_near, 22, 1);
FIELD(engine_place, frame_limit, 24, 4);
FIELD(engine_place, room, 28, 4);

RECORD(engine_call, 64, 8);
FIELD(engine_call, kind, 0, 4);
FIELD(engine_call, communicator, 4, 4);
FIELD(engine_call, peer, 8, 4);
FIELD(engine_call, tag, 12, 4);
FIELD(engine_call, basic, 16, 4);
FIELD(engine_call, operation, 20, 4);
FIELD(engine_call, count, 24, 8);
FIELD(engine_call, request, 32, 16);
FIELD(engine_call, other, 48, 4);
FIELD(engine_call, colour, 52, 4);
FIELD(engine_call, order, 56, 4);
FIELD(engine_call, has_data, 60, 4);

RECORD(engine_answer, 72, 8);
FIELD(engine_answer, kind, 0, 4);
FIELD(engine_answer, number, 4, 4);
FIELD(engine_answer, outcome, 8, 4);
FIELD(engine_answer, basic, 12, 4);
FIELD(engine_answer, request, 16, 16);
FIELD(engine_answer, source, 32, 4);
FIELD(engine_answer, tag, 36, 4);
FIELD(engine_answer, count, 40, 8);
FIELD(engine_answer, bytes, 48, 8);
FIELD(engine_answer, fact, 56, 8);
FIELD(engine_answer, communicator, 64, 4);

RECORD(engine_outgoing, 24, 8);
FIELD(engine_outgoing, kept_until, 0, 8);
FIELD(engine_outgoing, each, 8, 4);
FIELD(engine_outgoing, count, 12, 4);
FIELD(engine_outgoing, target, 16, 2);

RECORD(engine_rank, 16, 8);
FIELD(engine_rank, at, 0, 8);
FIELD(engine_rank, is_held, 8, 1);

RECORD(launch_way, 32, 4);
FIELD(launch_way, kind, 0, 4);
FIELD(launch_way, fault, 4, 4);
FIELD(launch_way, descriptor, 8, 4);
FIELD(launch_way, wire, 12, 4);
FIELD(launch_way, towards, 16, 4);
FIELD(launch_way, patience, 20, 4);
FIELD(launch_way, rank, 24, 2);
FIELD(launch_way, size, 26, 2);
FIELD(launch_way, first_port, 28, 2);
FIELD(launch_way, last_port, 30, 2);

RECORD(told_place, 16, 8);
FIELD(told_place, job, 0, 8);
FIELD(told_place, address, 8, 4);
FIELD(told_place, port, 12, 2);
FIELD(told_place, has_job, 14, 1);

RECORD(plan_asked, 32, 8);
FIELD(plan_asked, kind, 0, 4);
FIELD(plan_asked, size, 4, 4);
FIELD(plan_asked, rank, 8, 4);
FIELD(plan_asked, root, 12, 4);
FIELD(plan_asked, regroups, 16, 4);
FIELD(plan_asked, bytes, 24, 8);

RECORD(plan_slot, 8, 4);
FIELD(plan_slot, kind, 0, 4);
FIELD(plan_slot, place, 4, 4);

RECORD(plan_step, 36, 4);
FIELD(plan_step, kind, 0, 4);
FIELD(plan_step, peer, 4, 4);
FIELD(plan_step, joined, 8, 4);
FIELD(plan_step, from, 12, 8);
FIELD(plan_step, high, 20, 8);
FIELD(plan_step, into, 28, 8);

RECORD(send_counts, 16, 8);
FIELD(send_counts, sent, 0, 8);
FIELD(send_counts, received, 8, 8);

RECORD(byte_run, 32, 8);
FIELD(byte_run, at, 0, 8);
FIELD(byte_run, length, 8, 8);
FIELD(byte_run, count, 16, 8);
FIELD(byte_run, stride, 24, 8);

RECORD(engine_estimate, 16, 8);
FIELD(engine_estimate, smoothed, 0, 8);
FIELD(engine_estimate, variation, 8, 8);

RECORD(engine_lateness, 24, 8);
FIELD(engine_lateness, estimate, 0, 16);
FIELD(engine_lateness, since, 16, 8);

RECORD(type_numbers, 80, 8);
FIELD(type_numbers, size, 0, 8);
FIELD(type_numbers, elements, 8, 8);
FIELD(type_numbers, true_lower, 16, 8);
FIELD(type_numbers, true_upper, 24, 8);
FIELD(type_numbers, lower_mark, 32, 8);
FIELD(type_numbers, upper_mark, 40, 8);
FIELD(type_numbers, lower, 48, 8);
FIELD(type_numbers, extent, 56, 8);
FIELD(type_numbers, alignment, 64, 4);
FIELD(type_numbers, kinds, 68, 4);
FIELD(type_numbers, kind, 72, 4);
FIELD(type_numbers, has_data, 76, 1);
FIELD(type_numbers, has_lower, 77, 1);
FIELD(type_numbers, has_upper, 78, 1);

RECORD(run, 40, 8);
FIELD(run, at, 0, 8);
FIELD(run, length, 8, 8);
FIELD(run, count, 16, 8);
FIELD(run, stride, 24, 8);
FIELD(run, body, 32, 8);

/* The kinds of calls. */
NUMBER(ENGINE_ISEND, 1);
NUMBER(ENGINE_ISSEND, 2);
NUMBER(ENGINE_IRECV, 3);
NUMBER(ENGINE_TEST, 4);
NUMBER(ENGINE_LOOK, 5);
NUMBER(ENGINE_CANCEL, 6);
NUMBER(ENGINE_IPROBE, 7);
NUMBER(ENGINE_IMPROBE, 8);
NUMBER(ENGINE_MRECV, 9);
NUMBER(ENGINE_FINISH, 10);
NUMBER(ENGINE_BARRIER, 11);
NUMBER(ENGINE_BCAST, 12);
NUMBER(ENGINE_GATHER, 13);
NUMBER(ENGINE_SCATTER, 14);
NUMBER(ENGINE_REDUCE, 15);
NUMBER(ENGINE_ALLREDUCE, 16);
NUMBER(ENGINE_DUP, 17);
NUMBER(ENGINE_SPLIT, 18);
NUMBER(ENGINE_RANK, 19);
NUMBER(ENGINE_SIZE, 20);
NUMBER(ENGINE_MEMBERS, 21);
NUMBER(ENGINE_COMPARE, 22);

/* The kinds of answers, and how operations end. */
NUMBER(ENGINE_REFUSED, 0);
NUMBER(ENGINE_STARTED, 1);
NUMBER(ENGINE_DONE, 2);
NUMBER(ENGINE_PENDING, 3);
NUMBER(ENGINE_ACCEPTED, 4);
NUMBER(ENGINE_BLOCKED, 5);
NUMBER(ENGINE_LEFT, 6);
NUMBER(ENGINE_FACT, 7);
NUMBER(ENGINE_PROBED, 8);
NUMBER(ENGINE_MATCHED, 9);
NUMBER(ENGINE_NOTHING, 10);
NUMBER(ENGINE_SENT, 1);
NUMBER(ENGINE_RECEIVED, 2);
NUMBER(ENGINE_FAILED, 3);
NUMBER(ENGINE_REPLACED, 4);
NUMBER(ENGINE_CANCELLED, 5);
NUMBER(ENGINE_EMPTY, 6);

/* Basic types. */
NUMBER(ENGINE_INT8, 1);
NUMBER(ENGINE_INT16, 2);
NUMBER(ENGINE_INT32, 3);
NUMBER(ENGINE_INT64, 4);
NUMBER(ENGINE_UINT8, 5);
NUMBER(ENGINE_UINT16, 6);
NUMBER(ENGINE_UINT32, 7);
NUMBER(ENGINE_UINT64, 8);
NUMBER(ENGINE_BYTE, 9);
NUMBER(ENGINE_FLOAT32, 10);
NUMBER(ENGINE_FLOAT64, 11);

/* Operations. */
NUMBER(ENGINE_MAX, 1);
NUMBER(ENGINE_MIN, 2);
NUMBER(ENGINE_SUM, 3);
NUMBER(ENGINE_PROD, 4);
NUMBER(ENGINE_LAND, 5);
NUMBER(ENGINE_LOR, 6);
NUMBER(ENGINE_LXOR, 7);
NUMBER(ENGINE_BAND, 8);
NUMBER(ENGINE_BOR, 9);
NUMBER(ENGINE_BXOR, 10);

/* How communicators compare. */
NUMBER(ENGINE_IDENT, 0);
NUMBER(ENGINE_CONGRUENT, 1);
NUMBER(ENGINE_SIMILAR, 2);
NUMBER(ENGINE_UNEQUAL, 3);

/* Refusals of the border's own. */
NUMBER(ENGINE_NOTHING_HELD, 81);
NUMBER(ENGINE_HELD_ALREADY, 82);

/* That of a call. */
NUMBER(ENGINE_NO_SUCH_CALL, 83);

/* That of a limit, and the greatest one. */
NUMBER(ENGINE_GREATEST_LIMIT, 2147483647);
NUMBER(ENGINE_OTHER_LIMIT, 84);

/* How long frames are. */
NUMBER(ENGINE_LEAST_FRAME, 1024);
NUMBER(ENGINE_GREATEST_FRAME, 61440);

/* Launchers: by which way a process has its place. */
NUMBER(WAY_WORDS, 1);
NUMBER(WAY_VARIABLES, 2);
NUMBER(WAY_ALONE, 4);

/* Why it has none. */
NUMBER(FAULT_DESCRIPTOR, 1);
NUMBER(FAULT_SIZE, 2);
NUMBER(FAULT_RANK, 3);
NUMBER(FAULT_ORDER, 4);
NUMBER(FAULT_WIRE, 5);
NUMBER(FAULT_PORTS, 6);
NUMBER(FAULT_NETWORK, 7);
NUMBER(FAULT_PATIENCE, 8);
NUMBER(FAULT_SLURM, 9);
NUMBER(FAULT_OPENMPI, 10);
NUMBER(FAULT_PMIX, 11);

/* What an answer is. */
NUMBER(ANSWER_GIVEN, 0);
NUMBER(ANSWER_FAILED, 1);
NUMBER(ANSWER_OTHER, 2);

/* How a launcher speaks. */
NUMBER(WIRE_LINES, 1);
NUMBER(WIRE_RECORDS, 2);

/* Collectives that go by plans. */
NUMBER(PLAN_ALLTOALL, 1);
NUMBER(PLAN_ALLGATHER, 2);
NUMBER(PLAN_REDUCE_SCATTER, 3);
NUMBER(PLAN_SCAN, 4);
NUMBER(PLAN_EXSCAN, 5);
NUMBER(PLAN_GATHER, 6);
NUMBER(PLAN_SCATTER, 7);
NUMBER(PLAN_BROADCAST, 8);
NUMBER(PLAN_REDUCE, 9);
NUMBER(PLAN_ALLREDUCE, 10);
NUMBER(PLAN_BARRIER, 11);

/* How standard sends go. */
NUMBER(COURSE_AT_ONCE, 0);
NUMBER(COURSE_ANNOUNCED, 1);
NUMBER(COURSE_SYNCHRONOUS, 2);

/* The functions. */
uint32_t kombazily_share_bytes(const struct byte_run *, size_t, const struct byte_run *, size_t);
uint32_t kombazily_new(struct engine_rank *, const struct engine_place *);
void kombazily_free(struct engine_rank *);
void kombazily_call(struct engine_rank *, const struct engine_call *, const uint8_t *, size_t, struct engine_answer *);
size_t kombazily_take(struct engine_rank *, uint64_t, uint8_t *, size_t);
uint32_t kombazily_datagram(struct engine_rank *, const uint8_t *, size_t);
uint32_t kombazily_tick(struct engine_rank *, uint64_t, bool);
void kombazily_learn(struct engine_rank *, uint16_t, const struct engine_estimate *);
void kombazily_learn_all(struct engine_rank *, const struct engine_estimate *);
void kombazily_learned(struct engine_rank *, uint16_t, struct engine_estimate *);
void kombazily_begin_lateness(uint32_t, uint32_t, uint64_t, struct engine_lateness *);
void kombazily_note_lateness(struct engine_lateness *, const struct engine_estimate *, uint64_t);
uint64_t kombazily_told_at_once(uint64_t, uint64_t);
size_t kombazily_next(struct engine_rank *, uint32_t, bool, struct engine_outgoing *, uint8_t *, size_t);
bool kombazily_is_idle(struct engine_rank *);
uint32_t kombazily_grid_places(const uint32_t *, size_t, uint32_t *);
uint32_t kombazily_grid_rank(const uint32_t *, size_t, const bool *, size_t, const int32_t *, size_t, uint32_t *);
uint32_t kombazily_grid_coordinates(const uint32_t *, size_t, uint32_t, uint32_t *, size_t);
uint32_t kombazily_grid_shift(const uint32_t *, size_t, const bool *, size_t, uint32_t, size_t, int32_t, uint32_t *);
uint32_t kombazily_grid_part(const uint32_t *, size_t, const bool *, size_t, uint32_t, uint32_t *, uint32_t *);
uint32_t kombazily_grid_balance(uint32_t, uint32_t *, size_t);
uint32_t kombazily_group_of_two(uint32_t, const uint16_t *, size_t, const uint16_t *, size_t, uint16_t *, size_t,
                                uint64_t *);
uint32_t kombazily_group_of_places(uint32_t, const uint16_t *, size_t, const uint16_t *, size_t, uint16_t *, size_t,
                                   uint64_t *);
void kombazily_way(bool, const uint8_t *, size_t, struct launch_way *);
uint32_t kombazily_frame(bool, const uint8_t *, size_t, const uint32_t *, size_t);
uint32_t kombazily_room(bool, uint32_t, uint32_t, uint16_t);
size_t kombazily_word(const uint8_t *, size_t, const uint8_t *, size_t, uint32_t, uint8_t *, size_t);
uint32_t kombazily_answer(const uint8_t *, size_t, const uint8_t *, size_t, uint32_t);
bool kombazily_speaks(const uint8_t *, size_t, uint32_t);
uint64_t kombazily_record_length(const uint8_t *, size_t);
size_t kombazily_place_text(const struct told_place *, uint8_t *, size_t);
bool kombazily_read_place(const uint8_t *, size_t, uint16_t, struct told_place *);
uint32_t kombazily_plan(const struct plan_asked *, struct plan_step *, size_t, uint64_t *);
uint32_t kombazily_fold(uint32_t, uint32_t, const uint8_t *, size_t, uint8_t *, size_t);
uint32_t kombazily_regroups(uint32_t, uint32_t);
bool kombazily_unasked_bound(bool, const uint8_t *, size_t, uint64_t *);
uint32_t kombazily_send_course(struct send_counts *, uint32_t, uint64_t, uint64_t);
void kombazily_was_received(struct send_counts *, uint64_t);
void kombazily_type_begin(struct type_numbers *);
uint32_t kombazily_type_block(struct type_numbers *, struct run *, size_t, size_t *, const struct type_numbers *,
                              const struct run *, size_t, uint64_t, int64_t, int64_t, uint64_t);
uint32_t kombazily_type_rows(struct type_numbers *, struct run *, size_t, size_t *, const struct type_numbers *,
                             const struct run *, size_t, uint64_t, int64_t, uint64_t, int64_t, int64_t);
uint32_t kombazily_type_resize(struct type_numbers *, int64_t, int64_t, int64_t);
uint32_t kombazily_type_end(struct type_numbers *);
void kombazily_type_copies(const struct run *, size_t, uint64_t, uint64_t, uint64_t, int64_t, struct run *);
uint32_t kombazily_type_share(uint64_t, uint64_t, uint64_t, uint64_t, uint64_t *, uint64_t *);
uint32_t kombazily_type_items(uint64_t, uint64_t, uint64_t *);
