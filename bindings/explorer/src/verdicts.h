/* What the explorer's static library decides of what is told (the crate c_explorer): which findings there are, in which
 * order they are told, how much runs weigh, and the explorer's status. Words and places are the caller's. */
#ifndef EXPLORER_VERDICTS_H
#define EXPLORER_VERDICTS_H

#include <stdbool.h>
#include <stddef.h>
#include <stdint.h>

/* A finding of a run, by its number; 0 is none. */
enum finding_kind {
    REQUEST_LEFT = 1,  /* a request that no call ended */
    COMMUNICATOR_LEFT, /* a communicator, and a type or a persistent request, that wasn't freed */
    TYPES_LEFT,
    MESSAGES_TAKEN, /* messages that were taken out and not received */
    NEVER_RECEIVED, /* a message */
    NEEDS_BUFFER,   /* nobody goes on unless a send is buffered */
    WAITS,          /* nobody can go on, and a rank waits in a call, asks for ever, or is in MPI_Finalize */
    ASKS_FOR_EVER,
    IN_FINALIZE,
    CYCLE,   /* each rank of a row waits for the next one, and the last one for the first */
    DIFFERS, /* members enter a collective differently, or some member never entered it */
    NEVER_ENTERED,
    CALL_FAILED, /* an error that ends the program, or one that a call returned */
    ERROR_RETURNED,
    ABORTED,
    COMPUTES, /* a rank makes no call for too long */
    KILLED,   /* a rank's process was killed, ended without MPI_Finalize, or with another status than 0 */
    NO_FINALIZE,
    OTHER_STATUS,
    RECORD_ENDS,    /* what was recorded of a rank is over */
    CANCEL_RACES,   /* whether a message or the cancel of its receive comes first isn't tried both ways */
    BUFFER_MISUSED, /* a buffer is used that an operation has */
    STOOD_THERE,    /* a rank, when the time was over */
    CANT_EXPLORE,   /* a rank made a call that can't be explored */
    READY_EARLY     /* a ready send may come before its receive */
};

/* How a run ends, by its number. */
enum ending { GOES_ON, ENDED, DEADLOCK, ERROR, CUT, SILENT, LATE, OPEN_END, UNEXPLORED };

/* 3: the program is wrong; 2: something is left over; 1: it is worth knowing; 0: no such finding. */
uint32_t kombazily_finding_weight(uint32_t finding);
/* Whether its rank is known to have come no further by it; whether it ends the job, where errors are to be returned or
 * not. */
bool kombazily_finding_fails(uint32_t finding);
bool kombazily_finding_ends_job(uint32_t finding, bool goes_on);
/* Whether one finding is told before another, each by its rank and the how-many-th it is. */
bool kombazily_finding_is_before(uint32_t finding, uint32_t rank, uint32_t number, uint32_t other_finding,
                                 uint32_t other_rank, uint32_t other_number);

/* What is told at this place of what a rank left behind, or 0: each request, communicator and type, and messages. */
uint32_t kombazily_leak_at(uint32_t requests, uint32_t communicators, uint32_t types, uint32_t messages,
                           uint64_t place);
/* What is told of a rank where nobody can go on, or 0; `ask` is an explorer_ask_kind. */
uint32_t kombazily_finding_of_wait(bool is_blocked, bool has_finalized, uint32_t ask, bool is_waiting);
/* How many of so many sends that wait are told, where nobody goes on unless one is buffered. */
uint32_t kombazily_sends_told(uint32_t waiting, bool only_buffers, bool was_told);
/* Whether it is told that some member never entered a collective of which this was told or not. */
bool kombazily_is_absence_told(const bool *has_failed, size_t ranks, bool is_absent, bool was_told);

/* How a run has ended whose ranks have ended or not; GOES_ON, it hasn't. */
uint32_t kombazily_ending_of_ranks(bool is_unexplored, bool is_aborted, const bool *has_ended, size_t ranks);
/* Whether it is a deadlock where no rank can go on and there is no move; else those that only ask are told no, which
 * they were in so many rounds. */
bool kombazily_is_stuck(const bool *asks, size_t ranks, uint32_t rounds);
/* What is told of how a rank's process ended, of its own or not, by a signal or a status, in a run that ends so as far
 * as is known; or 0. */
uint32_t kombazily_finding_of_end(uint32_t ending, bool is_own, bool is_killed, uint32_t code, bool has_finalized,
                                  bool has_failed, bool is_played);
/* How a run ends of which this is told besides; and where the record of some rank was over. */
uint32_t kombazily_ending_behind(uint32_t ending, uint32_t finding);
uint32_t kombazily_with_open_end(uint32_t ending, bool has_open_end, bool has_cycle);
/* Whether it is told what nobody received, and who entered no collective. */
bool kombazily_is_rest_told(uint32_t ending);
/* Whether what ran is a program of MPI, by whether a rank called MPI_Init and the signals by which ranks ended. */
bool kombazily_is_program(bool has_begun, const uint32_t *signals, size_t ranks);

/* How much a run weighs, by its findings; a pass, by what its runs weigh. */
uint32_t kombazily_weight_of_run(uint32_t ending, const uint32_t *findings, size_t count);
uint32_t kombazily_weight_of_pass(const uint32_t *runs, size_t count, bool is_astray);
/* Whether a result is told before another, by their weights and first runs. */
bool kombazily_result_is_before(uint32_t weight, uint64_t run, uint32_t other_weight, uint64_t other_run);
/* The explorer's status, by what its passes weigh and whether a call couldn't be explored; whether it is told that
 * there is another pass. */
uint32_t kombazily_status_of_check(const uint32_t *passes, size_t count, bool is_unexplored);
bool kombazily_is_hint_told(const uint32_t *passes, size_t count, bool is_unexplored, bool was_asked);
/* Whether a run is told of that was cut off when the time was over, where so many came to their ends, by the calls that
 * it made and the most that one of those made. */
bool kombazily_is_cut_told(uint64_t ended, uint64_t calls, uint64_t most_calls);

#endif
