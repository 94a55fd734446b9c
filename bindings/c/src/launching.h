/* By which way this process has its place in a job, and what its launcher says: what the static library
 * `libc_exports.a` exports for that. Decided and proved there (the crate launcher_words); descriptors stay in C.
 *
 * A slice's bytes are there, and its pointer isn't null, even where its length is 0. That these records are the
 * library's is told by engine_records.c. */
#ifndef KOMBAZILY_LAUNCHING_H
#define KOMBAZILY_LAUNCHING_H

#include <stdbool.h>
#include <stddef.h>
#include <stdint.h>

/* By which way a process has its place. Of what a way doesn't tell the fields are 0. */
struct launch_way {
    uint32_t kind;       /* a launch_way_kind */
    uint32_t fault;      /* of WAY_REFUSED: a launch_fault */
    uint32_t descriptor; /* the rest is of WAY_LAUNCHER: over which descriptor it speaks */
    uint32_t wire;       /* WIRE_LINES or WIRE_RECORDS */
    uint32_t towards;    /* to which address the ranks' network leads; 10.0.0.1 is 0x0a000001 */
    uint32_t patience;   /* milliseconds, or 0 */
    uint16_t rank, size;
    uint16_t first_port, last_port; /* of which ports one is taken; 0: any may be taken */
};

enum launch_way_kind {
    WAY_WORDS = 1, /* by the words in front of its own */
    WAY_VARIABLES, /* by KOMBAZILY_RANK, KOMBAZILY_SIZE, .. */
    WAY_LAUNCHER,  /* by a launcher that speaks PMI */
    WAY_ALONE,     /* it is a job of one rank */
    WAY_REFUSED    /* it has none */
};

/* Why a process has no place. */
enum launch_fault {
    FAULT_DESCRIPTOR = 1, /* PMI_FD is absent or tells no descriptor */
    FAULT_SIZE,           /* PMI_SIZE is absent or no number from 1 to 1,024 */
    FAULT_RANK,           /* PMI_RANK is absent or no number up to 1,023 */
    FAULT_ORDER,          /* the rank isn't below the size */
    FAULT_WIRE,           /* KOMBAZILY_PMI is neither 1 nor 2 */
    FAULT_PORTS,          /* KOMBAZILY_PORTS is no range of ports */
    FAULT_NETWORK,        /* KOMBAZILY_TOWARDS is no address */
    FAULT_PATIENCE,       /* KOMBAZILY_PATIENCE is no number from 1 to 3,600,000 */
    FAULT_SLURM,          /* SLURM started several tasks, and speaks no PMI to them */
    FAULT_OPENMPI,        /* Open MPI's launcher started several processes */
    FAULT_PMIX            /* a launcher that speaks PMIx alone started the process */
};

/* How a launcher speaks: PMI-1, in lines of words with blanks between them; PMI-2, in records of words with `;`. */
enum { WIRE_LINES = 1, WIRE_RECORDS };

/* What a line is where an answer is awaited. */
enum { ANSWER_GIVEN, ANSWER_FAILED, ANSWER_OTHER };

/* Where a rank is. */
struct told_place {
    uint64_t job; /* the job's number, or 0 */
    uint32_t address;
    uint16_t port;
    bool has_job; /* rank 0 tells the job's number, and no other rank does */
};

/* The way, by whether the process's words tell its place and by its variables: `NAME=value` each, with a zero behind
 * each. */
void kombazily_way(bool has_words, const uint8_t *environment, size_t len, struct launch_way *way);

/* How many bytes of data a frame of the job has at most (1,024 to 61,440, a multiple of 8), by the text of
 * KOMBAZILY_FRAME, if it is told, and the addresses of the job's ranks; 0 where the text is no such number. */
uint32_t kombazily_frame(bool is_told, const uint8_t *text, size_t len, const uint32_t *addresses, size_t count);

/* How many bytes a rank is told that its socket keeps (engine_place), where the system says `kept`, or 0. Of ranks at
 * several addresses it is that. On one machine it is 0 where the socket keeps all that the others may have on its way,
 * and else as much as that is: each of the others has 64 frames at most. */
uint32_t kombazily_room(bool is_apart, uint32_t kept, uint32_t frame, uint16_t size);

/* Copies the value of a key in a line or a record out: how many bytes it has; 0 where there is none, it is empty or
 * there is no room for it. */
size_t kombazily_word(const uint8_t *line, size_t len, const uint8_t *key, size_t key_len, uint32_t wire, uint8_t *into,
                      size_t room);

/* What a line or a record is where this command is to be answered. */
uint32_t kombazily_answer(const uint8_t *line, size_t len, const uint8_t *command, size_t command_len, uint32_t wire);

/* Whether a launcher's first line says that it speaks this way. */
bool kombazily_speaks(const uint8_t *line, size_t len, uint32_t wire);

/* How many bytes follow in a record that begins so; 0 where none does. */
uint64_t kombazily_record_length(const uint8_t *front, size_t len);

/* The text of a rank's place, without a zero: how many bytes it has; 0 where there is no room or no memory. */
size_t kombazily_place_text(const struct told_place *place, uint8_t *into, size_t room);

/* Reads the text of the place of this rank: whether it is just what is written of one that this rank may tell. */
bool kombazily_read_place(const uint8_t *text, size_t len, uint16_t rank, struct told_place *place);

#endif
