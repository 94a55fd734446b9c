/* A process's place in its job, as the launcher tells it: pure functions of words and of the environment. */
#ifndef KOMBAZILY_PLACE_H
#define KOMBAZILY_PLACE_H

#include <stdbool.h>
#include <stdint.h>

/* A place. Port is that of rank 0. */
struct place {
    uint64_t rank, size, incarnation, job, port, patience;
};

/* Where a place came from. */
enum place_source {
    PLACE_NONE,  /* nowhere: a job of this one process */
    PLACE_TOLD,  /* it was told */
    PLACE_FAULTY /* it was told, and is wrong: `fault` says which word */
};

/* A variable of the environment, or NULL: as getenv. */
typedef char *variable_reader(const char *name);

/* The place in the environment: KOMBAZILY_RANK, _SIZE, _INCARNATION, _JOB, _PORT (of rank 0), and _PATIENCE, which may
 * lack. All the others are there or none. */
enum place_source place_in_environment(variable_reader *read, struct place *place, const char **fault);

/* The place in the first words of a program: `--rank R --size N --inc I --job J --port P [--patience MS]`, the port the
 * rank's own. `*taken` is how many words of the list these are. Other words there are the program's own. */
enum place_source place_in_words(int count, char *const words[], struct place *place, int *taken, const char **fault);

/* Decimal digits alone, as the launcher writes them, of a number up to `most`: whether the text is one. */
bool read_number(const char *text, uint64_t most, uint64_t *number);

#endif
