/* A process's place in its job: see place.h. */
#include "place.h"

#include <stddef.h>
#include <string.h>

/* What is told of a place: its name as a variable and as a word, and up to which number it goes. */
static const struct {
    const char *variable, *word;
    uint64_t least, most;
} fields[] = {
    {"KOMBAZILY_RANK", "--rank", 0, 1023},        {"KOMBAZILY_SIZE", "--size", 1, 1024},
    {"KOMBAZILY_INCARNATION", "--inc", 0, 65535}, {"KOMBAZILY_JOB", "--job", 0, UINT64_MAX},
    {"KOMBAZILY_PORT", "--port", 1, 65535},       {"KOMBAZILY_PATIENCE", "--patience", 1, 3600000},
};
enum { RANK, SIZE, INCARNATION, JOB, PORT, PATIENCE, FIELDS };

bool read_number(const char *text, uint64_t most, uint64_t *number) {
    uint64_t sum = 0;
    if (*text == '\0') return false;
    for (; *text != '\0'; text++) {
        if (*text < '0' || *text > '9') return false;
        uint64_t digit = (uint64_t)(*text - '0');
        if (sum > (UINT64_MAX - digit) / 10) return false;
        sum = 10 * sum + digit;
    }
    *number = sum;
    return sum <= most;
}

/* Reads one field: whether it is a number that may stand there. */
static bool read_field(int field, const char *text, uint64_t values[FIELDS]) {
    return read_number(text, fields[field].most, &values[field]) && values[field] >= fields[field].least;
}

/* The place of these numbers: they fit together, or the fault is named. */
static enum place_source settle(const uint64_t values[FIELDS], struct place *place, const char **fault) {
    *place =
        (struct place){values[RANK], values[SIZE], values[INCARNATION], values[JOB], values[PORT], values[PATIENCE]};
    *fault = NULL;
    if (place->rank >= place->size) *fault = "the rank isn't below the size";
    if (place->port + place->size - 1 > 65535) *fault = "the ports end above 65535";
    return *fault == NULL ? PLACE_TOLD : PLACE_FAULTY;
}

enum place_source place_in_environment(variable_reader *read, struct place *place, const char **fault) {
    uint64_t values[FIELDS] = {0};
    int found = 0;
    for (int field = 0; field < FIELDS; field++) {
        const char *text = read(fields[field].variable);
        if (text == NULL) continue;
        if (field != PATIENCE) found++;
        *fault = fields[field].variable;
        if (!read_field(field, text, values)) return PLACE_FAULTY;
    }
    if (found == 0) return PLACE_NONE;
    *fault = "some of KOMBAZILY_RANK, _SIZE, _INCARNATION, _JOB and _PORT lack";
    if (found < PATIENCE) return PLACE_FAULTY;
    return settle(values, place, fault);
}

enum place_source place_in_words(int count, char *const words[], struct place *place, int *taken, const char **fault) {
    uint64_t values[FIELDS] = {0};
    *taken = 0;
    int field = 0;
    for (int at = 1; field < FIELDS && at + 1 < count; field++, at += 2) {
        if (strcmp(words[at], fields[field].word) != 0) break;
        *fault = fields[field].word;
        if (!read_field(field, words[at + 1], values)) return field == RANK ? PLACE_NONE : PLACE_FAULTY;
    }
    /* A program may have a word --rank of its own: without the others behind it it stays. */
    if (field < PATIENCE) return PLACE_NONE;
    *taken = 2 * field;
    *fault = "--port lies below the rank";
    if (values[PORT] <= values[RANK]) return PLACE_FAULTY;
    values[PORT] -= values[RANK];
    return settle(values, place, fault);
}
