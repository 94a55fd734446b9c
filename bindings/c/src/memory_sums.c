/* Sums of memory that may be gone: see memory_sums.h. */
#define _GNU_SOURCE
#include "memory_sums.h"

#include <errno.h>
#include <string.h>
#include <sys/uio.h>
#include <unistd.h>

enum { ROOM = 1 << 16, MOST_PARTS = 256, WORD = sizeof(uint64_t) };

/* An odd number: no two words give one product. */
static const uint64_t factor = UINT64_C(0x9e3779b97f4a7c15);

static uint64_t sum_word(uint64_t sum, uint64_t word) {
    sum = (sum ^ word) * factor;
    return sum << 29 | sum >> 35;
}

uint64_t sum_bytes(uint64_t sum, const unsigned char *bytes, size_t length) {
    uint64_t word;
    for (; length >= WORD; bytes += WORD, length -= WORD) {
        memcpy(&word, bytes, WORD);
        sum = sum_word(sum, word);
    }
    word = 0;
    if (length > 0) memcpy(&word, bytes, length);
    return length > 0 ? sum_word(sum, word) : sum;
}

/* What is read at once: parts of memory, into a room. A rank is in one call of MPI at a time. */
static struct {
    struct iovec parts[MOST_PARTS];
    size_t count, length;
    uint64_t sum;
    unsigned char room[ROOM];
} reading;

static enum memory read_parts(void) {
    const struct iovec room = {reading.room, reading.length};
    if (reading.length == 0) return MEMORY_SUMMED;
    const ssize_t came = process_vm_readv(getpid(), &room, 1, reading.parts, reading.count, 0);
    if (came < 0 && errno != EFAULT) return MEMORY_CLOSED;
    if (came != (ssize_t)reading.length) return MEMORY_GONE;
    reading.sum = sum_bytes(reading.sum, reading.room, reading.length);
    reading.count = reading.length = 0;
    return MEMORY_SUMMED;
}

/* Adds a row, in parts where it is long. */
static enum memory read_row(uint64_t at, uint64_t length) {
    while (length > 0) {
        size_t part = ROOM - reading.length < length ? ROOM - reading.length : (size_t)length;
        reading.parts[reading.count++] = (struct iovec){(void *)(uintptr_t)at, part};
        reading.length += part;
        at += part, length -= part;
        if (reading.count < MOST_PARTS && reading.length < ROOM) continue;
        enum memory found = read_parts();
        if (found != MEMORY_SUMMED) return found;
    }
    return MEMORY_SUMMED;
}

enum memory sum_memory(const struct byte_rows *rows, uint64_t *sum) {
    enum memory found = MEMORY_SUMMED;
    reading.count = reading.length = 0;
    reading.sum = 0;
    for (size_t i = 0; i < rows->count; i++)
        for (uint64_t k = 0; k < rows->list[i].count && found == MEMORY_SUMMED; k++)
            found = read_row(rows->list[i].at + k * rows->list[i].stride, rows->list[i].length);
    if (found == MEMORY_SUMMED) found = read_parts();
    *sum = reading.sum;
    return found;
}
