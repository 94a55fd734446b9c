/* Where the ranks of a job are in the network: see addresses.h. */
#include "addresses.h"

/* Where a datagram has its sender's rank, in two bytes, and its job's number, in eight; both big-endian. */
enum { NUMBERS = 4, LARGEST = 255, KIND = 5, ACKNOWLEDGEMENT = 2, SENDER = 6, JOB = 16, JOB_BYTES = 8 };

/* Reads a number from 0 to 255 without leading zeros: what stands behind it, or NULL. */
static const char *read_part(const char *text, uint32_t *part) {
    if (*text < '0' || *text > '9') return NULL;
    if (text[0] == '0' && text[1] >= '0' && text[1] <= '9') return NULL;
    for (*part = 0; *text >= '0' && *text <= '9'; text++) {
        *part = 10 * *part + (uint32_t)(*text - '0');
        if (*part > LARGEST) return NULL;
    }
    return text;
}

/* Reads an address: what stands behind it, or NULL. */
static const char *read_address(const char *text, uint32_t *address) {
    *address = 0;
    for (int at = 0; at < NUMBERS; at++) {
        uint32_t part;
        if (at > 0 && *text++ != '.') return NULL;
        text = read_part(text, &part);
        if (text == NULL) return NULL;
        *address = *address << 8 | part;
    }
    return text;
}

bool read_addresses(const char *text, struct addresses *job) {
    for (int rank = 0; rank < job->size; rank++) {
        if (rank > 0 && *text++ != ',') return false;
        text = read_address(text, &job->of_rank[rank]);
        if (text == NULL) return false;
    }
    return *text == '\0';
}

void put_loopback(struct addresses *job) {
    for (int rank = 0; rank < job->size; rank++) job->of_rank[rank] = LOOPBACK;
}

bool are_together(const struct addresses *job) {
    for (int rank = 1; rank < job->size; rank++)
        if (job->of_rank[rank] != job->of_rank[0]) return false;
    return true;
}

uint16_t port_at(const struct addresses *job, int rank) {
    return job->first_port == 0 ? job->port_of[rank] : (uint16_t)(job->first_port + rank);
}

bool is_at(const struct addresses *job, int rank, uint32_t address, uint16_t port) {
    return rank >= 0 && rank < job->size && job->of_rank[rank] == address && port_at(job, rank) == port;
}

bool is_of_some(const struct addresses *job, uint32_t address, uint16_t port) {
    if (job->first_port != 0) return is_at(job, port - job->first_port, address, port);
    for (int rank = 0; rank < job->size; rank++)
        if (is_at(job, rank, address, port)) return true;
    return false;
}

bool is_acknowledgement(const unsigned char *datagram, size_t len) {
    return len > KIND && datagram[KIND] == ACKNOWLEDGEMENT;
}

int sender_of(const unsigned char *datagram, size_t len) {
    return len < SENDER + 2 ? -1 : datagram[SENDER] << 8 | datagram[SENDER + 1];
}

bool read_job(const unsigned char *datagram, size_t len, uint64_t *job) {
    if (len < JOB + JOB_BYTES) return false;
    *job = 0;
    for (int at = 0; at < JOB_BYTES; at++) *job = *job << 8 | datagram[JOB + at];
    return true;
}

bool is_of_job(const unsigned char *datagram, size_t len, uint64_t job) {
    uint64_t named;
    return read_job(datagram, len, &named) && named == job;
}
