/* Where the ranks of a job are in the network: pure functions of text and numbers. */
#ifndef KOMBAZILY_ADDRESSES_H
#define KOMBAZILY_ADDRESSES_H

#include <stdbool.h>
#include <stddef.h>
#include <stdint.h>

enum { MOST_RANKS = 1024, LOOPBACK = 0x7f000001 };

/* Rank r of `size` has the IPv4 address `of_rank[r]` (10.0.0.1 is 0x0a000001) and the UDP port `first_port + r`, or
 * `port_of[r]` where `first_port` is 0: then each rank took a port of its own. */
struct addresses {
    int size, first_port;
    uint32_t of_rank[MOST_RANKS];
    uint16_t port_of[MOST_RANKS];
};

/* The addresses in a text: as many as there are ranks, in rank order, with one comma between each two, as
 * `10.0.0.1,10.0.0.2`: four numbers from 0 to 255 without leading zeros. Whether the text is that. */
bool read_addresses(const char *text, struct addresses *job);

/* All ranks are on this machine. */
void put_loopback(struct addresses *job);

/* Whether all ranks are at one address. */
bool are_together(const struct addresses *job);

/* The port of a rank. */
uint16_t port_at(const struct addresses *job, int rank);

/* Whether there is such a rank, and it has this address and port. */
bool is_at(const struct addresses *job, int rank, uint32_t address, uint16_t port);
/* Whether some rank has them. */
bool is_of_some(const struct addresses *job, uint32_t address, uint16_t port);

/* Whether a datagram is an acknowledgement (docs/FORMAT.md). */
bool is_acknowledgement(const unsigned char *datagram, size_t len);

/* The rank that a datagram names as its sender (docs/FORMAT.md), or -1 where it is too short for that. */
int sender_of(const unsigned char *datagram, size_t len);

/* The number of the job that it names: false where it is too short for that. And whether it names this one. */
bool read_job(const unsigned char *datagram, size_t len, uint64_t *job);
bool is_of_job(const unsigned char *datagram, size_t len, uint64_t job);

#endif
