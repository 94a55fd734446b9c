/* The device: datagrams between the ranks of a job, and the clock. Any datagram may be lost, repeated or late: nothing
 * else rests on the device, and no other file knows a socket or a clock. */
#ifndef KOMBAZILY_DEVICE_H
#define KOMBAZILY_DEVICE_H

#include "addresses.h"

#include <stdbool.h>
#include <stddef.h>
#include <stdint.h>

/* Opens the socket of a rank, at its address and port alone: whether it could. `errno` says why it couldn't. The
 * addresses stay where they are while the device is open. */
bool device_open(int rank, const struct addresses *job);
/* The address from which datagrams to `towards` would go, by the routes of this machine: whether one leads there. No
 * datagram goes. */
bool device_own_address(uint32_t towards, uint32_t *address);
/* The first address that this machine has in a network, or 127.0.0.1 where it has none. */
uint32_t device_any_address(void);
/* Opens a socket at an address before the others' are known, which device_open then takes: at any free port where
 * `first` is 0, else at a free one from `first` to `last`, which is tried first at the place of the rank: whether one
 * was free. */
bool device_claim(uint32_t address, uint16_t first, uint16_t last, int rank, uint16_t *port);
void device_close(void);
bool device_is_open(void);

/* Room for datagrams to one rank that go out next: `*len` bytes, no fewer than the longest datagram has. */
unsigned char *device_room(size_t *len);
/* How many datagrams may stand in the room: 1 where the system doesn't cut them apart. */
uint32_t device_most(void);
/* What stands in the room goes to this rank, at the next device_flush at the latest: so many datagrams behind one
 * another, each of so many bytes but for the last, which may have fewer; `len` bytes in all. */
void device_put(uint16_t target, uint32_t count, uint32_t each, size_t len);
/* Hands all that goes out to the system, so many times. What the system or the network can't take now is lost. */
void device_flush(int copies);
/* The system's number of an error of the socket that no network makes, or 0. */
int device_error(void);

/* Who is handed what came: the address and port that it comes from, and some bytes, in which datagrams of `each` bytes
 * stand behind one another, of which the last may be shorter: whether it takes any. */
typedef bool device_hearer(uint32_t address, uint16_t port, const unsigned char *bytes, size_t len, size_t each);
/* Hands over what has come, if anything has, and doesn't wait: whether any of it was taken. */
bool device_hear(device_hearer *hearer);
/* Whether there is such a rank, and it has this address and port. */
bool device_is_at(int rank, uint32_t address, uint16_t port);
/* Where the ranks are to which it is open. */
const struct addresses *device_ranks(void);
/* Whether a socket of this user has the port of a rank now, as far as the system tells. */
bool device_is_held(int rank);
/* Whether some rank has them. */
bool device_knows(uint32_t address, uint16_t port);
/* Waits until something comes, or so many milliseconds. */
void device_sleep(int milliseconds);

/* For a program with several threads: from now on device_ring ends a wait of another thread in device_await, or the
 * next one. That asks for so many nanoseconds whether something has come, and then sleeps for so many milliseconds at
 * most.
 */
void device_open_bell(void);
void device_ring(void);
void device_await(long spin, int milliseconds);

/* The time since some moment in the past, in nanoseconds; it never goes back. */
uint64_t device_nanoseconds(void);
/* Whether others were given its processor since it was asked last. */
bool device_was_preempted(void);
/* How many bytes of datagrams that came the system keeps for the socket, as far as it tells; 0 where there is none. */
uint32_t device_heard_room(void);
/* How many processors this process may use. */
int device_processors(void);
#endif
