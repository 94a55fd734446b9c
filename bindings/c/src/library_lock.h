/* Threads of a program that speak MPI at the same time (MPI 3.1, 12.4): one lock, which each function of MPI has while
 * it runs and gives up while it waits. Of the threads that wait one looks at the socket for all of them, and wakes them
 * where something came; so does whoever did what may have ended another thread's wait. Where the program asked for less
 * than MPI_THREAD_MULTIPLE none of this happens. */
#ifndef KOMBAZILY_LIBRARY_LOCK_H
#define KOMBAZILY_LIBRARY_LOCK_H

#include <stdbool.h>

/* From now on there may be several. */
void threads_open(void);

/* The lock. A thread that has it may take it again, as functions of the program do that the library calls. */
void lock_library(void);
void unlock_library(void);

/* Something happened by which a wait of another thread may have ended: they look once the lock is free. */
void note_news(void);

/* In a wait: whether this thread is the one that looks at the socket, from now on until it leaves the library. */
bool is_poller(void);
/* Of another one: gives the lock up until there are news. */
void await_news(void);
/* Gives the lock up to those that want it. */
void let_others_in(void);
/* Of that one: gives the lock up until something comes, there are news, or the time is over; it asks again and again
 * for so many nanoseconds before it sleeps. */
void await_datagram(long spin, int milliseconds);

#endif
