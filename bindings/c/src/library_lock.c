/* Threads of a program that speak MPI at the same time: see library_lock.h. */
#include "library_lock.h"

#include "device.h"
#include "internal.h"
#include "wait_lines.h"

#include <pthread.h>

/* A thread waits at the entrance for its turn: so one that comes again and again doesn't keep the others out. */
static pthread_mutex_t entrance = PTHREAD_MUTEX_INITIALIZER, library = PTHREAD_MUTEX_INITIALIZER;
static pthread_cond_t came = PTHREAD_COND_INITIALIZER;

/* How often this thread has the lock; whether it looks at the socket for all. */
static _Thread_local int depth;
static _Thread_local bool looks;

/* Whether a thread does, and whether it sleeps; how many others wait; whether they are to look. */
static bool is_looked_after, is_asleep;
static int waiting;
static bool are_news;

void threads_open(void) {
    device_open_bell();
    process.is_threaded = true;
}

/* Wakes all that wait, if there are news: before the lock is given up. */
static void tell_news(void) {
    if (!are_news) return;
    are_news = false;
    if (waiting > 0) pthread_cond_broadcast(&came);
    if (is_asleep) device_ring();
}

static void enter(void) {
    pthread_mutex_lock(&entrance);
    pthread_mutex_lock(&library);
    pthread_mutex_unlock(&entrance);
}

void lock_library(void) {
    if (depth++ == 0) enter();
}

void unlock_library(void) {
    if (--depth > 0) return;
    if (looks) {
        looks = is_looked_after = false;
        /* Another one of those that wait is to look from now on. */
        are_news = true;
    }
    tell_news();
    pthread_mutex_unlock(&library);
}

void note_news(void) { are_news = true; }

bool is_poller(void) {
    if (!is_looked_after) looks = is_looked_after = true;
    return looks;
}

/* What the library knows of the thread that has the lock. */
struct place_in_library {
    const char *call;
    const void *caller;
    struct wait_state wait;
};

static struct place_in_library left_place(void) {
    return (struct place_in_library){process.call, process.caller, leave_wait()};
}

static void come_back(const struct place_in_library *place) {
    process.call = place->call;
    process.caller = place->caller;
    come_back_to_wait(&place->wait);
}

void await_news(void) {
    const struct place_in_library place = left_place();
    tell_news();
    waiting++;
    pthread_cond_wait(&came, &library);
    waiting--;
    come_back(&place);
}

void let_others_in(void) {
    const struct place_in_library place = left_place();
    tell_news();
    pthread_mutex_unlock(&library);
    enter();
    come_back(&place);
}

void await_datagram(long spin, int milliseconds) {
    const struct place_in_library place = left_place();
    tell_news();
    is_asleep = true;
    pthread_mutex_unlock(&library);
    device_await(spin, milliseconds);
    enter();
    is_asleep = false;
    come_back(&place);
}
