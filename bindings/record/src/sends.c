/* Sends, and requests that are started again and again: see record.h. */
#include "record.h"

#include <stdio.h>

/* What a send says of itself behind its mode; false: it is on a communicator that isn't in the record. */
static bool describe(char *into, size_t room, const char *mode, int count, MPI_Datatype type, int target, int tag,
                     MPI_Comm comm) {
    const int number = communicator_number(comm), of = number >= 0 ? type_number(type) : 0;
    snprintf(into, room, "%s %d %s %s %d %d", mode, number, rank_word(target), tag_word(tag), count, of);
    return number >= 0;
}

static void write_send(const char *mode, int count, MPI_Datatype type, int target, int tag, MPI_Comm comm) {
    char words[96];
    if (describe(words, sizeof words, mode, count, type, target, tag, comm)) write_line("send %s", words);
}

/* The name of a send that goes on, or 0: it isn't in the record. */
static long write_isend(const char *mode, int count, MPI_Datatype type, int target, int tag, MPI_Comm comm) {
    char words[96];
    if (!describe(words, sizeof words, mode, count, type, target, tag, comm)) return 0;
    long name = new_name();
    write_line("isend %ld %s", name, words);
    return name;
}

#define SEND(NAME, MODE)                                                                                               \
    int MPI_##NAME(const void *buffer, int count, MPI_Datatype type, int target, int tag, MPI_Comm comm) {             \
        bool is_own = begin_call("MPI_" #NAME);                                                                        \
        if (is_own) write_send(MODE, count, type, target, tag, comm);                                                  \
        return end_call(is_own, PMPI_##NAME(buffer, count, type, target, tag, comm));                                  \
    }
SEND(Send, "standard")
SEND(Ssend, "synchronous")
SEND(Rsend, "ready")
SEND(Bsend, "buffered")

#define ISEND(NAME, MODE)                                                                                              \
    int MPI_##NAME(const void *buffer, int count, MPI_Datatype type, int target, int tag, MPI_Comm comm,               \
                   MPI_Request *request) {                                                                             \
        bool is_own = begin_call("MPI_" #NAME);                                                                        \
        long name = is_own ? write_isend(MODE, count, type, target, tag, comm) : 0;                                    \
        int code = PMPI_##NAME(buffer, count, type, target, tag, comm, request);                                       \
        if (name != 0 && code == MPI_SUCCESS) add_request(*request, OF_SEND, name);                                    \
        return end_call(is_own, code);                                                                                 \
    }
ISEND(Isend, "standard")
ISEND(Issend, "synchronous")
ISEND(Irsend, "ready")
ISEND(Ibsend, "buffered")

/* ---- persistent requests ---- */

static void add_persistent(MPI_Request handle, enum request_kind kind, const char *words) {
    struct request *it = add_request(handle, kind, 0);
    it->is_persistent = true;
    it->is_active = false;
    snprintf(it->start, sizeof it->start, "%s", words);
}

#define SEND_INIT(NAME, MODE)                                                                                          \
    int MPI_##NAME(const void *buffer, int count, MPI_Datatype type, int target, int tag, MPI_Comm comm,               \
                   MPI_Request *request) {                                                                             \
        char words[96];                                                                                                \
        bool is_own = begin_call("MPI_" #NAME);                                                                        \
        int code = PMPI_##NAME(buffer, count, type, target, tag, comm, request);                                       \
        if (is_own && code == MPI_SUCCESS && describe(words, sizeof words, MODE, count, type, target, tag, comm))      \
            add_persistent(*request, OF_SEND, words);                                                                  \
        return end_call(is_own, code);                                                                                 \
    }
SEND_INIT(Send_init, "standard")
SEND_INIT(Ssend_init, "synchronous")
SEND_INIT(Rsend_init, "ready")
SEND_INIT(Bsend_init, "buffered")

int MPI_Recv_init(void *buffer, int count, MPI_Datatype type, int source, int tag, MPI_Comm comm,
                  MPI_Request *request) {
    char words[96];
    bool is_own = begin_call("MPI_Recv_init");
    int code = PMPI_Recv_init(buffer, count, type, source, tag, comm, request);
    const int number = is_own && code == MPI_SUCCESS ? communicator_number(comm) : -1;
    if (number >= 0) {
        snprintf(words, sizeof words, "%d %s %s %d %d", number, rank_word(source), tag_word(tag), count,
                 type_number(type));
        add_persistent(*request, OF_RECEIVE, words);
    }
    return end_call(is_own, code);
}

/* That a receive of any source is started again can't be steered: its source was told before. */
static void write_start(MPI_Request handle) {
    struct request *it = any_request(handle);
    if (it == NULL || !it->is_persistent) {
        write_lack("the start of a request that isn't known");
        return;
    }
    it->is_active = true;
    it->name = new_name();
    if (it->kind == OF_SEND) write_line("isend %ld %s", it->name, it->start);
    else {
        int number;
        char source[16] = "";
        sscanf(it->start, "%d %15s", &number, source);
        write_line("irecv %ld %s %ld 0 %s", it->name, it->start, source[0] == 'a' ? next_choice() : 0, source);
    }
}

int MPI_Start(MPI_Request *request) {
    bool is_own = begin_call("MPI_Start");
    if (is_own) write_start(*request);
    return end_call(is_own, PMPI_Start(request));
}

int MPI_Startall(int count, MPI_Request list[]) {
    bool is_own = begin_call("MPI_Startall");
    for (int i = 0; is_own && i < count; i++) write_start(list[i]);
    return end_call(is_own, PMPI_Startall(count, list));
}
