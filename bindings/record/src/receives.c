/* Receives and probes: see record.h. */
#include "record.h"

#include <stdio.h>

/* Writes what a receive says of itself, and from where it is made: whether it is in the record. */
static bool write_receive(const char *what, long name, int count, MPI_Datatype type, int source, int from, int tag,
                          MPI_Comm comm) {
    const int number = communicator_number(comm), of = number >= 0 ? type_number(type) : 0;
    if (number < 0) return false;
    const long seen = source >= 0 ? seen_by(comm, source, tag) : 0, choice = choice_of(source);
    if (name != 0) put("%s %ld", what, name);
    else put("%s", what);
    write_line(" %d %s %s %d %d %ld %ld %s", number, rank_word(source), tag_word(tag), count, of, choice, seen,
               rank_word(from));
    return true;
}

int MPI_Recv(void *buffer, int count, MPI_Datatype type, int source, int tag, MPI_Comm comm, MPI_Status *status) {
    MPI_Status own;
    bool is_own = begin_call("MPI_Recv");
    const int from = is_own ? steered(source) : source;
    bool is_written = is_own && write_receive("recv", 0, count, type, source, from, tag, comm);
    if (status == MPI_STATUS_IGNORE) status = &own;
    int code = PMPI_Recv(buffer, count, type, is_written ? from : source, tag, comm, status);
    if (is_written && code == MPI_SUCCESS) write_taken(0, status);
    return end_call(is_own, code);
}

int MPI_Irecv(void *buffer, int count, MPI_Datatype type, int source, int tag, MPI_Comm comm, MPI_Request *request) {
    bool is_own = begin_call("MPI_Irecv");
    const int from = is_own ? steered(source) : source;
    const long name = is_own ? new_name() : 0;
    bool is_written = is_own && write_receive("irecv", name, count, type, source, from, tag, comm);
    int code = PMPI_Irecv(buffer, count, type, is_written ? from : source, tag, comm, request);
    if (is_written && code == MPI_SUCCESS) add_request(*request, OF_RECEIVE, name);
    return end_call(is_own, code);
}

/* A send and a receive in one are a send that goes on, the receive, and the send's end. */
static bool write_exchange(long name, int count, MPI_Datatype type, int target, int tag, int receive_count,
                           MPI_Datatype receive_type, int source, int from, int receive_tag, MPI_Comm comm) {
    const int number = communicator_number(comm);
    if (number < 0) return false;
    const int of = type_number(type);
    write_line("isend %ld standard %d %s %s %d %d", name, number, rank_word(target), tag_word(tag), count, of);
    write_receive("recv", 0, receive_count, receive_type, source, from, receive_tag, comm);
    write_line("wait %ld", name);
    return true;
}

int MPI_Sendrecv(const void *buffer, int count, MPI_Datatype type, int target, int tag, void *into, int receive_count,
                 MPI_Datatype receive_type, int source, int receive_tag, MPI_Comm comm, MPI_Status *status) {
    MPI_Status own;
    bool is_own = begin_call("MPI_Sendrecv");
    int from = is_own ? steered(source) : source;
    bool is_written = is_own && write_exchange(new_name(), count, type, target, tag, receive_count, receive_type,
                                               source, from, receive_tag, comm);
    if (status == MPI_STATUS_IGNORE) status = &own;
    if (!is_written) from = source;
    int code = PMPI_Sendrecv(buffer, count, type, target, tag, into, receive_count, receive_type, from, receive_tag,
                             comm, status);
    if (is_written && code == MPI_SUCCESS) write_taken(0, status);
    return end_call(is_own, code);
}

int MPI_Sendrecv_replace(void *buffer, int count, MPI_Datatype type, int target, int tag, int source, int receive_tag,
                         MPI_Comm comm, MPI_Status *status) {
    MPI_Status own;
    bool is_own = begin_call("MPI_Sendrecv_replace");
    int from = is_own ? steered(source) : source;
    bool is_written =
        is_own && write_exchange(new_name(), count, type, target, tag, count, type, source, from, receive_tag, comm);
    if (status == MPI_STATUS_IGNORE) status = &own;
    if (!is_written) from = source;
    int code = PMPI_Sendrecv_replace(buffer, count, type, target, tag, from, receive_tag, comm, status);
    if (is_written && code == MPI_SUCCESS) write_taken(0, status);
    return end_call(is_own, code);
}

/* ---- probes ---- */

/* Writes a probe, with its number among the choices: 0, it isn't in the record. */
static long write_probe(const char *what, MPI_Comm comm, int source, int from, int tag) {
    const int number = communicator_number(comm);
    if (number < 0) return 0;
    const long choice = next_choice();
    write_line("%s %ld %d %s %s %s", what, choice, number, rank_word(source), tag_word(tag), rank_word(from));
    return choice;
}

static void write_seen(long choice, MPI_Comm comm, int source, int tag, const MPI_Status *status) {
    int bytes = 0;
    PMPI_Get_count(status, MPI_BYTE, &bytes);
    write_line("saw %ld %s %s %d", choice, rank_word(status->MPI_SOURCE), tag_word(status->MPI_TAG), bytes);
    note_seen(choice, comm, source, tag, status);
}

int MPI_Probe(int source, int tag, MPI_Comm comm, MPI_Status *status) {
    MPI_Status own;
    bool is_own = begin_call("MPI_Probe");
    const int from = is_own ? steered(source) : source;
    const long choice = is_own ? write_probe("probe", comm, source, from, tag) : 0;
    if (status == MPI_STATUS_IGNORE) status = &own;
    int code = PMPI_Probe(choice != 0 ? from : source, tag, comm, status);
    if (choice != 0 && code == MPI_SUCCESS) write_seen(choice, comm, source, tag, status);
    return end_call(is_own, code);
}

static void write_vain_probe(const char *name, MPI_Comm comm, int source, int tag) {
    char what[64];
    const int number = communicator_number(comm);
    snprintf(what, sizeof what, "probe %d %s %s", number, rank_word(source), tag_word(tag));
    if (number >= 0) write_vain_look(name, what);
}

int MPI_Iprobe(int source, int tag, MPI_Comm comm, int *flag, MPI_Status *status) {
    MPI_Status own;
    bool is_own = begin_look();
    const int from = is_own ? steered(source) : source;
    if (status == MPI_STATUS_IGNORE) status = &own;
    int code = PMPI_Iprobe(from, tag, comm, flag, status);
    if (!is_own || code != MPI_SUCCESS) return end_look(code);
    if (!*flag) {
        write_vain_probe("MPI_Iprobe", comm, source, tag);
        return end_look(code);
    }
    write_call("MPI_Iprobe");
    const long choice = write_probe("probe", comm, source, from, tag);
    if (choice != 0) write_seen(choice, comm, source, tag, status);
    return end_call(true, code);
}

/* ---- messages that are taken out ---- */

enum { MOST_MESSAGES = 1024 };
static struct {
    MPI_Message handle;
    long choice; /* the probe that took it out, or 0 */
} messages[MOST_MESSAGES];

static void note_message(MPI_Message handle, long choice) {
    for (int i = 0; i < MOST_MESSAGES; i++)
        if (messages[i].choice == 0) {
            messages[i].handle = handle;
            messages[i].choice = choice;
            return;
        }
}

int MPI_Mprobe(int source, int tag, MPI_Comm comm, MPI_Message *message, MPI_Status *status) {
    MPI_Status own;
    bool is_own = begin_call("MPI_Mprobe");
    const int from = is_own ? steered(source) : source;
    const long choice = is_own ? write_probe("mprobe", comm, source, from, tag) : 0;
    if (status == MPI_STATUS_IGNORE) status = &own;
    int code = PMPI_Mprobe(choice != 0 ? from : source, tag, comm, message, status);
    if (choice != 0 && code == MPI_SUCCESS) {
        write_seen(choice, MPI_COMM_NULL, source, tag, status);
        note_message(*message, choice);
    }
    return end_call(is_own, code);
}

int MPI_Improbe(int source, int tag, MPI_Comm comm, int *flag, MPI_Message *message, MPI_Status *status) {
    MPI_Status own;
    bool is_own = begin_look();
    const int from = is_own ? steered(source) : source;
    if (status == MPI_STATUS_IGNORE) status = &own;
    int code = PMPI_Improbe(from, tag, comm, flag, message, status);
    if (!is_own || code != MPI_SUCCESS) return end_look(code);
    if (!*flag) {
        write_vain_probe("MPI_Improbe", comm, source, tag);
        return end_look(code);
    }
    write_call("MPI_Improbe");
    const long choice = write_probe("mprobe", comm, source, from, tag);
    if (choice != 0) {
        write_seen(choice, MPI_COMM_NULL, source, tag, status);
        note_message(*message, choice);
    }
    return end_call(true, code);
}

/* The receive of a message that was taken out: whether it is in the record. */
static bool write_matched(const char *what, long name, MPI_Message handle, int count, MPI_Datatype type) {
    for (int i = 0; i < MOST_MESSAGES; i++) {
        if (messages[i].choice == 0 || messages[i].handle != handle) continue;
        const long choice = messages[i].choice;
        const int of = type_number(type);
        messages[i].choice = 0;
        if (name != 0) write_line("%s %ld %ld %d %d", what, name, choice, count, of);
        else write_line("%s %ld %d %d", what, choice, count, of);
        return true;
    }
    return false;
}

int MPI_Mrecv(void *buffer, int count, MPI_Datatype type, MPI_Message *message, MPI_Status *status) {
    bool is_own = begin_call("MPI_Mrecv");
    if (is_own && *message != MPI_MESSAGE_NO_PROC) write_matched("mrecv", 0, *message, count, type);
    return end_call(is_own, PMPI_Mrecv(buffer, count, type, message, status));
}

int MPI_Imrecv(void *buffer, int count, MPI_Datatype type, MPI_Message *message, MPI_Request *request) {
    bool is_own = begin_call("MPI_Imrecv");
    const long name = is_own ? new_name() : 0;
    bool is_written = is_own && write_matched("imrecv", name, *message, count, type);
    int code = PMPI_Imrecv(buffer, count, type, message, request);
    if (is_written && code == MPI_SUCCESS) add_request(*request, OF_RECEIVE, name);
    return end_call(is_own, code);
}
