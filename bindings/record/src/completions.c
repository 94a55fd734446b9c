/* Calls that wait for requests, or look at them: see record.h. */
#include "record.h"

#include <stdio.h>
#include <stdlib.h>

/* The names of the active requests of a list, behind a word. */
static void put_names(const char *what, int count, const MPI_Request *list) {
    put("%s", what);
    for (int i = 0; i < count; i++) {
        const struct request *it = active_request(list, i);
        if (it != NULL) put(" %ld", it->name);
    }
}

static void write_names(const char *what, int count, const MPI_Request *list) {
    put_names(what, count, list);
    end_line();
}

/* A call told of the end of this one. */
static void write_end(MPI_Request handle, const MPI_Status *status) {
    const struct request *it = active_request(&handle, 0);
    if (it != NULL) write_line("got %ld", it->name);
    end_request(handle, status);
}

int MPI_Wait(MPI_Request *request, MPI_Status *status) {
    MPI_Status own;
    const MPI_Request before = *request;
    bool is_own = begin_call("MPI_Wait");
    if (status == MPI_STATUS_IGNORE) status = &own;
    if (is_own) write_names("wait", 1, &before);
    int code = PMPI_Wait(request, status);
    if (is_own) end_request(before, code == MPI_SUCCESS ? status : NULL);
    return end_call(is_own, code);
}

/* Statuses where the program wants none: the caller frees them. */
static MPI_Status *own_statuses(int count, const MPI_Status *given) {
    if (given != MPI_STATUSES_IGNORE) return NULL;
    MPI_Status *own = malloc((size_t)(count + 1) * sizeof *own);
    if (own == NULL) abort();
    return own;
}

int MPI_Waitall(int count, MPI_Request list[], MPI_Status statuses[]) {
    bool is_own = begin_call("MPI_Waitall");
    MPI_Request *before = copied(count, list);
    MPI_Status *own = own_statuses(count, statuses);
    if (is_own) write_names("wait", count, before);
    int code = PMPI_Waitall(count, list, own != NULL ? own : statuses);
    for (int i = 0; is_own && i < count; i++)
        end_request(before[i], code != MPI_SUCCESS ? NULL : own != NULL ? &own[i] : &statuses[i]);
    free(before);
    free(own);
    return end_call(is_own, code);
}

int MPI_Waitany(int count, MPI_Request list[], int *place, MPI_Status *status) {
    MPI_Status own;
    bool is_own = begin_call("MPI_Waitany");
    MPI_Request *before = copied(count, list);
    if (status == MPI_STATUS_IGNORE) status = &own;
    if (is_own) write_names("any", count, before);
    int code = PMPI_Waitany(count, list, place, status);
    if (is_own && *place != MPI_UNDEFINED) write_end(before[*place], code == MPI_SUCCESS ? status : NULL);
    free(before);
    return end_call(is_own, code);
}

/* Those of a list of which a call told. */
static void write_some(const MPI_Request *before, int found, const int *places, const MPI_Status *statuses) {
    for (int i = 0; found != MPI_UNDEFINED && i < found; i++) write_end(before[places[i]], &statuses[i]);
}

int MPI_Waitsome(int count, MPI_Request list[], int *found, int places[], MPI_Status statuses[]) {
    bool is_own = begin_call("MPI_Waitsome");
    MPI_Request *before = copied(count, list);
    MPI_Status *own = own_statuses(count, statuses);
    if (is_own) write_names("any", count, before);
    int code = PMPI_Waitsome(count, list, found, places, own != NULL ? own : statuses);
    if (is_own && code == MPI_SUCCESS) write_some(before, *found, places, own != NULL ? own : statuses);
    free(before);
    free(own);
    return end_call(is_own, code);
}

/* ---- tests: one that says yes is a wait for what it told of, one that says no a look in vain ---- */

static void write_vain_test(const char *name, int count, const MPI_Request *list) {
    char what[128];
    int length = snprintf(what, sizeof what, "test"), named = 0;
    for (int i = 0; i < count && length < (int)sizeof what - 24; i++) {
        const struct request *it = active_request(list, i);
        if (it != NULL) length += snprintf(what + length, sizeof what - (size_t)length, " %ld", it->name), named++;
    }
    if (named > 0) write_vain_look(name, what);
}

int MPI_Test(MPI_Request *request, int *flag, MPI_Status *status) {
    MPI_Status own;
    const MPI_Request before = *request;
    bool is_own = begin_look();
    if (status == MPI_STATUS_IGNORE) status = &own;
    int code = PMPI_Test(request, flag, status);
    bool is_known = is_own && active_request(&before, 0) != NULL;
    if (is_known && !*flag) write_vain_test("MPI_Test", 1, &before);
    if (!is_known || !*flag) return end_look(code);
    write_call("MPI_Test");
    write_end(before, code == MPI_SUCCESS ? status : NULL);
    return end_call(true, code);
}

int MPI_Testall(int count, MPI_Request list[], int *flag, MPI_Status statuses[]) {
    bool is_own = begin_look();
    MPI_Request *before = copied(count, list);
    MPI_Status *own = own_statuses(count, statuses);
    int code = PMPI_Testall(count, list, flag, own != NULL ? own : statuses);
    if (is_own && !*flag) write_vain_test("MPI_Testall", count, before);
    if (is_own && *flag) write_call("MPI_Testall");
    for (int i = 0; is_own && *flag && i < count; i++)
        write_end(before[i], code != MPI_SUCCESS ? NULL : own != NULL ? &own[i] : &statuses[i]);
    if (is_own && *flag) write_line("done");
    free(before);
    free(own);
    return end_look(code);
}

int MPI_Testany(int count, MPI_Request list[], int *place, int *flag, MPI_Status *status) {
    MPI_Status own;
    bool is_own = begin_look();
    MPI_Request *before = copied(count, list);
    if (status == MPI_STATUS_IGNORE) status = &own;
    int code = PMPI_Testany(count, list, place, flag, status);
    if (is_own && !*flag) write_vain_test("MPI_Testany", count, before);
    if (is_own && *flag && *place != MPI_UNDEFINED) {
        write_call("MPI_Testany");
        write_end(before[*place], code == MPI_SUCCESS ? status : NULL);
        write_line("done");
    }
    free(before);
    return end_look(code);
}

int MPI_Testsome(int count, MPI_Request list[], int *found, int places[], MPI_Status statuses[]) {
    bool is_own = begin_look();
    MPI_Request *before = copied(count, list);
    MPI_Status *own = own_statuses(count, statuses);
    int code = PMPI_Testsome(count, list, found, places, own != NULL ? own : statuses);
    if (is_own && *found == 0) write_vain_test("MPI_Testsome", count, before);
    if (is_own && code == MPI_SUCCESS && *found != MPI_UNDEFINED && *found > 0) {
        write_call("MPI_Testsome");
        write_some(before, *found, places, own != NULL ? own : statuses);
        write_line("done");
    }
    free(before);
    free(own);
    return end_look(code);
}
