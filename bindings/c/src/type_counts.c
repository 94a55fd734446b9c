/* What statuses tell of the data of a type (MPI 3.1, 3.2.5 and 4.1.11), and how programs set it (12.3). */
#include "errors.h"
#include "internal.h"
#include "types.h"

#include <limits.h>

/* A number as an int, or MPI_UNDEFINED where it is none or too large. */
static int told(ptrdiff_t number) { return number < 0 || number > INT_MAX ? MPI_UNDEFINED : (int)number; }

/* The type and the result of a call that counts what a status tells of. */
static int check_counting(const char *call, const MPI_Status *status, MPI_Datatype datatype, const void *count,
                          struct datatype **own) {
    int class = check_any_type(call, datatype, own);
    if (class == MPI_SUCCESS) class = check_result(MPI_COMM_WORLD, call, status, "status");
    return class == MPI_SUCCESS ? check_result(MPI_COMM_WORLD, call, count, "count") : class;
}

int MPI_Get_count(const MPI_Status *status, MPI_Datatype datatype, int *count) {
    NOTE_CALLER();
    struct datatype *own;
    int class = check_counting("MPI_Get_count", status, datatype, count, &own);
    if (class == MPI_SUCCESS) *count = told(whole_items(&own->layout, (size_t)status->reserved_bytes));
    return class;
}

int MPI_Get_elements(const MPI_Status *status, MPI_Datatype datatype, int *count) {
    NOTE_CALLER();
    struct datatype *own;
    int class = check_counting("MPI_Get_elements", status, datatype, count, &own);
    if (class == MPI_SUCCESS) *count = told(elements_in(own->signature, (size_t)status->reserved_bytes));
    return class;
}

int MPI_Get_elements_x(const MPI_Status *status, MPI_Datatype datatype, MPI_Count *count) {
    NOTE_CALLER();
    struct datatype *own;
    int class = check_counting("MPI_Get_elements_x", status, datatype, count, &own);
    if (class != MPI_SUCCESS) return class;
    ptrdiff_t elements = elements_in(own->signature, (size_t)status->reserved_bytes);
    *count = elements < 0 ? MPI_UNDEFINED : elements;
    return MPI_SUCCESS;
}

static int set_elements(const char *call, MPI_Status *status, MPI_Datatype datatype, MPI_Count count) {
    struct datatype *own;
    size_t bytes;
    int class = check_counting(call, status, datatype, status, &own);
    if (class != MPI_SUCCESS) return class;
    if (count < 0) return raise_on(MPI_COMM_WORLD, call, MPI_ERR_COUNT, "a count of %lld", count);
    if (!bytes_of_elements(own->signature, (size_t)count, &bytes))
        return raise_on(MPI_COMM_WORLD, call, MPI_ERR_COUNT, "a count of %lld: items of the type have no so many",
                        count);
    status->reserved_bytes = (MPI_Count)bytes;
    return MPI_SUCCESS;
}

int MPI_Status_set_elements(MPI_Status *status, MPI_Datatype datatype, int count) {
    NOTE_CALLER();
    return set_elements("MPI_Status_set_elements", status, datatype, count);
}

int MPI_Status_set_elements_x(MPI_Status *status, MPI_Datatype datatype, MPI_Count count) {
    NOTE_CALLER();
    return set_elements("MPI_Status_set_elements_x", status, datatype, count);
}

int MPI_Status_set_cancelled(MPI_Status *status, int flag) {
    NOTE_CALLER();
    check_running("MPI_Status_set_cancelled");
    int class = check_result(MPI_COMM_WORLD, "MPI_Status_set_cancelled", status, "status");
    if (class == MPI_SUCCESS) status->reserved_cancelled = flag != 0;
    return class;
}
