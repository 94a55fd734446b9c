/* Statuses as Fortran has them (MPI 3.1, 17.2.5): INTEGERs, of which the first three are the source, the tag and the
 * error, in the memory that a status of C has. Fortran 2008 has that of C. */
#include "errors.h"
#include "internal.h"

#include <string.h>

_Static_assert(sizeof(MPI_Status) % sizeof(MPI_Fint) == 0, "a status is so many INTEGERs");
_Static_assert(offsetof(MPI_Status, MPI_SOURCE) == MPI_F_SOURCE * sizeof(MPI_Fint), "the source");
_Static_assert(offsetof(MPI_Status, MPI_TAG) == MPI_F_TAG * sizeof(MPI_Fint), "the tag");
_Static_assert(offsetof(MPI_Status, MPI_ERROR) == MPI_F_ERROR * sizeof(MPI_Fint), "the error");

/* They stand in the place of an argument of Fortran's: their addresses count. */
static MPI_Fint ignored[2];
MPI_Fint *MPI_F_STATUS_IGNORE = &ignored[0], *MPI_F_STATUSES_IGNORE = &ignored[1];
static MPI_F08_status ignored_of_2008[2];
MPI_F08_status *MPI_F08_STATUS_IGNORE = &ignored_of_2008[0], *MPI_F08_STATUSES_IGNORE = &ignored_of_2008[1];

/* Copies a status; neither may be one that is ignored. */
static int copy_status(const char *call, const void *from, void *into, size_t bytes) {
    check_running(call);
    int class = check_result(MPI_COMM_WORLD, call, from, "the status");
    if (class == MPI_SUCCESS) class = check_result(MPI_COMM_WORLD, call, into, "the status");
    const void *const none[] = {MPI_F_STATUS_IGNORE, MPI_F_STATUSES_IGNORE, MPI_F08_STATUS_IGNORE,
                                MPI_F08_STATUSES_IGNORE};
    for (size_t i = 0; i < sizeof none / sizeof *none && class == MPI_SUCCESS; i++)
        if (from == none[i]) class = raise_on(MPI_COMM_WORLD, call, MPI_ERR_ARG, "the status is one to be ignored");
    if (class == MPI_SUCCESS) memcpy(into, from, bytes);
    return class;
}

int MPI_Status_c2f(const MPI_Status *c_status, MPI_Fint *f_status) {
    return copy_status("MPI_Status_c2f", c_status, f_status, sizeof *c_status);
}

int MPI_Status_f2c(const MPI_Fint *f_status, MPI_Status *c_status) {
    NOTE_CALLER();
    return copy_status("MPI_Status_f2c", f_status, c_status, sizeof *c_status);
}

int MPI_Status_c2f08(const MPI_Status *c_status, MPI_F08_status *f08_status) {
    NOTE_CALLER();
    return copy_status("MPI_Status_c2f08", c_status, f08_status, sizeof *c_status);
}

int MPI_Status_f082c(const MPI_F08_status *f08_status, MPI_Status *c_status) {
    NOTE_CALLER();
    return copy_status("MPI_Status_f082c", f08_status, c_status, sizeof *c_status);
}
