/* The functions of attributes that MPI has for Fortran (MPI 3.1, 6.7, 15), for communicators, types and windows. */
#include "callbacks.h"

void mpi_comm_null_copy_fn_(const MPI_Fint *handle, const MPI_Fint *keyval, const MPI_Aint *extra_state,
                            const MPI_Aint *in, MPI_Aint *out, MPI_Fint *flag, MPI_Fint *ierror) {
    (void)handle, (void)keyval, (void)extra_state, (void)in, (void)out;
    *flag = 0;
    *ierror = MPI_SUCCESS;
}
#pragma weak mpi_type_null_copy_fn_ = mpi_comm_null_copy_fn_
#pragma weak mpi_win_null_copy_fn_ = mpi_comm_null_copy_fn_

void mpi_comm_dup_fn_(const MPI_Fint *handle, const MPI_Fint *keyval, const MPI_Aint *extra_state, const MPI_Aint *in,
                      MPI_Aint *out, MPI_Fint *flag, MPI_Fint *ierror) {
    (void)handle, (void)keyval, (void)extra_state;
    *out = *in;
    *flag = 1;
    *ierror = MPI_SUCCESS;
}
#pragma weak mpi_type_dup_fn_ = mpi_comm_dup_fn_
#pragma weak mpi_win_dup_fn_ = mpi_comm_dup_fn_

void mpi_comm_null_delete_fn_(const MPI_Fint *handle, const MPI_Fint *keyval, const MPI_Aint *value,
                              const MPI_Aint *extra_state, MPI_Fint *ierror) {
    (void)handle, (void)keyval, (void)value, (void)extra_state;
    *ierror = MPI_SUCCESS;
}
#pragma weak mpi_type_null_delete_fn_ = mpi_comm_null_delete_fn_
#pragma weak mpi_win_null_delete_fn_ = mpi_comm_null_delete_fn_

/* ---- those of MPI-1 ---- */

void mpi_null_copy_fn_(const MPI_Fint *comm, const MPI_Fint *keyval, const MPI_Fint *extra_state, const MPI_Fint *in,
                       MPI_Fint *out, MPI_Fint *flag, MPI_Fint *ierror) {
    (void)comm, (void)keyval, (void)extra_state, (void)in, (void)out;
    *flag = 0;
    *ierror = MPI_SUCCESS;
}

void mpi_dup_fn_(const MPI_Fint *comm, const MPI_Fint *keyval, const MPI_Fint *extra_state, const MPI_Fint *in,
                 MPI_Fint *out, MPI_Fint *flag, MPI_Fint *ierror) {
    (void)comm, (void)keyval, (void)extra_state;
    *out = *in;
    *flag = 1;
    *ierror = MPI_SUCCESS;
}

void mpi_null_delete_fn_(const MPI_Fint *comm, const MPI_Fint *keyval, const MPI_Fint *value,
                         const MPI_Fint *extra_state, MPI_Fint *ierror) {
    (void)comm, (void)keyval, (void)value, (void)extra_state;
    *ierror = MPI_SUCCESS;
}

/* Of files (13.5.3), which aren't supported: nothing calls it. */
void mpi_conversion_fn_null_(void) {}
