/* Calls of windows, files and other processes that aren't supported (MPI 3.1, 10, 11, 13), by hand: C's functions say
 * so, whatever else they are given. */
#include "callbacks.h"

void pmpi_comm_spawn_(const char *command, const char *argv, const MPI_Fint *maxprocs, const MPI_Fint *info,
                      const MPI_Fint *root, const MPI_Fint *comm, MPI_Fint *intercomm, MPI_Fint *array_of_errcodes,
                      MPI_Fint *ierror) {
    NOTE_FORTRAN_CALLER();
    MPI_Comm own = (MPI_Comm)(intptr_t)UNTOUCHED;
    (void)command, (void)argv;
    *ierror = MPI_Comm_spawn("", MPI_ARGV_NULL, *maxprocs, MPI_Info_f2c(*info), *root, MPI_Comm_f2c(*comm), &own,
                             codes_of(array_of_errcodes));
    put_comm(intercomm, own);
}
#pragma weak mpi_comm_spawn_ = pmpi_comm_spawn_

void pmpi_comm_spawn_multiple_(const MPI_Fint *count, const char *array_of_commands, const char *array_of_argv,
                               const MPI_Fint *array_of_maxprocs, const MPI_Fint *array_of_info, const MPI_Fint *root,
                               const MPI_Fint *comm, MPI_Fint *intercomm, MPI_Fint *array_of_errcodes,
                               MPI_Fint *ierror) {
    NOTE_FORTRAN_CALLER();
    MPI_Comm own = (MPI_Comm)(intptr_t)UNTOUCHED;
    (void)array_of_commands, (void)array_of_argv, (void)array_of_info;
    *ierror = MPI_Comm_spawn_multiple(*count, NULL, MPI_ARGVS_NULL, array_of_maxprocs, NULL, *root, MPI_Comm_f2c(*comm),
                                      &own, codes_of(array_of_errcodes));
    put_comm(intercomm, own);
}
#pragma weak mpi_comm_spawn_multiple_ = pmpi_comm_spawn_multiple_

void pmpi_register_datarep_(const char *datarep, const void *read_conversion_fn, const void *write_conversion_fn,
                            const void *dtype_file_extent_fn, const MPI_Aint *extra_state, MPI_Fint *ierror) {
    NOTE_FORTRAN_CALLER();
    (void)datarep, (void)read_conversion_fn, (void)write_conversion_fn, (void)dtype_file_extent_fn, (void)extra_state;
    *ierror = MPI_Register_datarep("", NULL, NULL, NULL, NULL);
}
#pragma weak mpi_register_datarep_ = pmpi_register_datarep_

/* ---- windows ---- */

void pmpi_win_allocate_(const MPI_Aint *size, const MPI_Fint *disp_unit, const MPI_Fint *info, const MPI_Fint *comm,
                        void *baseptr, MPI_Fint *win, MPI_Fint *ierror) {
    NOTE_FORTRAN_CALLER();
    MPI_Win own = (MPI_Win)(intptr_t)UNTOUCHED;
    *ierror = MPI_Win_allocate(*size, *disp_unit, MPI_Info_f2c(*info), MPI_Comm_f2c(*comm), baseptr, &own);
    put_win(win, own);
}
#pragma weak mpi_win_allocate_ = pmpi_win_allocate_
#pragma weak mpi_win_allocate_cptr_ = pmpi_win_allocate_
#pragma weak pmpi_win_allocate_cptr_ = pmpi_win_allocate_

void pmpi_win_allocate_shared_(const MPI_Aint *size, const MPI_Fint *disp_unit, const MPI_Fint *info,
                               const MPI_Fint *comm, void *baseptr, MPI_Fint *win, MPI_Fint *ierror) {
    NOTE_FORTRAN_CALLER();
    MPI_Win own = (MPI_Win)(intptr_t)UNTOUCHED;
    *ierror = MPI_Win_allocate_shared(*size, *disp_unit, MPI_Info_f2c(*info), MPI_Comm_f2c(*comm), baseptr, &own);
    put_win(win, own);
}
#pragma weak mpi_win_allocate_shared_ = pmpi_win_allocate_shared_
#pragma weak mpi_win_allocate_shared_cptr_ = pmpi_win_allocate_shared_
#pragma weak pmpi_win_allocate_shared_cptr_ = pmpi_win_allocate_shared_

void pmpi_win_shared_query_(const MPI_Fint *win, const MPI_Fint *rank, MPI_Aint *size, MPI_Fint *disp_unit,
                            void *baseptr, MPI_Fint *ierror) {
    NOTE_FORTRAN_CALLER();
    *ierror = MPI_Win_shared_query(MPI_Win_f2c(*win), *rank, size, disp_unit, baseptr);
}
#pragma weak mpi_win_shared_query_ = pmpi_win_shared_query_
#pragma weak mpi_win_shared_query_cptr_ = pmpi_win_shared_query_
#pragma weak pmpi_win_shared_query_cptr_ = pmpi_win_shared_query_

void pmpi_win_create_keyval_(copy_function *copy_fn, delete_function *delete_fn, MPI_Fint *keyval,
                             const MPI_Aint *extra_state, MPI_Fint *ierror) {
    NOTE_FORTRAN_CALLER();
    (void)copy_fn, (void)delete_fn, (void)extra_state;
    *ierror = MPI_Win_create_keyval(NULL, NULL, keyval, NULL);
}
#pragma weak mpi_win_create_keyval_ = pmpi_win_create_keyval_

void pmpi_win_set_attr_(const MPI_Fint *win, const MPI_Fint *keyval, const MPI_Aint *value, MPI_Fint *ierror) {
    NOTE_FORTRAN_CALLER();
    *ierror = MPI_Win_set_attr(MPI_Win_f2c(*win), *keyval, (void *)(intptr_t)*value);
}
#pragma weak mpi_win_set_attr_ = pmpi_win_set_attr_

void pmpi_win_get_attr_(const MPI_Fint *win, const MPI_Fint *keyval, MPI_Aint *value, MPI_Fint *flag,
                        MPI_Fint *ierror) {
    NOTE_FORTRAN_CALLER();
    int is_there = UNTOUCHED;
    *ierror = MPI_Win_get_attr(MPI_Win_f2c(*win), *keyval, value, &is_there);
    put_logical(flag, is_there);
}
#pragma weak mpi_win_get_attr_ = pmpi_win_get_attr_

/* ---- error handlers ---- */

void pmpi_win_create_errhandler_(handler_function *function, MPI_Fint *errhandler, MPI_Fint *ierror) {
    NOTE_FORTRAN_CALLER();
    MPI_Errhandler own = (MPI_Errhandler)(intptr_t)UNTOUCHED;
    *ierror = MPI_Win_create_errhandler((MPI_Win_errhandler_function *)function, &own);
    put_errhandler(errhandler, own);
}
#pragma weak mpi_win_create_errhandler_ = pmpi_win_create_errhandler_

void pmpi_file_create_errhandler_(handler_function *function, MPI_Fint *errhandler, MPI_Fint *ierror) {
    NOTE_FORTRAN_CALLER();
    MPI_Errhandler own = (MPI_Errhandler)(intptr_t)UNTOUCHED;
    *ierror = MPI_File_create_errhandler((MPI_File_errhandler_function *)function, &own);
    put_errhandler(errhandler, own);
}
#pragma weak mpi_file_create_errhandler_ = pmpi_file_create_errhandler_
