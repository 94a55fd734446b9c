/* Functions of Fortran in operations, error handlers and generalised requests (MPI 3.1, 5.9.5, 8.3, 12.2). */
#include "callbacks.h"

void pmpi_op_create_(fold_function *user_fn, const MPI_Fint *commute, MPI_Fint *op, MPI_Fint *ierror) {
    NOTE_FORTRAN_CALLER();
    MPI_Op own = (MPI_Op)(intptr_t)UNTOUCHED;
    *ierror = MPI_Op_create((MPI_User_function *)user_fn, *commute != 0, &own);
    put_op(op, own);
}
#pragma weak mpi_op_create_ = pmpi_op_create_

/* ---- error handlers ---- */

void pmpi_comm_create_errhandler_(handler_function *function, MPI_Fint *errhandler, MPI_Fint *ierror) {
    NOTE_FORTRAN_CALLER();
    MPI_Errhandler own = (MPI_Errhandler)(intptr_t)UNTOUCHED;
    *ierror = MPI_Comm_create_errhandler((MPI_Comm_errhandler_function *)function, &own);
    put_errhandler(errhandler, own);
}
#pragma weak mpi_comm_create_errhandler_ = pmpi_comm_create_errhandler_

void pmpi_errhandler_create_(handler_function *function, MPI_Fint *errhandler, MPI_Fint *ierror) {
    NOTE_FORTRAN_CALLER();
    MPI_Errhandler own = (MPI_Errhandler)(intptr_t)UNTOUCHED;
    *ierror = MPI_Errhandler_create((MPI_Handler_function *)function, &own);
    put_errhandler(errhandler, own);
}
#pragma weak mpi_errhandler_create_ = pmpi_errhandler_create_

/* ---- generalised requests ---- */

struct generalised {
    query_function *query;
    free_function *free;
    cancel_function *cancel;
    MPI_Aint *extra_state; /* the program's variable itself, as in other MPIs: its functions may change it */
};

static int query(void *state, MPI_Status *status) {
    struct generalised *it = state;
    MPI_Fint own[STATUS_SIZE], ierror = MPI_SUCCESS;
    memcpy(own, status, sizeof *status);
    it->query(it->extra_state, own, &ierror);
    memcpy(status, own, sizeof *status);
    return ierror;
}

static int release(void *state) {
    struct generalised *it = state;
    MPI_Fint ierror = MPI_SUCCESS;
    it->free(it->extra_state, &ierror);
    free(it);
    return ierror;
}

static int cancel(void *state, int complete) {
    struct generalised *it = state;
    MPI_Fint flag = complete != 0, ierror = MPI_SUCCESS;
    it->cancel(it->extra_state, &flag, &ierror);
    return ierror;
}

void pmpi_grequest_start_(query_function *query_fn, free_function *free_fn, cancel_function *cancel_fn,
                          MPI_Aint *extra_state, MPI_Fint *request, MPI_Fint *ierror) {
    NOTE_FORTRAN_CALLER();
    MPI_Request own = (MPI_Request)(intptr_t)UNTOUCHED;
    struct generalised *made = malloc(sizeof *made);
    if (made == NULL) {
        *ierror = no_room("MPI_Grequest_start");
        return;
    }
    *made = (struct generalised){query_fn, free_fn, cancel_fn, extra_state};
    *ierror = MPI_Grequest_start(query, release, cancel, made, &own);
    if (*ierror != MPI_SUCCESS) free(made);
    put_request(request, own);
}
#pragma weak mpi_grequest_start_ = pmpi_grequest_start_
