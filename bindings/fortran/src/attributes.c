/* Attributes (MPI 3.1, 6.7, 15, 17.2.7): Fortran has their values as numbers, of the size of an address or, by the
 * names of MPI-1, as INTEGERs. */
#include "callbacks.h"

/* The functions of a key, and whether they are of MPI-1. They are kept until the end, since nothing tells when the
 * library has called them for the last time. */
struct functions {
    copy_function *copy;
    delete_function *delete;
    bool are_old;
    MPI_Aint extra_state;
    struct functions *next;
};
static struct functions *all_functions;

void forget_functions(void) {
    while (all_functions != NULL) {
        struct functions *next = all_functions->next;
        free(all_functions);
        all_functions = next;
    }
}

/* Keeps them; NULL: there is no memory. */
static struct functions *keep_functions(struct functions given) {
    struct functions *made = malloc(sizeof *made);
    if (made == NULL) return NULL;
    *made = given;
    made->next = all_functions;
    return all_functions = made;
}

/* ---- what the library calls: values are numbers in the place of addresses (for_fortran.h) ---- */

static int copy(const struct functions *own, MPI_Fint handle, int keyval, void *in, void *out, int *flag) {
    MPI_Aint value = (MPI_Aint)(intptr_t)in, copied = 0;
    MPI_Fint is_copied = 0, ierror = MPI_SUCCESS, old_copied = 0;
    const MPI_Fint old_value = (MPI_Fint)value, old_state = (MPI_Fint)own->extra_state;
    if (own->are_old) {
        old_copy_function *function = (old_copy_function *)own->copy;
        function(&handle, &keyval, &old_state, &old_value, &old_copied, &is_copied, &ierror);
        /* What doesn't fit an INTEGER is handed on whole where its low half is. */
        copied = old_copied == old_value ? value : old_copied;
    } else {
        own->copy(&handle, &keyval, &own->extra_state, &value, &copied, &is_copied, &ierror);
    }
    *flag = is_copied != 0;
    if (*flag) memcpy(out, &copied, sizeof copied);
    return ierror;
}

static int delete (const struct functions *own, MPI_Fint handle, int keyval, void *of) {
    MPI_Aint value = (MPI_Aint)(intptr_t)of;
    MPI_Fint ierror = MPI_SUCCESS;
    const MPI_Fint old_value = (MPI_Fint)value, old_state = (MPI_Fint)own->extra_state;
    if (own->are_old) ((old_delete_function *)own->delete)(&handle, &keyval, &old_value, &old_state, &ierror);
    else own->delete (&handle, &keyval, &value, &own->extra_state, &ierror);
    return ierror;
}

static int copy_of_comm(MPI_Comm comm, int keyval, void *state, void *in, void *out, int *flag) {
    return copy(state, MPI_Comm_c2f(comm), keyval, in, out, flag);
}
static int delete_of_comm(MPI_Comm comm, int keyval, void *value, void *state) {
    return delete (state, MPI_Comm_c2f(comm), keyval, value);
}
static int copy_of_type(MPI_Datatype type, int keyval, void *state, void *in, void *out, int *flag) {
    return copy(state, MPI_Type_c2f(type), keyval, in, out, flag);
}
static int delete_of_type(MPI_Datatype type, int keyval, void *value, void *state) {
    return delete (state, MPI_Type_c2f(type), keyval, value);
}

/* ---- keys ---- */

void pmpi_comm_create_keyval_(copy_function *copy_fn, delete_function *delete_fn, MPI_Fint *keyval,
                              const MPI_Aint *extra_state, MPI_Fint *ierror) {
    NOTE_FORTRAN_CALLER();
    struct functions *own = keep_functions((struct functions){copy_fn, delete_fn, false, *extra_state, NULL});
    *ierror = own == NULL ? no_room("MPI_Comm_create_keyval")
                          : MPI_Comm_create_keyval(copy_of_comm, delete_of_comm, keyval, own);
    if (*ierror == MPI_SUCCESS) MPI_F_LIBRARY->take_numbers(*keyval);
}
#pragma weak mpi_comm_create_keyval_ = pmpi_comm_create_keyval_

void pmpi_type_create_keyval_(copy_function *copy_fn, delete_function *delete_fn, MPI_Fint *keyval,
                              const MPI_Aint *extra_state, MPI_Fint *ierror) {
    NOTE_FORTRAN_CALLER();
    struct functions *own = keep_functions((struct functions){copy_fn, delete_fn, false, *extra_state, NULL});
    *ierror = own == NULL ? no_room("MPI_Type_create_keyval")
                          : MPI_Type_create_keyval(copy_of_type, delete_of_type, keyval, own);
    if (*ierror == MPI_SUCCESS) MPI_F_LIBRARY->take_numbers(*keyval);
}
#pragma weak mpi_type_create_keyval_ = pmpi_type_create_keyval_

void pmpi_keyval_create_(old_copy_function *copy_fn, old_delete_function *delete_fn, MPI_Fint *keyval,
                         const MPI_Fint *extra_state, MPI_Fint *ierror) {
    NOTE_FORTRAN_CALLER();
    struct functions *own = keep_functions(
        (struct functions){(copy_function *)copy_fn, (delete_function *)delete_fn, true, *extra_state, NULL});
    *ierror = own == NULL ? no_room("MPI_Keyval_create") : MPI_Keyval_create(copy_of_comm, delete_of_comm, keyval, own);
    if (*ierror == MPI_SUCCESS) MPI_F_LIBRARY->take_numbers(*keyval);
}
#pragma weak mpi_keyval_create_ = pmpi_keyval_create_

/* ---- values ---- */

void pmpi_comm_set_attr_(const MPI_Fint *comm, const MPI_Fint *keyval, const MPI_Aint *value, MPI_Fint *ierror) {
    NOTE_FORTRAN_CALLER();
    const MPI_Comm own = MPI_Comm_f2c(*comm);
    *ierror = MPI_Comm_set_attr(own, *keyval, (void *)(intptr_t)*value);
    if (*ierror == MPI_SUCCESS) MPI_F_LIBRARY->keep_number_of_comm(own, *keyval);
}
#pragma weak mpi_comm_set_attr_ = pmpi_comm_set_attr_

void pmpi_attr_put_(const MPI_Fint *comm, const MPI_Fint *keyval, const MPI_Fint *value, MPI_Fint *ierror) {
    NOTE_FORTRAN_CALLER();
    const MPI_Comm own = MPI_Comm_f2c(*comm);
    *ierror = MPI_Attr_put(own, *keyval, (void *)(intptr_t)*value);
    if (*ierror == MPI_SUCCESS) MPI_F_LIBRARY->keep_number_of_comm(own, *keyval);
}
#pragma weak mpi_attr_put_ = pmpi_attr_put_

void pmpi_type_set_attr_(const MPI_Fint *type, const MPI_Fint *keyval, const MPI_Aint *value, MPI_Fint *ierror) {
    NOTE_FORTRAN_CALLER();
    const MPI_Datatype own = MPI_Type_f2c(*type);
    *ierror = MPI_Type_set_attr(own, *keyval, (void *)(intptr_t)*value);
    if (*ierror == MPI_SUCCESS) MPI_F_LIBRARY->keep_number_of_type(own, *keyval);
}
#pragma weak mpi_type_set_attr_ = pmpi_type_set_attr_

/* What was got of a communicator, as a number: what the library sets is the address of an int. */
static MPI_Aint number_of_comm(MPI_Comm comm, int keyval, const void *value) {
    bool is_predefined = keyval >= MPI_TAG_UB && keyval <= MPI_APPNUM;
    return is_predefined ? *(const int *)value : MPI_F_LIBRARY->number_of_comm(comm, keyval);
}

void pmpi_comm_get_attr_(const MPI_Fint *comm, const MPI_Fint *keyval, MPI_Aint *value, MPI_Fint *flag,
                         MPI_Fint *ierror) {
    NOTE_FORTRAN_CALLER();
    const MPI_Comm own = MPI_Comm_f2c(*comm);
    void *got;
    int is_there = 0;
    *ierror = MPI_Comm_get_attr(own, *keyval, &got, &is_there);
    if (*ierror != MPI_SUCCESS) return;
    put_logical(flag, is_there);
    if (is_there) *value = number_of_comm(own, *keyval, got);
}
#pragma weak mpi_comm_get_attr_ = pmpi_comm_get_attr_

void pmpi_attr_get_(const MPI_Fint *comm, const MPI_Fint *keyval, MPI_Fint *value, MPI_Fint *flag, MPI_Fint *ierror) {
    NOTE_FORTRAN_CALLER();
    const MPI_Comm own = MPI_Comm_f2c(*comm);
    void *got;
    int is_there = 0;
    *ierror = MPI_Attr_get(own, *keyval, &got, &is_there);
    if (*ierror != MPI_SUCCESS) return;
    put_logical(flag, is_there);
    if (is_there) *value = (MPI_Fint)number_of_comm(own, *keyval, got);
}
#pragma weak mpi_attr_get_ = pmpi_attr_get_

void pmpi_type_get_attr_(const MPI_Fint *type, const MPI_Fint *keyval, MPI_Aint *value, MPI_Fint *flag,
                         MPI_Fint *ierror) {
    NOTE_FORTRAN_CALLER();
    const MPI_Datatype own = MPI_Type_f2c(*type);
    void *got;
    int is_there = 0;
    *ierror = MPI_Type_get_attr(own, *keyval, &got, &is_there);
    if (*ierror != MPI_SUCCESS) return;
    put_logical(flag, is_there);
    if (is_there) *value = MPI_F_LIBRARY->number_of_type(own, *keyval);
}
#pragma weak mpi_type_get_attr_ = pmpi_type_get_attr_
