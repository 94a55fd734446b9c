/* The half of with_c.f90 that is in C. */
#include <mpi.h>

int number_of_attribute_(const MPI_Fint *comm, const MPI_Fint *keyval);
int number_of_attribute_(const MPI_Fint *comm, const MPI_Fint *keyval) {
    MPI_Aint *number;
    int flag;
    MPI_Comm_get_attr(MPI_Comm_f2c(*comm), *keyval, &number, &flag);
    return flag ? (int)*number : -1;
}

int small_number_of_attribute_(const MPI_Fint *comm, const MPI_Fint *keyval);
int small_number_of_attribute_(const MPI_Fint *comm, const MPI_Fint *keyval) {
    int *number, flag;
    MPI_Comm_get_attr(MPI_Comm_f2c(*comm), *keyval, &number, &flag);
    return flag ? *number : -1;
}

void set_in_c_(const MPI_Fint *comm, const MPI_Fint *keyval, MPI_Aint *address);
void set_in_c_(const MPI_Fint *comm, const MPI_Fint *keyval, MPI_Aint *address) {
    static int kept = 9;
    MPI_Comm_set_attr(MPI_Comm_f2c(*comm), *keyval, &kept);
    MPI_Get_address(&kept, address);
}

MPI_Fint key_of_c_(void);
MPI_Fint key_of_c_(void) {
    int keyval;
    MPI_Comm_create_keyval(MPI_COMM_DUP_FN, MPI_COMM_NULL_DELETE_FN, &keyval, NULL);
    return keyval;
}

int ignores_(const MPI_Fint *status, const MPI_Fint *statuses);
int ignores_(const MPI_Fint *status, const MPI_Fint *statuses) {
    return status == MPI_F_STATUS_IGNORE && statuses == MPI_F_STATUSES_IGNORE;
}
