/* Types by the names of MPI-1 (MPI 3.1, 15.1, 16.1), whose displacements and sizes are INTEGERs in Fortran, and the
 * contents of types. */
#include "wrappers.h"

/* Puts a number that has to fit an INTEGER. */
static void put_small(const char *call, MPI_Fint *into, MPI_Aint number, MPI_Fint *ierror) {
    if (*ierror != MPI_SUCCESS) return;
    if (number == (MPI_Fint)number) *into = (MPI_Fint)number;
    else *ierror = MPI_F_LIBRARY->raise(call, MPI_ERR_ARG, "what it answers is too large for an INTEGER of Fortran");
}

void pmpi_type_hvector_(const MPI_Fint *count, const MPI_Fint *blocklength, const MPI_Fint *stride,
                        const MPI_Fint *oldtype, MPI_Fint *newtype, MPI_Fint *ierror) {
    NOTE_FORTRAN_CALLER();
    MPI_Datatype own = (MPI_Datatype)(intptr_t)UNTOUCHED;
    *ierror = MPI_Type_hvector(*count, *blocklength, *stride, MPI_Type_f2c(*oldtype), &own);
    put_type(newtype, own);
}
#pragma weak mpi_type_hvector_ = pmpi_type_hvector_

void pmpi_type_hindexed_(const MPI_Fint *count, MPI_Fint *array_of_blocklengths, const MPI_Fint *array_of_displacements,
                         const MPI_Fint *oldtype, MPI_Fint *newtype, MPI_Fint *ierror) {
    NOTE_FORTRAN_CALLER();
    MPI_Datatype own = (MPI_Datatype)(intptr_t)UNTOUCHED;
    ROOM(MPI_Aint, places, *count);
    if (places == NULL) {
        *ierror = no_room("MPI_Type_hindexed");
        return;
    }
    for (int i = 0; i < *count; i++) places[i] = array_of_displacements[i];
    *ierror = MPI_Type_hindexed(*count, array_of_blocklengths, places, MPI_Type_f2c(*oldtype), &own);
    put_type(newtype, own);
}
#pragma weak mpi_type_hindexed_ = pmpi_type_hindexed_

void pmpi_type_struct_(const MPI_Fint *count, MPI_Fint *array_of_blocklengths, const MPI_Fint *array_of_displacements,
                       const MPI_Fint *array_of_types, MPI_Fint *newtype, MPI_Fint *ierror) {
    NOTE_FORTRAN_CALLER();
    MPI_Datatype own = (MPI_Datatype)(intptr_t)UNTOUCHED;
    ROOM(MPI_Aint, places, *count);
    ROOM(MPI_Datatype, types, *count);
    if (places == NULL || types == NULL) {
        *ierror = no_room("MPI_Type_struct");
        return;
    }
    for (int i = 0; i < *count; i++) places[i] = array_of_displacements[i];
    take_types(types, array_of_types, *count);
    *ierror = MPI_Type_struct(*count, array_of_blocklengths, places, types, &own);
    put_type(newtype, own);
}
#pragma weak mpi_type_struct_ = pmpi_type_struct_

void pmpi_type_extent_(const MPI_Fint *datatype, MPI_Fint *extent, MPI_Fint *ierror) {
    NOTE_FORTRAN_CALLER();
    MPI_Aint own = 0;
    *ierror = MPI_Type_extent(MPI_Type_f2c(*datatype), &own);
    put_small("MPI_Type_extent", extent, own, ierror);
}
#pragma weak mpi_type_extent_ = pmpi_type_extent_

void pmpi_type_lb_(const MPI_Fint *datatype, MPI_Fint *displacement, MPI_Fint *ierror) {
    NOTE_FORTRAN_CALLER();
    MPI_Aint own = 0;
    *ierror = MPI_Type_lb(MPI_Type_f2c(*datatype), &own);
    put_small("MPI_Type_lb", displacement, own, ierror);
}
#pragma weak mpi_type_lb_ = pmpi_type_lb_

void pmpi_type_ub_(const MPI_Fint *datatype, MPI_Fint *displacement, MPI_Fint *ierror) {
    NOTE_FORTRAN_CALLER();
    MPI_Aint own = 0;
    *ierror = MPI_Type_ub(MPI_Type_f2c(*datatype), &own);
    put_small("MPI_Type_ub", displacement, own, ierror);
}
#pragma weak mpi_type_ub_ = pmpi_type_ub_

void pmpi_address_(const void *location, MPI_Fint *address, MPI_Fint *ierror) {
    NOTE_FORTRAN_CALLER();
    MPI_Aint own = 0;
    *ierror = MPI_Address(choice(location), &own);
    put_small("MPI_Address", address, own, ierror);
}
#pragma weak mpi_address_ = pmpi_address_

/* Of the lists only what the type was made of is written. */
void pmpi_type_get_contents_(const MPI_Fint *datatype, const MPI_Fint *max_integers, const MPI_Fint *max_addresses,
                             const MPI_Fint *max_datatypes, MPI_Fint *array_of_integers, MPI_Aint *array_of_addresses,
                             MPI_Fint *array_of_datatypes, MPI_Fint *ierror) {
    NOTE_FORTRAN_CALLER();
    int integers, addresses, types, combiner;
    const MPI_Datatype of = MPI_Type_f2c(*datatype);
    ROOM(MPI_Datatype, own, *max_datatypes);
    if (own == NULL) {
        *ierror = no_room("MPI_Type_get_contents");
        return;
    }
    *ierror = MPI_Type_get_contents(of, *max_integers, *max_addresses, *max_datatypes, array_of_integers,
                                    array_of_addresses, own);
    if (*ierror == MPI_SUCCESS) *ierror = MPI_Type_get_envelope(of, &integers, &addresses, &types, &combiner);
    if (*ierror == MPI_SUCCESS) put_types(array_of_datatypes, own, types);
}
#pragma weak mpi_type_get_contents_ = pmpi_type_get_contents_
