/* Values of Info objects (MPI 3.1, 9), by hand: their lengths are without the byte that C has behind a text. */
#include "wrappers.h"

void pmpi_info_get_(const MPI_Fint *info, const char *key, const MPI_Fint *valuelen, char *value, MPI_Fint *flag,
                    MPI_Fint *ierror, size_t length_of_key, size_t length_of_value) {
    NOTE_FORTRAN_CALLER();
    int is_there = UNTOUCHED;
    TEXT(own_key, bare_text_of(key, length_of_key));
    ROOM(char, own_value, *valuelen < 0 ? 1 : (size_t)*valuelen + 1);
    if (own_key == NULL || own_value == NULL) {
        *ierror = no_room("MPI_Info_get");
        return;
    }
    *ierror = MPI_Info_get(MPI_Info_f2c(*info), own_key, *valuelen, own_value, &is_there);
    put_logical(flag, is_there);
    if (*ierror == MPI_SUCCESS && is_there == 1) put_text(value, length_of_value, own_value);
}
#pragma weak mpi_info_get_ = pmpi_info_get_

void pmpi_info_get_string_(const MPI_Fint *info, const char *key, MPI_Fint *buflen, char *value, MPI_Fint *flag,
                           MPI_Fint *ierror, size_t length_of_key, size_t length_of_value) {
    NOTE_FORTRAN_CALLER();
    int is_there = UNTOUCHED, own_length = *buflen <= 0 ? *buflen : *buflen + 1;
    TEXT(own_key, bare_text_of(key, length_of_key));
    ROOM(char, own_value, own_length);
    if (own_key == NULL || own_value == NULL) {
        *ierror = no_room("MPI_Info_get_string");
        return;
    }
    *ierror = MPI_Info_get_string(MPI_Info_f2c(*info), own_key, &own_length, own_value, &is_there);
    put_logical(flag, is_there);
    if (*ierror != MPI_SUCCESS || is_there != 1) return;
    if (*buflen > 0) put_text(value, length_of_value, own_value);
    *buflen = own_length - 1;
}
#pragma weak mpi_info_get_string_ = pmpi_info_get_string_

/* What the program was started with is told by Fortran itself. */
void pmpi_info_create_env_(MPI_Fint *info, MPI_Fint *ierror) {
    NOTE_FORTRAN_CALLER();
    MPI_Info own = (MPI_Info)(intptr_t)UNTOUCHED;
    *ierror = MPI_Info_create_env(0, NULL, &own);
    put_info(info, own);
}
#pragma weak mpi_info_create_env_ = pmpi_info_create_env_
