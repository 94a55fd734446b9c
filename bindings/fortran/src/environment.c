/* Begin, end and surroundings (MPI 3.1, 8), by hand: Fortran's calls have other arguments than C's, or are functions.
 * */
#include "callbacks.h"
#include "wrappers.h"

/* Of gfortran's library, where the program has it: what GET_COMMAND_ARGUMENT answers. */
void _gfortran_set_args(int argc, char **argv) __attribute__((weak));

/* The words that the program was started with, of which MPI_Init takes those of the launcher. */
static int word_count;
static char **words;

/* glibc hands these to what runs before `main`. */
__attribute__((constructor)) static void note_words(int argc, char **argv) {
    word_count = argc;
    words = argv;
    /* For C, which compares addresses with these (17.2.5). */
    MPI_F_STATUS_IGNORE = mpi_f_places_.status_ignore;
    MPI_F_STATUSES_IGNORE = mpi_f_places_.statuses_ignore;
}

static void give_words(void) {
    if (_gfortran_set_args != NULL) _gfortran_set_args(word_count, words);
}

void pmpi_init_(MPI_Fint *ierror) {
    NOTE_FORTRAN_CALLER();
    *ierror = MPI_Init(&word_count, &words);
    give_words();
}
#pragma weak mpi_init_ = pmpi_init_

void pmpi_init_thread_(const MPI_Fint *required, MPI_Fint *provided, MPI_Fint *ierror) {
    NOTE_FORTRAN_CALLER();
    *ierror = MPI_Init_thread(&word_count, &words, *required, provided);
    give_words();
}
#pragma weak mpi_init_thread_ = pmpi_init_thread_

void pmpi_finalize_(MPI_Fint *ierror) {
    NOTE_FORTRAN_CALLER();
    *ierror = MPI_Finalize();
    forget_functions();
}
#pragma weak mpi_finalize_ = pmpi_finalize_

void pmpi_pcontrol_(const MPI_Fint *level) { MPI_Pcontrol(*level); }
#pragma weak mpi_pcontrol_ = pmpi_pcontrol_

double pmpi_wtime_(void) { return MPI_Wtime(); }
#pragma weak mpi_wtime_ = pmpi_wtime_

double pmpi_wtick_(void) { return MPI_Wtick(); }
#pragma weak mpi_wtick_ = pmpi_wtick_

MPI_Aint pmpi_aint_add_(const MPI_Aint *base, const MPI_Aint *disp) { return MPI_Aint_add(*base, *disp); }
#pragma weak mpi_aint_add_ = pmpi_aint_add_

MPI_Aint pmpi_aint_diff_(const MPI_Aint *addr1, const MPI_Aint *addr2) { return MPI_Aint_diff(*addr1, *addr2); }
#pragma weak mpi_aint_diff_ = pmpi_aint_diff_

/* The address comes as a number, or as a pointer of C, which has the same bytes. */
void pmpi_alloc_mem_(const MPI_Aint *size, const MPI_Fint *info, void *baseptr, MPI_Fint *ierror) {
    NOTE_FORTRAN_CALLER();
    *ierror = MPI_Alloc_mem(*size, MPI_Info_f2c(*info), baseptr);
}
#pragma weak mpi_alloc_mem_ = pmpi_alloc_mem_
#pragma weak mpi_alloc_mem_cptr_ = pmpi_alloc_mem_
#pragma weak pmpi_alloc_mem_cptr_ = pmpi_alloc_mem_

/* Fortran doesn't get the buffer's address (3.6). */
void pmpi_buffer_detach_(const void *buffer_addr, MPI_Fint *size, MPI_Fint *ierror) {
    NOTE_FORTRAN_CALLER();
    void *address;
    (void)buffer_addr;
    *ierror = MPI_Buffer_detach(&address, size);
}
#pragma weak mpi_buffer_detach_ = pmpi_buffer_detach_
