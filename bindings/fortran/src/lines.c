/* Lines of a Fortran program go out as they are printed, as those of a program in C do (docs/C.md), also where the
 * standard output is no terminal: so no line is lost where a rank hangs or is ended. gfortran's library looks at this
 * variable before `main`, so it is set before any library begins, which the program itself alone can do: it stands in
 * libmpifort.a, and not in libmpifort.so. */
#define _POSIX_C_SOURCE 200809L
#include <stdlib.h>

static void print_by_lines(void) { (void)setenv("GFORTRAN_UNBUFFERED_PRECONNECTED", "y", 0); }

__attribute__((section(".preinit_array"), used)) static void (*const first)(void) = print_by_lines;
