/* The functions of MPI 3.1 that the library lacks: a call of one is an error of the compiler's, which names the page.
 * None is defined, so that a configure script that links sees that it lacks. Where KOMBAZILY_WITHOUT_ABSENT is defined
 * before mpi.h is included, none of this is there: for functions of these names of one's own.
 * Made by tools/absent_calls of absent.txt. */
#ifndef KOMBAZILY_MPI_ABSENT_H
#define KOMBAZILY_MPI_ABSENT_H
/* clang-format off */

#ifdef __has_attribute
#if __has_attribute(error)
#define KOMBAZILY_ABSENT __attribute__((error("not in Kombazily: docs/C.md, What isn't there")))
#endif
#endif
#ifndef KOMBAZILY_ABSENT
#define KOMBAZILY_ABSENT
#endif



#endif
