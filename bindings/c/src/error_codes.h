/* Error classes and codes that a program adds (MPI 3.1, 8.5). */
#ifndef KOMBAZILY_ERROR_CODES_H
#define KOMBAZILY_ERROR_CODES_H

/* What is known of an added code: its class and its text; false: there is no such one. */
#include <stdbool.h>
bool find_added(int code, int *class, const char **text);

/* The last code that is in use: MPI_ERR_LASTCODE, or the last one that was added. */
int last_error_code(void);

void close_error_codes(void);

#endif
