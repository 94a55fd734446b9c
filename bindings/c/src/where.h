/* Where in the program's source an address of its code is. */
#ifndef KOMBAZILY_WHERE_H
#define KOMBAZILY_WHERE_H

#include <stddef.h>

/* Puts ` (FILE:LINE)` of the call that returns to this address, by `addr2line`; nothing where the program wasn't
 * compiled with -g, that command isn't there, or takes more than a moment. Not for signal handlers. */
void put_source_line(const void *return_address, char *into, size_t room);

#endif
