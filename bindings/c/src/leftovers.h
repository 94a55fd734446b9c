/* What a program leaves undone at MPI_Finalize: told where that is wanted, a line for each thing. */
#ifndef KOMBAZILY_LEFTOVERS_H
#define KOMBAZILY_LEFTOVERS_H

/* Requests that no call ended (3.7.3): before they are cancelled. */
void tell_requests(void);

/* Messages that nobody received (8.7): once all that was sent is there. They are taken out. */
void tell_messages(void);

#endif
