/* What a process prints is seen as it is printed, and what it leaves undone at its end is told. */
#ifndef KOMBAZILY_ENDS_H
#define KOMBAZILY_ENDS_H

/* From now on each line goes out once it is whole, and the beginning of one before the program reads its standard
 * input: as at a terminal. */
void print_by_lines(void);

/* From now on an end of the program with status 0 and without MPI_Finalize is told, and has a status that ends the job:
 * the other ranks may wait for this one for ever. */
void watch_end(void);

#endif
