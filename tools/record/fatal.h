/* Errors that end the run. See fatal.c. */
#ifndef MPIWAIT_FATAL_H
#define MPIWAIT_FATAL_H

#include <mpi.h>

/* The program doesn't see these names. */
#pragma GCC visibility push(hidden)

/* Where the error is noted that ends the run. */
void fatal_notes_open(const char *folder, int rank);

/* From MPI_Init on an error of a communicator is noted that ends the run; and from now on one of a window. */
void watch_errors(void);
void watch_window_errors(MPI_Win win);

/* The program called MPI while another thread was inside it, called from this address. Needs the recorder's
 * lock. */
void note_two_threads(const void *other);

#pragma GCC visibility pop

#endif
