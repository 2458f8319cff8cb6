/* Windows: the recording is cut where nothing is under way. See windows.c. */
#ifndef MPIWAIT_WINDOWS_H
#define MPIWAIT_WINDOWS_H

#include "calls.h"

/* The program doesn't see these names. */
#pragma GCC visibility push(hidden)

/* Whether the variable MPIWAIT_WINDOW asks for windows is shown to the other ranks before MPI begins. After
 * MPI_Init all agree whether there are any: if each rank is recorded, and if one thread calls at a time. */
void windows_announce(const char *folder);
bool windows_open(bool is_recorded, int level, int ranks);

/* Of windows that were wanted, why there are none: is counted. */
void windows_count(void);

/* A call of this communicator returns, from which no member goes on before all have come. */
void windows_meet(MPI_Comm comm, int result);

/* The same of a call with data: if there is some. */
void windows_meet_with(MPI_Comm comm, long long count, MPI_Datatype type, int result);

/* MPI ends. */
void windows_close(void);

#pragma GCC visibility pop

#endif
