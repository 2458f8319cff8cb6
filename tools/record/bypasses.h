/* Calls of MPI that go to the library directly, past the recorder. */
#ifndef MPIWAIT_BYPASSES_H
#define MPIWAIT_BYPASSES_H

/* The program doesn't see these names. */
#pragma GCC visibility push(hidden)

/* Before the program begins: modules that are loaded by then find the recorder first. */
void bypasses_open(void);

/* Counts each module of the program that has such calls. If there is one, the recording stops. */
void find_bypasses(void);

/* The same for modules that were loaded, and functions that were bound, since the last time. */
void find_new_bypasses(void);

#pragma GCC visibility pop

#endif
