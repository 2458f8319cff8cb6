/* What is under way in a run: sums over all ranks that are zero if nothing is. See sums.c. */
#ifndef MPIWAIT_SUMS_H
#define MPIWAIT_SUMS_H

#include "calls.h"
#include "requests.h"

/* The program doesn't see these names. */
#pragma GCC visibility push(hidden)

/* Whether the sums are kept: only in a recording with windows. */
extern bool sums_are_kept;

/* How a communicator came to be, and which of its kind it is. */
typedef enum { MADE = 1, BY_IDUP, OF_GROUP, APART } Way;
uint64_t origin_of(Way way, uint64_t parent, long count);

/* This rank has a communicator from now on: with the number, the origin and the group. */
void has_communicator(int number, MPI_Comm comm, uint64_t origin, int size, const Field members[]);
void frees_communicator(int number);
bool is_had(int number);

/* The rank's next call that all members of a communicator make. Answers the origin of what it makes. */
uint64_t joins(Way way, int number);

/* How many calls of MPI_Comm_create_group there were with this group: the origin of what the next one makes.
 */
uint64_t origin_of_group(int size, const Field members[]);

/* A send is started; or it was cancelled after all. Answers what it adds to the sum. */
uint64_t adds_send(int number, Field dest, Field tag);
static inline uint64_t sends(int number, Field dest, Field tag) {
    return sums_are_kept ? adds_send(number, dest, tag) : 0;
}
void takes_back(uint64_t sent);

/* A receive completed with a message of this source and tag. */
void takes_receive(int number, Field source, Field tag);
static inline void receives(int number, Field source, Field tag) {
    if (sums_are_kept)
        takes_receive(number, source, tag);
}

/* What a message that a probe took adds to the sum; it is received. */
uint64_t message_from(int number, Field source, Field tag);
void receives_message(uint64_t message);

/* A request completed: `gone' if it was cancelled. The status may be NULL if it has no wildcard. */
void settles(const Request *request, bool gone_send, bool gone_receive, const MPI_Status *status);

/* The sums of this rank. */
uint64_t sum_of_messages(void);
uint64_t sum_of_waves(void);

/* The numbers of the communicators that it has, but the world and its own, in an order that all members
 * share. NULL without memory. */
int *communicators_had(int *count);
MPI_Comm communicator_of(int number);

#pragma GCC visibility pop

#endif
