/* What the files of sends, receives and probes share. See calls.h. */
#ifndef MPIWAIT_MESSAGES_H
#define MPIWAIT_MESSAGES_H

#include "sums.h"
#include <string.h>

/* The program doesn't see these names. */
#pragma GCC visibility push(hidden)

/* How calls on communicators without a number are counted. */
extern const char unnumbered[];

/* Ranks and tags are written as the program gave them, even wrong ones. */
static inline Field receiver(int rank) { return rank == MPI_PROC_NULL ? NULL_PEER : rank; }

static inline Field sender(int rank) { return rank == MPI_ANY_SOURCE ? ANY : receiver(rank); }

static inline Field tag_of_receive(int tag) { return tag == MPI_ANY_TAG ? ANY : tag; }

/* Whether a receive has a wildcard. From MPI_PROC_NULL there is no message to choose. */
static inline bool is_wild(int source, int tag) {
    return source != MPI_PROC_NULL && (source == MPI_ANY_SOURCE || tag == MPI_ANY_TAG);
}

/* Whether MPI may buffer such a send: then its line has its bytes. */
static inline bool is_standard(const char *word) {
    return strcmp(word, "send") == 0 || strcmp(word, "isend") == 0;
}

/* Learns the sizes of the types that come most, once MPI has begun. */
void learn_sizes(void);

/* The bytes of a message, or UNKNOWN. */
Field bytes(long long count, MPI_Datatype type);

/* Writes which message a call took or saw. From MPI_PROC_NULL there is none. */
void report_message(int number, int source, int result, const MPI_Status *status);

static inline Receive receive_of(int number, int source, int tag) {
    return (Receive){true, number, sender(source), tag_of_receive(tag)};
}

#pragma GCC visibility pop

#endif
