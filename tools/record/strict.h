/* Strict runs: standard sends are passed on as synchronous ones, and a barrier follows each blocking
 * collective call except a barrier. MPI allows both (MPI 4.0, sections 3.4 and 6.1). So a correct program
 * runs to its end, and one that needs buffers hangs at the call that needs them. While a call waits, receives
 * with wildcards are asked what they got, which a verdict needs. */
#ifndef MPIWAIT_STRICT_H
#define MPIWAIT_STRICT_H

#include "calls.h"

/* The program doesn't see these names. */
#pragma GCC visibility push(hidden)

/* Whether the variable MPIWAIT_STRICT asks for it. */
extern bool strict;
static inline bool is_strict(void) { return strict; }

/* Which ranks of the world have a strict recorder: announced before MPI begins, looked up after. */
void strict_announce(const char *folder);
void strict_open(int ranks);

/* Whether the program's sends on this communicator are passed on as synchronous ones. */
bool makes_synchronous(MPI_Comm comm);
static inline bool sends_synchronously(MPI_Comm comm) { return strict && makes_synchronous(comm); }

/* A blocking collective call begins; it returned a result. The barrier is made even if the call failed, so
 * that no other rank waits for it in vain. */
void collective_begins(MPI_Comm comm);
void collective_ends(int result);

/* A message that is sent or received, and its other end. */
typedef struct {
    void *data;
    MPI_Count count;
    MPI_Datatype type;
    int rank, tag;
} Half;

/* What MPI_Sendrecv and MPI_Sendrecv_replace become. */
int strict_exchange(Half out, Half in, MPI_Comm comm, MPI_Status *status);
int strict_replace(Half out, Half in, MPI_Comm comm, MPI_Status *status);

/* What MPI_Isendrecv and MPI_Isendrecv_replace become, and whether their status says what was received. That
 * of the library's own calls may not. */
#ifdef MPICH
enum { STRICT_PAIRS_ARE_KNOWN = true };
#else
enum { STRICT_PAIRS_ARE_KNOWN = false };
#endif
int strict_start_exchange(Half out, Half in, MPI_Comm comm, MPI_Request *handle);
int strict_start_replace(Half out, Half in, MPI_Comm comm, MPI_Request *handle);

/* The program calls MPI_Request_get_status for a request, which may be of such a call. */
void strict_look(MPI_Request handle);

/* Whether the recorder has to ask requests while the call waits: receives with a wildcard, and cancelled
 * calls, which no call has completed. */
bool has_to_ask(void);
static inline bool strict_asks(void) { return strict && has_to_ask(); }

/* Asks them until a call that waits for these requests would return: for all of them, or for one. It may also
 * end before. The recorder's lock isn't held. */
void strict_wait(int count, const MPI_Request handles[], bool is_for_one);

/* Waits for a request that the recorder started for a call. */
int strict_finish(MPI_Request *handle, MPI_Status *status);

/* What MPI_Probe becomes then, and with a message MPI_Mprobe. */
int strict_probe(int source, int tag, MPI_Comm comm, MPI_Message *message, MPI_Status *status);

/* Asks them once, before a collective call, which the recorder can't wait for itself. */
void strict_ask(void);

/* ---- What both have in common ------------------------------------------------------------------ */

#ifdef HAS_Send_c
#define BY_COUNT(Name) REAL(Name##_c)
typedef MPI_Count Size;
#else
#define BY_COUNT(Name) REAL(Name)
typedef int Size;
#endif

/* Finds wrong arguments before anything is sent or received, by making persistent requests of them. */
int check_halves(Half out, Half in, MPI_Comm comm);

/* Packs the message to be sent, so that the received one may overwrite it. Answers NULL and changes nothing
 * if there is no memory. */
char *pack_half(Half *out, MPI_Comm comm);

/* The status of a receive from MPI_PROC_NULL, which MPICH 4.0 doesn't set for nonblocking receives. */
void set_status_of_nobody(MPI_Status *status);

#pragma GCC visibility pop

#endif
