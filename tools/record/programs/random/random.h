/* A random program that can't deadlock. All ranks draw the same plan from one seed, step by step, and each
 * does its own part of a step.
 *
 * Why it can't: the steps are in one order that all ranks keep. A call that blocks needs only what other
 * ranks do in the same or an earlier step, and there before they block. So the ranks that are in the earliest
 * step of all can go on, even where every send waits for its receive and every collective for all members.
 *
 *   main.c            the steps
 *   plan.c            what all ranks know: numbers drawn, communicators, messages, open requests
 *   halves.c          the two halves of a message
 *   completions.c     waits and tests
 *   collectives.c     collectives in both forms
 *   communicators.c   communicators made and freed
 *   shapes.c          steps of several messages: rings, wildcards, matched probes, ready sends
 *   alone.c           what a rank does by itself: MPI_PROC_NULL, MPI_COMM_SELF, cancelled receives
 */
#ifndef RANDOM_H
#define RANDOM_H

#include <mpi.h>
#include <stdbool.h>
#include <stdlib.h>

enum { MOST_RANKS = 16, MOST_COMMS = 24, MOST_MESSAGES = 8192, MOST_OPEN = 1024, NOBODY = -1 };

typedef struct {
    bool is_alive, is_inter;
    int size, left; /* members, the first `left` of them on one side: all of them in an intracommunicator */
    int members[MOST_RANKS]; /* by their ranks in the world */
    int unborn;              /* members that haven't completed the MPI_Comm_idup that makes it */
    int parent;              /* of one that MPI_Comm_idup makes */
    MPI_Comm handle;
} Comm;

typedef struct {
    int comm, from, to, tag, count, source; /* the source is the sender's place in its group */
    bool is_sent, is_received; /* whether that half has begun */
} Message;

/* A request that a rank has to complete. */
typedef struct {
    int owner, message; /* NOBODY: that of a collective */
    bool is_receive, is_persistent;
    int made; /* the communicator that its MPI_Comm_idup makes, or NOBODY */
    int comm;
    MPI_Request handle;
    int *data;
} Open;

extern int me, ranks;
extern Comm comms[MOST_COMMS];
extern Message messages[MOST_MESSAGES];
extern int message_count;
extern Open opens[MOST_OPEN];
extern int open_count;
extern MPI_Comm bridge; /* of the world, with nothing else on it */
extern int counts[MOST_RANKS], places[MOST_RANKS], offsets[MOST_RANKS];
extern MPI_Datatype types[MOST_RANKS];

/* The fault that is put in, once: FAULT_NONE where there is none, or no more. */
typedef enum {
    FAULT_NONE,
    FAULT_NO_SEND,
    FAULT_NO_RECEIVE,
    FAULT_TAG,
    FAULT_SOURCE,
    FAULT_NO_BARRIER,
    FAULT_ORDER,
    FAULT_EARLY
} Fault;
extern Fault fault;    /* the next one, until a step has it */
extern bool is_faulty; /* whether one is put in somewhere: then all messages are of one number */

/* Whether nothing is under way now and then: then there are no intercommunicators. */
extern bool has_pauses;

/* A program with a fault has few wildcards: what hangs by another rank's message is then known. */
static inline int any_source(int source) { return is_faulty ? source : MPI_ANY_SOURCE; }
static inline int any_tag(int tag) { return is_faulty ? tag : MPI_ANY_TAG; }

/* Whether it is for this place; it is put in once. All ranks ask alike. */
bool take_fault(Fault here);

/* Numbers below `below`: the same on all ranks; this rank's own. */
int draw(int below);
int mine(int below);
void seed_plan(unsigned seed, int rank);
void shuffle(int count, int list[]);
void complain(const char *what);

/* Communicators. */
int new_comm(void); /* NOBODY where there is no room */
int any_comm(bool inter_too);
bool is_member(int comm, int rank);
int side_of(int comm, int rank);
int place_in(int comm, int rank); /* its rank in its group */
bool has_pending(int comm);
bool is_clear(int comm, int from, int to); /* no half of a message is missing there */

/* Messages and requests. */
int new_message(int comm, int from, int to);
int next_tag(void);
Open *new_open(int owner, int message, bool is_receive);
bool is_ready(const Open *open);
void forget(Open *open);

/* The halves of a message, where only some are let block. */
void send_half(int message, bool may_block);
void receive_half(int message, bool may_block, bool may_probe);
void check_message(const Message *message, const int *data, const MPI_Status *status);

/* This rank completes requests, in some way; a persistent one is inactive then. */
void complete(int count, MPI_Request handles[], MPI_Status statuses[]);
void complete_with_nobody(int count, MPI_Request handles[], MPI_Status statuses[]); /* MPI_PROC_NULL */
void keep_inactive(MPI_Request handle, int comm, int *data);
void drop_inactive(int comm); /* NOBODY: of all */

/* Steps. */
void step_message(void);
void step_other_half(void);
void step_complete(void);
void finish_all(void);
void step_collective(void);
void step_started_collective(void);
void barrier_of(int comm);
void step_make(void);
void step_free(void);
void step_ring(void);
void step_persistent_ring(void);
void step_ready(void);
void step_wildcards(void);
void step_crossed(void);
void step_matched(void);
void step_freed(void);
void step_alone(void);
void step_self(void);
void step_cancelled(void);
void step_kept(void);
void step_look(void);
void begin_wildcards(void);
void end_wildcards(void);

#endif
