/* What the files share that define MPI functions. An unproved companion of mpiwait, like all of tools/.
 *
 *   record.c          how the recording begins and ends, and calls that are only counted
 *   turns.c           when a call of the program begins and returns, and in which thread
 *   errors.c          error handlers of the program
 *   fatal.c           errors that end the run
 *   communicators.c   communicators and their numbers
 *   completions.c     waits and tests
 *   starts.c          requests, as they are started, freed and cancelled
 *   messages.c        sends and receives
 *   persistent.c      persistent ones
 *   probes.c          probes and the messages that they take
 *   collectives.c     collectives
 *   sums.c            what is under way
 *   windows.c         when a recording is cut into windows
 *   strict.c          strict runs
 *   strict_pairs.c    their nonblocking calls that both send and receive
 *   strict_waits.c    how their calls wait
 */
#ifndef MPIWAIT_CALLS_H
#define MPIWAIT_CALLS_H

#include "counted.h"
#include "journal.h"
#include "requests.h"
#include <dlfcn.h>
#include <mpi.h>
#include <stdlib.h>

enum { WORLD = 0, SELF = 1, UNNUMBERED = -1 };

/* The library's own function. */
#define REAL(Name) \
    ({ \
        static __typeof__(&MPI_##Name) found_; \
        if (!found_) \
            *(void **)&found_ = found_in_library("PMPI_" #Name); \
        found_; \
    })

/* The recorder defines `PMPI_Send` too. All Fortran bindings of Open MPI call that name, and so do some of
 * MPICH's mpi_f08 and other tools. */
#define ALSO_PMPI(Name) extern __typeof__(MPI_##Name) PMPI_##Name __attribute__((alias("MPI_" #Name)));

/* The program doesn't see these names. */
#pragma GCC visibility push(hidden)

void *found_in_library(const char *name);

/* ---- Turns ------------------------------------------------------------------------------------- */

/* What a thread is doing: how many functions of the recorder it is inside, since a library's calls of its own
 * aren't the program's; the frame and the caller of the outermost one; its present or last turn; and the site
 * of the call, -1 until it is looked up. */
typedef struct {
    int inside;
    bool had_lock; /* when an error handler was called */
    void **frame, *caller;
    unsigned long turn;
    int site;
    bool has_barrier;
    bool has_failed; /* an error handler of the program came back to the call */
    bool is_hidden;  /* and yet the library returned MPI_SUCCESS */
    MPI_Comm barrier;
} Thread;
extern __thread Thread thread __attribute__((tls_model("initial-exec")));

/* Which turn it is; 0 for none. */
extern unsigned long turn_now;

/* Each function of the recorder begins with BEGINS and ends with `over`. A recorded call has the turn between
 * the two. It also has the recorder's lock, except inside MPI. So recorded calls of several threads come one
 * after the other, and only one thread writes and looks up. A call inside another call isn't the program's.
 */
bool begins(void *caller, void *frame);
#define BEGINS begins(__builtin_return_address(0), __builtin_frame_address(0))

/* The same for functions that the program's callbacks may call: nothing is lost if MPI calls such a function,
 * so it isn't counted. */
bool begins_quietly(void *caller, void *frame);
#define BEGINS_QUIETLY begins_quietly(__builtin_return_address(0), __builtin_frame_address(0))

/* Begins the turn of MPI_Init, which is recorded when it returns. */
bool take_turn(void);

/* Whether the program called, and not MPI. */
static inline bool is_of_program(void) { return thread.inside == 1; }

/* Whether another thread is inside a recorded call. */
bool another_calls(void);

/* A barrier must follow the call, even if an error handler of the program leaves it. */
void want_barrier(MPI_Comm comm);
bool take_barrier(MPI_Comm *comm);

static inline bool has_turn(void) {
    return thread.turn != 0 && __atomic_load_n(&turn_now, __ATOMIC_RELAXED) == thread.turn;
}

/* Whether the call is still recorded. */
static inline bool is_recorded(void) { return is_of_program() && has_turn(); }

/* Whether it is, no other thread can complete a request meanwhile, and what is written now stays. */
bool may_ask(void);

/* Calls MPI. */
void leave_recorder(void);
void enter_recorder(void);
#define OUTSIDE(expression) \
    ({ \
        leave_recorder(); \
        __typeof__(expression) result_ = (expression); \
        enter_recorder(); \
        result_; \
    })

/* A call that an error handler came back to has failed, although MPICH returns MPI_SUCCESS after one in C++:
 * then it is taken for MPI_ERR_OTHER, until `over` gives the program what the library returned. */
int returned(int result);
#define CALL(Name, args) \
    ({ \
        int returned_ = OUTSIDE(REAL(Name) args); \
        thread.has_failed ? returned(returned_) : returned_; \
    })

/* The call returns this result. */
int over(int result);

/* An error handler of the program is called. It may never return. */
Thread leave_by_error(void);
void come_back_to_error(Thread before);

/* The site of the call. */
static inline int site(void) {
    if (thread.site < 0)
        thread.site = site_of(thread.caller, thread.frame);
    return thread.site;
}

/* From MPI_Init on. */
void turns_open(int level);

/* The program ends: whether no thread is inside a recorded call. No call is recorded after that. */
bool last_turn_begins(void);
void last_turn_ends(void);

/* ---- Lines ------------------------------------------------------------------------------------- */

/* The list within a pair of brackets, so that a macro can take it as one word. */
#define UNPACK(...) __VA_ARGS__

#define FIELDS(...) \
    sizeof((Field[]){__VA_ARGS__}) / sizeof(Field), (Field[]) { __VA_ARGS__ }
#define PUT(word, ...) journal_call(word, FIELDS(__VA_ARGS__), site())
#define REPORT(word, ...) journal_report(word, FIELDS(__VA_ARGS__))

/* Numbers the world and MPI_COMM_SELF, once MPI has begun. */
void number_communicators(void);

/* The number of a call's communicator. If it has none, the call is counted, and the answer is UNNUMBERED. */
int numbered(MPI_Comm comm, const char *call);

/* A call that made communicator `comm`: `=idup` with the number of its request. */
void adopt_duplicate(int request, MPI_Comm comm, uint64_t origin);

/* The lines `=apart` of all communicators that the rank has, at the beginning of a window. */
void report_communicators(void);

static inline uintptr_t bits(MPI_Request handle) {
    return handle == MPI_REQUEST_NULL ? 0 : (uintptr_t)handle;
}

/* The number of the next request or message; 0 when the journal takes no more call lines. */
int new_number(void);

/* A new journal begins, whose numbers begin anew: so they don't end in a run of any length. */
void restart_numbers(void);

/* A call started a request; its number is 0 if the call has no line. Answers its entry in the table, to be
 * filled in, or NULL if the recording stopped. */
Request *started(MPI_Request *handle, int number);

/* The request of a handle that the program has, or NULL. A completed one of the recorder's own that the
 * library freed, where that isn't recorded, is taken out of the table: it isn't the program's any more. */
Request *request_of(uintptr_t handle);

/* Completed requests of the recorder's own (starts.c), which the library needn't wait for. A wait for one is
 * over: its status is given, unless there is none. Its error is set if the wait may be for several. */
MPI_Request handle_of(const struct Done *done);
void waited_for(struct Done *done, MPI_Status *status, bool has_error);
void free_unused_requests(void);

/* Whether a probe took a message that isn't received yet. */
bool holds_messages(void);

/* Writes what became of an open request: the message that a wildcard got, or whether it was cancelled. */
void report_end(Request *request, const MPI_Status *status);

/* A call made a persistent request that isn't recorded. */
void made_persistent(MPI_Request *handle);

#pragma GCC visibility pop

#endif
