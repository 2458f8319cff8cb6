/* How a call of a strict run waits. See strict.h.
 *
 * A receive with a wildcard may have got its message although no call completed it. If the run hangs it must
 * be known what it got: else it isn't known which messages are left for others. So while a call waits, the
 * recorder asks all such receives now and then, by MPI_Request_get_status, which completes nothing.
 *
 * MPI can't be asked while it waits, so the recorder waits itself, by asking for what the call waits for.
 * Then it makes the call, which returns at once: results, statuses and errors are those of the call.
 */
#define _GNU_SOURCE
#include "strict.h"
#include <sched.h>
#include <time.h>

enum {
    BETWEEN = 20,      /* milliseconds from one time that all are asked to the next */
    MOST = 60000,      /* milliseconds until MPI waits for several requests itself */
    BUSY_LOOKS = 1024, /* how often it looks for what the call waits for before it lets others run */
};

/* ---- Errors ------------------------------------------------------------------------------------ */

/* If a request has an error, MPI_Request_get_status of MPICH passes it to a handler of the world or of
 * MPI_COMM_SELF. The call that completes the request passes it to the right one. */
typedef struct {
    MPI_Errhandler of_world, of_self;
} Handlers;

static Handlers errors_return(void) {
    Handlers before;
    REAL(Comm_get_errhandler)(MPI_COMM_WORLD, &before.of_world);
    REAL(Comm_get_errhandler)(MPI_COMM_SELF, &before.of_self);
    REAL(Comm_set_errhandler)(MPI_COMM_WORLD, MPI_ERRORS_RETURN);
    REAL(Comm_set_errhandler)(MPI_COMM_SELF, MPI_ERRORS_RETURN);
    return before;
}

static void put_back(Handlers before) {
    REAL(Comm_set_errhandler)(MPI_COMM_WORLD, before.of_world);
    REAL(Comm_set_errhandler)(MPI_COMM_SELF, before.of_self);
    REAL(Errhandler_free)(&before.of_world);
    REAL(Errhandler_free)(&before.of_self);
}

/* ---- Open requests ----------------------------------------------------------------------------- */

typedef enum { RUNS, IS_COMPLETE, HAS_ERROR } Answer;

static Answer ask(MPI_Request handle, MPI_Status *status) {
    int done = 0;
    strict_look(handle);
    if (REAL(Request_get_status)(handle, &done, status) != MPI_SUCCESS)
        return HAS_ERROR;
    return done ? IS_COMPLETE : RUNS;
}

bool has_to_ask(void) { return requests_open() > 0 && may_ask(); }

void strict_ask(void) {
    MPI_Status status;
    size_t place = 0;
    if (!strict_asks())
        return;
    Handlers before = errors_return();
    for (Request *request = requests_next_open(&place); request; request = requests_next_open(&place))
        if (ask((MPI_Request)request->handle, &status) == IS_COMPLETE)
            report_end(request, &status);
    put_back(before);
}

/* ---- Looks ------------------------------------------------------------------------------------- */

/* Of one call. */
typedef struct {
    long count, begin, last; /* when it began and when the open requests were asked last, in milliseconds */
} Looks;

static long milliseconds(void) {
    struct timespec now;
    clock_gettime(CLOCK_MONOTONIC, &now);
    return now.tv_sec * 1000L + now.tv_nsec / 1000000;
}

static Looks begin_looks(void) {
    long now = milliseconds();
    return (Looks){.begin = now, .last = now};
}

/* After a look that found nothing: whether there are still requests to be asked. */
static bool look_again(Looks *looks) {
    if (++looks->count > BUSY_LOOKS)
        sched_yield();
    long now = milliseconds();
    if (now - looks->last < BETWEEN)
        return true;
    looks->last = now;
    enter_recorder();
    strict_ask();
    bool more = strict_asks();
    leave_recorder();
    return more;
}

/* ---- Waits for requests ------------------------------------------------------------------------ */

typedef struct {
    const MPI_Request *handles;
    int count, next; /* those before the next one are complete */
    int other;       /* of those after it, the last one that was asked */
    bool is_for_one;
} Awaited;

static bool is_one_over(const Awaited *awaited) {
    MPI_Status status;
    for (int i = 0; i < awaited->count; i++)
        if (ask(awaited->handles[i], &status) != RUNS)
            return true;
    return false;
}

/* An error of any ends the wait for all. Open MPI doesn't show it before, so MPI waits itself after MOST. */
static bool are_all_over(Awaited *awaited) {
    MPI_Status status;
    Answer answer = IS_COMPLETE;
    while (awaited->next < awaited->count && answer == IS_COMPLETE) {
        answer = ask(awaited->handles[awaited->next], &status);
        awaited->next += answer == IS_COMPLETE;
    }
    if (answer != RUNS || awaited->next + 1 == awaited->count)
        return answer != RUNS;
    awaited->other = awaited->other + 1 < awaited->count ? awaited->other + 1 : awaited->next + 1;
    return ask(awaited->handles[awaited->other], &status) == HAS_ERROR;
}

void strict_wait(int count, const MPI_Request handles[], bool is_for_one) {
    Awaited awaited = {.handles = handles, .count = count, .is_for_one = is_for_one};
    Looks looks = begin_looks();
    long most = count > 1 && !is_for_one ? MOST : LONG_MAX;
    Handlers before = errors_return();
    while (!(is_for_one ? is_one_over(&awaited) : are_all_over(&awaited)))
        if (!look_again(&looks) || looks.last - looks.begin > most)
            break;
    put_back(before);
}

int strict_finish(MPI_Request *handle, MPI_Status *status) {
    enter_recorder();
    bool asks = strict_asks();
    leave_recorder();
    if (asks)
        strict_wait(1, handle, false);
    return REAL(Wait)(handle, status);
}

/* ---- Waits for messages ------------------------------------------------------------------------ */

int strict_probe(int source, int tag, MPI_Comm comm, MPI_Message *message, MPI_Status *status) {
    Looks looks = begin_looks();
    int found = 0, result;
    do
        result = message ? REAL(Improbe)(source, tag, comm, &found, message, status)
                         : REAL(Iprobe)(source, tag, comm, &found, status);
    while (result == MPI_SUCCESS && !found && look_again(&looks));
    if (result != MPI_SUCCESS || found)
        return result;
    return message ? REAL(Mprobe)(source, tag, comm, message, status)
                   : REAL(Probe)(source, tag, comm, status);
}
