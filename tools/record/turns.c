/* When a call of the program begins and returns, and in which thread. See calls.h.
 *
 * A recorded call has the turn from its beginning to its return. It has the lock only outside MPI: a thread
 * that waits inside MPI must not keep others from calling.
 */
#define _GNU_SOURCE
#include "calls.h"
#include "bypasses.h"
#include "fatal.h"
#include "modules.h"
#include <time.h>

__thread Thread thread __attribute__((tls_model("initial-exec")));
unsigned long turn_now;

static unsigned long last_turn;
static const void *turn_caller; /* where the program made the call that has the turn */
static bool is_of_first; /* the thread of MPI_Init has the turn */

enum { NEAR = 1 << 16, BUSY_LOOKS = 1000, A_MOMENT = 20000 };

/* The recorder's lock: the thread that has it, or NULL. It opens by a mere store, since a mutex would double
 * what it costs. So nobody can be woken then, and a thread that waits for it looks again and again: it is
 * held for a moment only. */
static const Thread *owner;

static const Thread *first; /* of the thread of MPI_Init */
static bool several;        /* MPI_THREAD_MULTIPLE: threads may call at once */
static bool alone;          /* they did: from then on only calls of the thread of MPI_Init are recorded */

static bool has_lock(void) { return __atomic_load_n(&owner, __ATOMIC_RELAXED) == &thread; }

static bool try_lock(void) {
    const Thread *none = NULL;
    return !__atomic_load_n(&owner, __ATOMIC_RELAXED) &&
           __atomic_compare_exchange_n(&owner, &none, &thread, false, __ATOMIC_ACQUIRE, __ATOMIC_RELAXED);
}

static void take_lock(void) {
    for (int looks = 0; !try_lock(); looks++)
        if (looks > BUSY_LOOKS)
            clock_nanosleep(CLOCK_MONOTONIC, 0, &(struct timespec){.tv_nsec = A_MOMENT}, NULL);
}

static void give_lock(void) { __atomic_store_n(&owner, NULL, __ATOMIC_RELEASE); }

bool another_calls(void) {
    unsigned long now = __atomic_load_n(&turn_now, __ATOMIC_RELAXED);
    return now != 0 && now != thread.turn;
}

/* If several threads may call, the lines of another thread's call may be taken out later. */
bool may_ask(void) { return is_recorded() && !alone && (!several || is_of_first); }

void turns_open(int level) {
    several = level == MPI_THREAD_MULTIPLE;
    first = &thread;
}

bool last_turn_begins(void) {
    if (!try_lock())
        return false;
    if (recording && turn_now == 0)
        return true;
    give_lock();
    return false;
}

void last_turn_ends(void) {
    recording = false;
    give_lock();
}

/* ---- Calls of several threads ------------------------------------------------------------------ */

static const char other_threads[] = "calls of another thread than that of MPI_Init";

/* Another thread is in a call, so the order of the two calls isn't known. The lines of that call are taken
 * out, and it is counted instead; the calls of the thread of MPI_Init stay. The caller counts its own call.
 */
static void two_at_once(void) {
    if (!several) {
        note_two_threads(turn_caller);
        journal_take_back();
        turn_now = 0;
        journal_stop("two threads called MPI at once");
        return;
    }
    if (!is_of_first) {
        journal_take_back();
        turn_now = 0;
        left_out(PARTNERS, other_threads);
    }
    alone = true;
}

static bool may_have_turn(void) {
    bool is_first = &thread == first;
    if (turn_now != 0 && turn_now != thread.turn && !(alone && !is_first))
        two_at_once();
    if (alone && !is_first)
        left_out(PARTNERS, other_threads);
    return recording && (is_first || !alone);
}

bool take_turn(void) {
    take_lock();
    if (recording)
        find_new_bypasses();
    if (!recording || !may_have_turn()) {
        give_lock();
        return false;
    }
    thread.turn = ++last_turn;
    __atomic_store_n(&turn_now, thread.turn, __ATOMIC_RELEASE);
    is_of_first = &thread == first;
    turn_caller = thread.caller;
    thread.site = -1;
    journal_begin();
    return true;
}

static void end_turn(void) {
    journal_came_back();
    __atomic_store_n(&turn_now, 0, __ATOMIC_RELEASE);
    give_lock();
}

/* ---- Calls ------------------------------------------------------------------------------------- */

/* The return address of a function lies next to its frame. If the frame is near, that place can still be
 * read: another value there means that the function was left. */
#if defined __x86_64__ || defined __aarch64__
static bool is_overwritten(void **frame) {
    return thread.frame - frame < NEAR && thread.frame[1] != thread.caller;
}
#else
static bool is_overwritten(void **frame) { return (void)frame, false; }
#endif

/* Whether the call that this thread is inside was left by a jump or an exception. It was if the next call
 * begins above it on the stack. It also was if the next call overwrote it, which happens when that call has
 * more arguments on the stack. */
static bool was_left(const void *caller, void **frame) {
    return frame >= thread.frame || (is_overwritten(frame) && module_of(caller) != OF_MPI);
}

/* A call that was left counts as failed, since what it did isn't known. A handler of a signal may have left
 * it while it had the lock, and before its turn or after it. */
static void forget_call(void) {
    thread.inside = 0;
    if (has_turn()) {
        if (!has_lock())
            take_lock();
        journal_left();
        end_turn();
    } else if (has_lock()) {
        give_lock();
    }
}

bool begins_quietly(void *caller, void *frame) {
    if (thread.inside > 0 && was_left(caller, frame))
        forget_call();
    if (thread.inside++ > 0)
        return false;
    thread.frame = frame;
    thread.caller = caller;
    thread.has_barrier = thread.has_failed = false;
    return recording && take_turn();
}

bool begins(void *caller, void *frame) {
    if (begins_quietly(caller, frame))
        return true;
    if (thread.inside > 1 && recording && has_turn() && module_of(caller) != OF_MPI)
        left_out(PARTNERS, "calls of functions of the program that MPI called");
    return false;
}

void leave_recorder(void) {
    if (thread.inside == 1 && has_lock())
        give_lock();
}

void enter_recorder(void) {
    if (!is_recorded())
        return;
    take_lock();
    if (!has_turn())
        give_lock();
}

int returned(int result) {
    thread.is_hidden = thread.has_failed && result == MPI_SUCCESS;
    return thread.is_hidden ? MPI_ERR_OTHER : result;
}

int over(int result) {
    if (is_recorded()) {
        if (result != MPI_SUCCESS)
            journal_failed();
        end_turn();
    }
    thread.inside--;
    return thread.has_failed && thread.is_hidden && result == MPI_ERR_OTHER ? MPI_SUCCESS : result;
}

/* ---- Barriers of strict runs ------------------------------------------------------------------- */

void want_barrier(MPI_Comm comm) {
    thread.has_barrier = true;
    thread.barrier = comm;
}

bool take_barrier(MPI_Comm *comm) {
    bool had_one = thread.has_barrier;
    *comm = thread.barrier;
    thread.has_barrier = false;
    return had_one;
}

/* ---- Error handlers ---------------------------------------------------------------------------- */

/* Takes the lock while this thread has the turn. It doesn't block on the lock: its owner may wait for
 * something that this thread holds inside MPI. */
static bool take_lock_of_turn(void) {
    while (!has_lock() && !try_lock())
        if (!has_turn())
            return false;
    return has_turn();
}

/* Calls of the handler are recorded like all others. */
Thread leave_by_error(void) {
    Thread before = thread;
    before.had_lock = has_lock();
    if (has_turn() && take_lock_of_turn()) {
        journal_failed();
        end_turn();
    } else {
        before.turn = 0;
        if (has_lock())
            give_lock();
    }
    MPI_Comm comm;
    if (take_barrier(&comm))
        REAL(Barrier)(comm);
    before.has_barrier = false;
    thread.inside = 0;
    return before;
}

/* The call continues, but its lines are already complete. */
void come_back_to_error(Thread before) {
    thread = before;
    thread.has_failed = true;
    if (before.turn == 0)
        return;
    take_lock();
    if (recording && turn_now == 0) {
        turn_now = thread.turn;
        journal_begin();
    }
    if (!before.had_lock)
        give_lock();
}
