/* Waits and tests: a rank completes some of its requests in one of many ways. See random.h. */
#include "random.h"
#include <sched.h>

enum { MOST_WAITED = 2 * MOST_OPEN, MOST_INACTIVE = 4, UNKNOWN_TAG = -99 };

/* What is waited for: some active requests, with others between them that are null or inactive. */
static struct {
    int count, left;  /* how many there are, and how many active ones are left */
    bool from_nobody; /* one may be a receive from MPI_PROC_NULL */
    MPI_Request handles[MOST_WAITED];
    MPI_Status statuses[MOST_WAITED];
    bool is_active[MOST_WAITED];
} set;

/* Persistent requests that aren't started. */
static struct {
    MPI_Request handle;
    int comm, *data;
} inactive[MOST_INACTIVE];

/* ---- Ways -------------------------------------------------------------------------------------- */

static void completed(int at, const MPI_Status *status) {
    if (!set.is_active[at])
        complain("a wait chose what isn't active");
    set.is_active[at] = false;
    set.left--;
    if (status)
        set.statuses[at] = *status;
}

/* MPICH takes a receive from MPI_PROC_NULL that was started as inactive. */
static void none_is_active(void) {
    if (!set.from_nobody)
        complain("a wait or test knows no active request");
    set.left = 0;
}

static void by_wait(void) {
    int from = mine(set.count);
    for (int i = 0; i < set.count; i++) {
        int at = (from + i) % set.count;
        MPI_Wait(&set.handles[at], set.is_active[at] ? &set.statuses[at] : MPI_STATUS_IGNORE);
    }
}

static void by_waitall(void) { MPI_Waitall(set.count, set.handles, set.statuses); }

static void by_waitall_ignoring(void) { MPI_Waitall(set.count, set.handles, MPI_STATUSES_IGNORE); }

static void one_by_waitany(void) {
    MPI_Status status;
    int at = MPI_UNDEFINED, ignores = mine(3) == 0;
    MPI_Waitany(set.count, set.handles, &at, ignores ? MPI_STATUS_IGNORE : &status);
    if (at == MPI_UNDEFINED)
        none_is_active();
    else
        completed(at, ignores ? NULL : &status);
}

static void by_waitany(void) {
    while (set.left > 0)
        one_by_waitany();
}

static void by_waitany_and_waitall(void) {
    one_by_waitany();
    MPI_Waitall(set.count, set.handles, MPI_STATUSES_IGNORE);
}

static void some(int count, const int places_done[], const MPI_Status statuses[]) {
    if (count == MPI_UNDEFINED)
        none_is_active();
    for (int i = 0; i < count; i++)
        completed(places_done[i], statuses ? &statuses[i] : NULL);
}

static void by_waitsome(void) {
    static int done[MOST_WAITED];
    static MPI_Status statuses[MOST_WAITED];
    while (set.left > 0) {
        int count = 0, ignores = mine(3) == 0;
        MPI_Waitsome(set.count, set.handles, &count, done, ignores ? MPI_STATUSES_IGNORE : statuses);
        some(count, done, ignores ? NULL : statuses);
    }
}

static void by_testsome(void) {
    static int done[MOST_WAITED];
    static MPI_Status statuses[MOST_WAITED];
    for (; set.left > 0; sched_yield()) {
        int count = 0, ignores = mine(3) == 0;
        MPI_Testsome(set.count, set.handles, &count, done, ignores ? MPI_STATUSES_IGNORE : statuses);
        some(count, done, ignores ? NULL : statuses);
    }
}

static void by_testany(void) {
    for (; set.left > 0; sched_yield()) {
        MPI_Status status;
        int at = MPI_UNDEFINED, done = 0;
        MPI_Testany(set.count, set.handles, &at, &done, &status);
        if (done && at == MPI_UNDEFINED)
            none_is_active();
        else if (done)
            completed(at, &status);
    }
}

static void by_testall(void) {
    int ignores = mine(3) == 0;
    for (int done = 0; !done; sched_yield())
        MPI_Testall(set.count, set.handles, &done, ignores ? MPI_STATUSES_IGNORE : set.statuses);
}

static void by_test(void) {
    for (int at = 0, done; at < set.count; at += done) {
        done = 0;
        MPI_Test(&set.handles[at], &done, set.is_active[at] ? &set.statuses[at] : MPI_STATUS_IGNORE);
        sched_yield();
    }
}

static void by_look(void) {
    for (int at = 0; at < set.count; at++) {
        for (int done = 0; !done; sched_yield())
            MPI_Request_get_status(set.handles[at], &done, MPI_STATUS_IGNORE);
        MPI_Wait(&set.handles[at], set.is_active[at] ? &set.statuses[at] : MPI_STATUS_IGNORE);
    }
}

static void (*const ways[])(void) = {
    by_wait, by_waitall, by_waitall_ignoring, by_waitany, by_waitany_and_waitall, by_waitsome, by_testsome,
    by_testany, by_testall, by_test, by_look,
};

/* ---- The set ----------------------------------------------------------------------------------- */

static void put(MPI_Request handle, bool is_active) {
    set.handles[set.count] = handle;
    set.statuses[set.count].MPI_TAG = UNKNOWN_TAG;
    set.is_active[set.count++] = is_active;
}

static void put_others(void) {
    int at = mine(3 * MOST_INACTIVE);
    if (mine(4) == 0)
        put(MPI_REQUEST_NULL, false);
    if (at < MOST_INACTIVE && inactive[at].data)
        put(inactive[at].handle, false);
}

void complete_with_nobody(int count, MPI_Request handles[], MPI_Status statuses[]) {
    set.from_nobody = true;
    complete(count, handles, statuses);
    set.from_nobody = false;
}

/* The statuses that are known have a tag; those of others have UNKNOWN_TAG. */
void complete(int count, MPI_Request handles[], MPI_Status statuses[]) {
    static int from[MOST_WAITED];
    if (count == 0)
        return;
    set.count = 0;
    set.left = count;
    put_others();
    for (int i = 0; i < count; i++) {
        from[i] = set.count;
        put(handles[i], handles[i] != MPI_REQUEST_NULL);
        set.left -= handles[i] == MPI_REQUEST_NULL; /* what a fault left out */
        if (i == count / 2 && count < MOST_OPEN)
            put_others();
    }
    if (set.left > 0)
        ways[mine(sizeof ways / sizeof *ways)]();
    for (int i = 0; i < count; i++) {
        handles[i] = set.handles[from[i]];
        statuses[i] = set.statuses[from[i]];
    }
}

void keep_inactive(MPI_Request handle, int comm, int *data) {
    int at = mine(MOST_INACTIVE);
    if (inactive[at].data) {
        MPI_Request_free(&inactive[at].handle);
        free(inactive[at].data);
    }
    inactive[at].handle = handle;
    inactive[at].comm = comm;
    inactive[at].data = data;
}

void drop_inactive(int comm) {
    for (int at = 0; at < MOST_INACTIVE; at++) {
        if (!inactive[at].data || (comm != NOBODY && inactive[at].comm != comm))
            continue;
        MPI_Request_free(&inactive[at].handle);
        free(inactive[at].data);
        inactive[at].data = NULL;
    }
}

/* ---- Steps ------------------------------------------------------------------------------------- */

static void close_open(const Open *open, const MPI_Status *status) {
    if (open->is_receive && open->message != NOBODY)
        check_message(&messages[open->message], open->data, status->MPI_TAG == UNKNOWN_TAG ? NULL : status);
    if (open->is_persistent && open->handle != MPI_REQUEST_NULL)
        keep_inactive(open->handle, open->comm, open->data);
    else
        free(open->data);
}

static void finish(int count, const int chosen[]) {
    static MPI_Request handles[MOST_OPEN];
    static MPI_Status statuses[MOST_OPEN];
    for (int i = 0; i < count; i++)
        handles[i] = opens[chosen[i]].handle;
    complete(count, handles, statuses);
    for (int i = 0; i < count; i++) {
        opens[chosen[i]].handle = opens[chosen[i]].is_persistent ? handles[i] : MPI_REQUEST_NULL;
        close_open(&opens[chosen[i]], &statuses[i]);
    }
}

/* Those of a rank for which it may wait, or one of the others. */
static int choose(int rank, int chosen[], int of, bool is_early) {
    int count = 0;
    for (int i = 0; i < open_count; i++)
        if (opens[i].owner == rank && is_ready(&opens[i]) != is_early && draw(of) == 0)
            chosen[count++] = i;
    return is_early && count > 1 ? 1 : count;
}

static void complete_of(int rank, int of, bool is_early) {
    static int chosen[MOST_OPEN];
    int count = choose(rank, chosen, of, is_early);
    if (rank == me)
        finish(count, chosen);
    for (int i = count - 1; i >= 0; i--)
        forget(&opens[chosen[i]]);
}

void step_complete(void) {
    int rank = draw(ranks), of = 1 + draw(3);
    complete_of(rank, of, false);
    if (fault == FAULT_EARLY) {
        int before = open_count;
        complete_of(rank, 1, true);
        if (open_count < before)
            fault = FAULT_NONE;
    }
}

static bool is_one_pending(void) {
    for (int i = 0; i < message_count; i++)
        if (messages[i].is_sent != messages[i].is_received)
            return true;
    return false;
}

void finish_all(void) {
    while (is_one_pending())
        step_other_half();
    for (int rank = 0; rank < ranks; rank++)
        complete_of(rank, 1, false);
}
