/* Requests, as they are started, freed and cancelled. See calls.h. */
#define _GNU_SOURCE
#include "calls.h"

static int last;

int new_number(void) { return journal_is_full ? 0 : ++last; }

void restart_numbers(void) { last = 0; }

/* ---- Completed requests of the recorder's own -------------------------------------------------- */

/* Libraries give one and the same handle to all calls that complete at once. The program then gets a
 * completed request of its own instead, so that its later wait shows which call it is for. To make one costs
 * much, so after its wait it serves another call. */
struct Done {
    MPI_Request handle;
    MPI_Status status; /* what the library's request had */
    bool is_unused;    /* no call has it */
    bool is_gone;      /* the library freed it; then it stays until nothing here has it */
    struct Done *next; /* of those that are unused */
};

static struct Done *unused;

static int query_done(void *kept, MPI_Status *status) {
    int error = status->MPI_ERROR; /* which the library sets by itself */
    *status = ((struct Done *)kept)->status;
    status->MPI_ERROR = error;
    return MPI_SUCCESS;
}

/* The program may complete it where that isn't recorded: in a function that MPI calls, or in another thread.
 * Then the table still has it, and the library may give its handle to another request. */
static int free_done(void *kept) {
    __atomic_store_n(&((struct Done *)kept)->is_gone, true, __ATOMIC_RELEASE);
    return MPI_SUCCESS;
}

static bool is_gone(const struct Done *done) { return __atomic_load_n(&done->is_gone, __ATOMIC_ACQUIRE); }

void forget_done(struct Done *done) {
    if (done && is_gone(done) && !done->is_unused)
        free(done);
}

Request *request_of(uintptr_t handle) {
    Request *request = requests_find(handle);
    if (!request || !request->done || !is_gone(request->done))
        return request;
    requests_remove(request);
    return NULL;
}

static int cancel_done(void *none, int complete) { return (void)none, (void)complete, MPI_SUCCESS; }

static struct Done *make_done(void) {
    struct Done *done = calloc(1, sizeof *done);
    if (!done)
        return NULL;
    REAL(Grequest_start)(query_done, free_done, cancel_done, done, &done->handle);
    REAL(Grequest_complete)(done->handle);
    return done;
}

/* A program may wait once more for one that is unused, by a copy of its handle, which is its error. */
static struct Done *take_done(void) {
    struct Done *done;
    while ((done = unused)) {
        unused = done->next;
        done->is_unused = false;
        if (!is_gone(done))
            return done;
        free(done);
    }
    return make_done();
}

/* It may also name a request twice in one wait. */
static void keep_done(struct Done *done) {
    if (done->is_unused)
        return;
    done->is_unused = true;
    done->next = unused;
    unused = done;
}

void free_unused_requests(void) {
    for (struct Done *done = unused; done; done = unused) {
        unused = done->next;
        if (!is_gone(done))
            REAL(Request_free)(&done->handle);
        free(done);
    }
}

MPI_Request handle_of(const struct Done *done) { return done->handle; }

void waited_for(struct Done *done, MPI_Status *status, bool has_error) {
    if (status)
        query_done(done, status);
    if (status && has_error)
        status->MPI_ERROR = MPI_SUCCESS;
    if (is_recorded())
        keep_done(done);
}

/* MPI_Test of MPICH works on all that is under way, even if the request is complete; MPI_Wait doesn't. */
static bool is_complete(MPI_Request *handle, MPI_Status *status) {
    int done = 0;
    REAL(Request_get_status)(*handle, &done, MPI_STATUS_IGNORE);
    return done && REAL(Wait)(handle, status) == MPI_SUCCESS;
}

/* A handle that isn't complete was reused: the wait for its old call wasn't seen, or returned an error. */
static bool make_distinct(MPI_Request *handle, struct Done **own) {
    struct Done *done = take_done();
    if (!done)
        return false;
    done->status = (MPI_Status){0}; /* the library may leave parts of it unset */
    if (is_complete(handle, &done->status))
        *handle = done->handle, *own = done;
    else
        keep_done(done);
    return true;
}

/* ---- Starts ------------------------------------------------------------------------------------ */

static Request *added(MPI_Request handle) {
    Request *request = requests_add(bits(handle));
    if (!request)
        journal_stop("there is no memory for its requests");
    return request;
}

Request *started(MPI_Request *handle, int number) {
    struct Done *done = NULL;
    if (request_of(bits(*handle)) && !make_distinct(handle, &done)) {
        journal_stop("there is no memory for its requests");
        return NULL;
    }
    Request *request = added(*handle);
    if (request) {
        request->number = journal_is_full ? 0 : number; /* `full' may have come in place of its line */
        request->site = journal_site;
        request->active = true;
        request->done = done;
    }
    return request;
}

void made_persistent(MPI_Request *handle) {
    Request *request = added(*handle);
    if (request)
        request->persistent = true;
}

/* ---- Generalized requests, which the program completes itself ---------------------------------- */

int MPI_Grequest_start(MPI_Grequest_query_function *query, MPI_Grequest_free_function *release,
                       MPI_Grequest_cancel_function *cancel, void *state, MPI_Request *handle) {
    BEGINS_QUIETLY;
    int result = CALL(Grequest_start, (query, release, cancel, state, handle));
    if (is_recorded() && result == MPI_SUCCESS)
        started(handle, 0);
    return over(result);
}
ALSO_PMPI(Grequest_start)

/* ---- Free and cancel --------------------------------------------------------------------------- */

/* A line for each number of a request; one that both sends and receives has two. */
static void put_each(const char *word, const Request *request) {
    if (!request->active || !request->number)
        return;
    PUT(word, request->number);
    if (request->second)
        PUT(word, request->second);
}

/* Whether it isn't known what becomes of one that is freed. */
static bool is_unknown(const Request *request) {
    bool receives = request->message || (request->receive.is_there && request->receive.source != NULL_PEER);
    bool is_open = receives || request->cancelled || request->comm || request->place;
    return request->active && !request->told && is_open;
}

int MPI_Request_free(MPI_Request *handle) {
    uintptr_t freed = BEGINS_QUIETLY ? bits(*handle) : 0;
    Request *request = request_of(freed);
    if (request)
        put_each("request_free", request);
    in_doubt = in_doubt || (request && is_unknown(request));
    int result = CALL(Request_free, (handle));
    request = is_recorded() && result == MPI_SUCCESS ? requests_find(freed) : NULL;
    if (request)
        requests_remove(request);
    return over(result);
}
ALSO_PMPI(Request_free)

/* If it fails, nothing is reported of what became of the request. One of which that is already written has
 * no line: in a later window it is no receive any more. */
int MPI_Cancel(MPI_Request *handle) {
    Request *request = BEGINS_QUIETLY ? request_of(bits(*handle)) : NULL;
    bool is_put = request && request->active && request->number && !request->told;
    if (is_put)
        put_each("cancel", request);
    int result = CALL(Cancel, (handle));
    request = is_put && is_recorded() && result == MPI_SUCCESS ? requests_find(bits(*handle)) : NULL;
    if (request) {
        request->cancelled = true;
        request_opens(request);
    }
    return over(result);
}
ALSO_PMPI(Cancel)
