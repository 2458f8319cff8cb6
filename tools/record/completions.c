/* Waits and tests. See calls.h. */
#define _GNU_SOURCE
#include "strict.h"
#include "sums.h"

enum { FEW = 64, MOST_ASKED = MOST_FIELDS / 2 };

/* One request of a wait or a test, as it was before the call. */
typedef struct {
    uintptr_t handle;
    int number, second; /* 0 where it isn't active or has none */
    struct Done *done;  /* a completed request of the recorder's own; else NULL */
} Named;

/* The line that a wait for one or some requests writes before it returns. */
typedef enum { NO_LINE, WAIT_LINE, CHOICE_LINE } Line;

/* A wait or a test, and room for what it needs. */
typedef struct {
    int count;
    bool begun, needed; /* statuses are needed if a request is open */
    bool has_others;    /* it waits for active requests of calls that aren't recorded */
    int named, pairs;   /* how many of its requests are active; how many of these both send and receive */
    int open;           /* how many are open (requests.h) */
    int dones;          /* how many are completed ones of the recorder's own */
    Line line;
    bool has_place;    /* its statuses go somewhere */
    MPI_Status *place; /* where */
    bool is_for_all;   /* there is a status for each request, in their order */
    Named *requests;
    Field *packed;
    MPI_Status *statuses;
    /* The word of a choice among more than MOST_ASKED; else NULL. */
    const char *long_word;
    void *memory; /* of more than a few */
    Named few_requests[FEW];
    Field few_packed[2 * FEW];
    MPI_Status few_statuses[FEW];
} Asked;

static const char others[] = "waits and tests for requests of calls that aren't recorded";

static bool make_room(Asked *asked) {
    asked->requests = asked->few_requests;
    asked->packed = asked->few_packed;
    asked->statuses = asked->few_statuses;
    if (asked->count <= FEW)
        return true;
    asked->memory = calloc(asked->count, sizeof(MPI_Status) + sizeof(Named) + 2 * sizeof(Field));
    if (!asked->memory)
        return false;
    asked->packed = asked->memory;
    asked->requests = (Named *)(asked->packed + 2 * (size_t)asked->count);
    asked->statuses = (MPI_Status *)(asked->requests + asked->count);
    return true;
}

static void look_at(Asked *asked, Named *named) {
    const Request *request = request_of(named->handle);
    if (request && !request->active)
        return;
    if (!request || !request->number) {
        asked->has_others = true;
        if (!journal_is_full)
            left_out(WAITS, others);
        return;
    }
    named->number = request->number;
    named->second = request->second;
    named->done = request->done;
    asked->dones += request->done != NULL;
    asked->named++;
    asked->pairs += request->second != 0;
    asked->open += request->open;
    asked->needed = asked->needed || request->open;
}

static void ask(Asked *asked, bool begun, int count, const MPI_Request handles[]) {
    asked->begun = begun;
    asked->count = count;
    asked->needed = asked->has_others = asked->is_for_all = false;
    asked->named = asked->pairs = asked->open = asked->dones = 0;
    asked->line = NO_LINE;
    asked->memory = NULL;
    if (begun && !make_room(asked)) {
        journal_stop("there is no memory for the requests of a wait");
        asked->begun = false;
    }
    for (int i = 0; asked->begun && i < count; i++) {
        asked->requests[i] = (Named){.handle = bits(handles[i])};
        if (asked->requests[i].handle)
            look_at(asked, &asked->requests[i]);
    }
}

/* The statuses go where the program wants them, or into ours if the program ignores them and we need them. */
static MPI_Status *place_for(Asked *asked, MPI_Status *theirs, const MPI_Status *none) {
    asked->place = asked->needed && theirs == none ? asked->statuses : theirs;
    asked->has_place = asked->place != none;
    return asked->place;
}

/* Whether the call is still recorded, now that it has returned. */
static bool is_back(const Asked *asked) { return asked->begun && is_recorded(); }

static int done(Asked *asked, int result) {
    free(asked->memory);
    return over(result);
}

/* ---- Lines ------------------------------------------------------------------------------------- */

/* The numbers of the active requests at some places (NULL: all). */
static int pack(const Asked *asked, int count, const int places[]) {
    int packed = 0;
    for (int i = 0; i < count; i++) {
        const Named *named = &asked->requests[places ? places[i] : i];
        if (named->number)
            asked->packed[packed++] = named->number;
        if (named->second)
            asked->packed[packed++] = named->second;
    }
    return packed;
}

/* A line for the requests at some places, or several if one line can't hold them. */
static void put_list(const char *word, const Asked *asked, int count, const int places[]) {
    int all = pack(asked, count, places);
    for (int from = 0; from < all; from += MOST_FIELDS) {
        int part = all - from < MOST_FIELDS ? all - from : MOST_FIELDS;
        journal_call(word, part, asked->packed + from, site());
    }
}

/* A wait that has no line while it lasts: it is counted. Once it came back, all is known of it. */
static void count_choice(void) {
    bool doubt = in_doubt;
    if (!journal_is_full)
        left_out(WAITS, "waits for any of more requests than a line of a journal holds");
    in_doubt = doubt;
}

/* The line of a wait for one or some. There is none before the call returns if a request without a number may
 * complete it, or if one line can't hold it: several lines would be several waits. A wait for one request
 * that both sends and receives is a wait for both of its numbers. */
static void put_choice(const char *word, bool is_for_one, Asked *asked) {
    if (!asked->begun || asked->has_others || asked->named == 0)
        return;
    if (asked->pairs > 0 && is_for_one && asked->named > 1)
        return;
    int all = pack(asked, asked->count, NULL);
    if (!fits_line(all, asked->packed)) {
        count_choice();
        return;
    }
    asked->line = asked->pairs > 0 && is_for_one ? WAIT_LINE : CHOICE_LINE;
    asked->long_word = asked->named > MOST_ASKED ? word : NULL;
    journal_call(asked->line == WAIT_LINE ? "wait" : word, all, asked->packed, site());
}

/* The requests that it chose. Now a long line names these alone, which is worth the same: many waits for many
 * would fill the disk. */
static void report_choice(Asked *asked, int count, const int places[]) {
    if (asked->line == NO_LINE)
        put_list("test", asked, count, places);
    if (asked->line != CHOICE_LINE)
        return;
    int all = pack(asked, count, places);
    if (asked->long_word && journal_rewrites())
        journal_call(asked->long_word, all, asked->packed, site());
    journal_report("=chose", all, asked->packed);
}

/* ---- Completed requests ------------------------------------------------------------------------ */

/* Answers whether it was cancelled. */
static bool report_half(int number, bool wild, const Request *request, const MPI_Status *status) {
    int gone = 0;
    if (request->cancelled)
        REAL(Test_cancelled)(status, &gone);
    if (wild && !gone)
        journal_done(number, status->MPI_SOURCE, status->MPI_TAG);
    else if (request->cancelled)
        REPORT(gone ? "=gone" : "=kept", number);
    return gone;
}

/* One that both sends and receives has two ends. */
void report_end(Request *request, const MPI_Status *status) {
    if (!request->open)
        return;
    bool first = report_half(request->number, request->wild && !request->second, request, status);
    bool last = request->second ? report_half(request->second, request->wild, request, status) : first;
    settles(request, first, last, status);
    request_closes(request);
    request->told = true;
}

/* It completed. */
static void settle(Request *request, const MPI_Status *status) {
    if (request->told)
        return;
    if (status && request->open) {
        report_end(request, status);
        return;
    }
    if (request->cancelled && !status)
        in_doubt = true;
    settles(request, false, false, status);
}

/* A request is no longer in use. A persistent one may be started again. */
static void drop(Request *request) {
    if (!request)
        return;
    if (!request->persistent) {
        requests_remove(request);
        return;
    }
    request_closes(request);
    request->active = request->cancelled = request->told = false;
    request->number = 0;
}

static MPI_Comm made_by(const Request *request) {
    if (request->place)
        return *(const MPI_Comm *)request->place;
    return request->comm ? (MPI_Comm)request->comm : MPI_COMM_NULL;
}

/* A communicator can't be reported after a wait that failed. */
static void finish(uintptr_t handle, const MPI_Status *status, bool failed) {
    Request *request = requests_find(handle);
    if (!request || !request->active)
        return;
    int number = request->number;
    if (number)
        settle(request, status);
    MPI_Comm made = made_by(request);
    uint64_t origin = request->origin;
    drop(request);
    if (number && made != MPI_COMM_NULL && !failed)
        adopt_duplicate(number, made, origin);
}

/* The requests at these places (NULL: all) completed. */
static void finish_all(const Asked *asked, int count, const int places[]) {
    for (int i = 0; i < count; i++)
        finish(asked->requests[places ? places[i] : i].handle, asked->needed ? &asked->place[i] : NULL,
               false);
}

/* The call returned an error. The statuses may say that some requests completed; other handles may be null
 * now.
 */
static void sort_out(const Asked *asked, int result, const MPI_Request handles[]) {
    int class = MPI_SUCCESS;
    REAL(Error_class)(result, &class);
    bool is_known = asked->is_for_all && asked->needed && class == MPI_ERR_IN_STATUS;
    journal_failed();
    for (int i = 0; i < asked->count; i++) {
        if (is_known && asked->place[i].MPI_ERROR == MPI_SUCCESS)
            finish(asked->requests[i].handle, &asked->place[i], true);
        else if (asked->requests[i].handle != 0 && bits(handles[i]) == 0)
            drop(requests_find(asked->requests[i].handle));
    }
}

/* A test that found nothing, or returned an error. */
static void found_none(const Asked *asked, Poll poll, const char *what, int result,
                       const MPI_Request handles[]) {
    if (result == MPI_SUCCESS) {
        left_out(NOTHING, what);
        journal_polled(poll, site());
        return;
    }
    put_list("test", asked, asked->count, NULL);
    sort_out(asked, result, handles);
}

/* The library has none of these as active, although the recorder has. MPICH does so with persistent requests
 * from MPI_PROC_NULL, which wait for nobody. */
static void none_active(Asked *asked) {
    int all = pack(asked, asked->count, NULL), chosen = asked->line == CHOICE_LINE;
    if (chosen)
        journal_report("=chose", 1, asked->packed);
    if (all > chosen && asked->line != WAIT_LINE)
        journal_call("test", all - chosen, asked->packed + chosen, site());
    for (int i = 0; i < asked->count; i++)
        finish(asked->requests[i].handle, NULL, false);
}

/* ---- Completed requests of the recorder's own -------------------------------------------------- */

/* The library isn't asked to wait for those: it would free them, and so they can serve again. */
static void take_out(const Asked *asked, MPI_Request handles[]) {
    for (int i = 0; asked->dones && i < asked->count; i++)
        if (asked->requests[i].done)
            handles[i] = MPI_REQUEST_NULL;
}

/* If the library refused the call, the program has them still. */
static void put_back(const Asked *asked, int result, MPI_Request handles[]) {
    int class = MPI_SUCCESS;
    if (result != MPI_SUCCESS)
        REAL(Error_class)(result, &class);
    for (int i = 0; asked->dones && i < asked->count; i++) {
        struct Done *done = asked->requests[i].done;
        MPI_Status *status = asked->has_place ? &asked->place[i] : NULL;
        if (done && class != MPI_SUCCESS && class != MPI_ERR_IN_STATUS)
            handles[i] = handle_of(done);
        else if (done)
            waited_for(done, status, asked->is_for_all);
    }
}

/* ---- Waits ------------------------------------------------------------------------------------- */

/* In a strict run the recorder waits itself if there are requests to be asked meanwhile, other than those
 * whose completion ends the wait. */
static void linger(const Asked *asked, bool is_for_one) {
    MPI_Request active[MOST_ASKED];
    int count = 0, own = is_for_one || asked->named == 1 ? asked->open : 0;
    if (!asked->begun || asked->named == 0 || asked->named > MOST_ASKED || asked->has_others)
        return;
    if (requests_open() == own || !strict_asks())
        return;
    for (int i = 0; i < asked->count; i++)
        if (asked->requests[i].number)
            active[count++] = (MPI_Request)asked->requests[i].handle;
    leave_recorder();
    strict_wait(count, active, is_for_one);
    enter_recorder();
}

int MPI_Wait(MPI_Request *handle, MPI_Status *status) {
    Asked asked;
    ask(&asked, BEGINS, 1, handle);
    MPI_Status *place = place_for(&asked, status, MPI_STATUS_IGNORE);
    if (asked.named)
        put_list("wait", &asked, 1, NULL);
    linger(&asked, false);
    take_out(&asked, handle);
    int result = CALL(Wait, (handle, place));
    put_back(&asked, result, handle);
    if (is_back(&asked) && result == MPI_SUCCESS)
        finish_all(&asked, 1, NULL);
    else if (is_back(&asked))
        sort_out(&asked, result, handle);
    return done(&asked, result);
}
ALSO_PMPI(Wait)

static int wait_for_all(bool begun, int count, MPI_Request handles[], MPI_Status statuses[]) {
    Asked asked;
    ask(&asked, begun, count, handles);
    asked.is_for_all = true;
    MPI_Status *place = place_for(&asked, statuses, MPI_STATUSES_IGNORE);
    if (asked.named)
        put_list("wait", &asked, count, NULL);
    linger(&asked, false);
    take_out(&asked, handles);
    int result = CALL(Waitall, (count, handles, place));
    put_back(&asked, result, handles);
    if (is_back(&asked) && result == MPI_SUCCESS)
        finish_all(&asked, count, NULL);
    else if (is_back(&asked))
        sort_out(&asked, result, handles);
    free(asked.memory);
    return result;
}

/* A line has room for the numbers of MOST_ASKED requests. A wait for more is one for each part of them, so
 * that the last line names requests for which the rank waits. After an error the later ones are pending. */
int MPI_Waitall(int count, MPI_Request handles[], MPI_Status statuses[]) {
    bool begun = BEGINS, has_statuses = statuses != MPI_STATUSES_IGNORE;
    int result, from = 0;
    do {
        int part = begun && count - from > MOST_ASKED ? MOST_ASKED : count - from;
        if (from > 0 && is_recorded())
            journal_begin();
        result = wait_for_all(begun, part, &handles[from], has_statuses ? &statuses[from] : statuses);
        from += part;
    } while (from < count && result == MPI_SUCCESS);
    for (; has_statuses && from < count; from++)
        statuses[from].MPI_ERROR = MPI_ERR_PENDING;
    return over(result);
}
ALSO_PMPI(Waitall)

int MPI_Waitany(int count, MPI_Request handles[], int *chosen, MPI_Status *status) {
    Asked asked;
    ask(&asked, BEGINS, count, handles);
    MPI_Status *place = place_for(&asked, status, MPI_STATUS_IGNORE);
    put_choice("waitany", true, &asked);
    linger(&asked, true);
    int result = CALL(Waitany, (count, handles, chosen, place));
    if (is_back(&asked) && result != MPI_SUCCESS) {
        sort_out(&asked, result, handles);
    } else if (is_back(&asked) && *chosen == MPI_UNDEFINED) {
        none_active(&asked);
    } else if (is_back(&asked)) {
        report_choice(&asked, 1, chosen);
        finish_all(&asked, 1, chosen);
    }
    return done(&asked, result);
}
ALSO_PMPI(Waitany)

int MPI_Waitsome(int count, MPI_Request handles[], int *some, int places[], MPI_Status statuses[]) {
    Asked asked;
    ask(&asked, BEGINS, count, handles);
    MPI_Status *place = place_for(&asked, statuses, MPI_STATUSES_IGNORE);
    put_choice("waitsome", false, &asked);
    linger(&asked, true);
    int result = CALL(Waitsome, (count, handles, some, places, place));
    if (is_back(&asked) && result != MPI_SUCCESS) {
        sort_out(&asked, result, handles);
    } else if (is_back(&asked) && *some == MPI_UNDEFINED) {
        none_active(&asked);
    } else if (is_back(&asked)) {
        report_choice(&asked, *some, places);
        finish_all(&asked, *some, places);
    }
    return done(&asked, result);
}
ALSO_PMPI(Waitsome)

/* ---- Tests ------------------------------------------------------------------------------------- */

int MPI_Test(MPI_Request *handle, int *found, MPI_Status *status) {
    Asked asked;
    ask(&asked, BEGINS, 1, handle);
    MPI_Status *place = place_for(&asked, status, MPI_STATUS_IGNORE);
    int result = CALL(Test, (handle, found, place));
    if (is_back(&asked) && (result != MPI_SUCCESS || !*found)) {
        found_none(&asked, TEST, "MPI_Test, found nothing", result, handle);
    } else if (is_back(&asked)) {
        put_list("test", &asked, 1, NULL);
        finish_all(&asked, 1, NULL);
    }
    return done(&asked, result);
}
ALSO_PMPI(Test)

/* Without statuses and for more than 64 requests, MPICH 4.0 handles all requests as those of sends and
 * receives. The completed requests of starts.c aren't, so statuses are always asked for then. */
int MPI_Testall(int count, MPI_Request handles[], int *found, MPI_Status statuses[]) {
    Asked asked;
    ask(&asked, BEGINS, count, handles);
    asked.needed = asked.begun && (asked.needed || count > 64);
    asked.is_for_all = true;
    MPI_Status *place = place_for(&asked, statuses, MPI_STATUSES_IGNORE);
    int result = CALL(Testall, (count, handles, found, place));
    if (is_back(&asked) && (result != MPI_SUCCESS || !*found)) {
        found_none(&asked, TESTALL, "MPI_Testall, found nothing", result, handles);
    } else if (is_back(&asked)) {
        put_list("test", &asked, count, NULL);
        finish_all(&asked, count, NULL);
    }
    return done(&asked, result);
}
ALSO_PMPI(Testall)

int MPI_Testany(int count, MPI_Request handles[], int *chosen, int *found, MPI_Status *status) {
    Asked asked;
    ask(&asked, BEGINS, count, handles);
    MPI_Status *place = place_for(&asked, status, MPI_STATUS_IGNORE);
    int result = CALL(Testany, (count, handles, chosen, found, place));
    if (is_back(&asked) && (result != MPI_SUCCESS || !*found)) {
        found_none(&asked, TESTANY, "MPI_Testany, found nothing", result, handles);
    } else if (is_back(&asked) && *chosen == MPI_UNDEFINED) {
        none_active(&asked);
    } else if (is_back(&asked)) {
        put_list("test", &asked, 1, chosen);
        finish_all(&asked, 1, chosen);
    }
    return done(&asked, result);
}
ALSO_PMPI(Testany)

int MPI_Testsome(int count, MPI_Request handles[], int *some, int places[], MPI_Status statuses[]) {
    Asked asked;
    ask(&asked, BEGINS, count, handles);
    MPI_Status *place = place_for(&asked, statuses, MPI_STATUSES_IGNORE);
    int result = CALL(Testsome, (count, handles, some, places, place));
    if (is_back(&asked) && (result != MPI_SUCCESS || *some == 0)) {
        found_none(&asked, TESTSOME, "MPI_Testsome, found nothing", result, handles);
    } else if (is_back(&asked) && *some == MPI_UNDEFINED) {
        none_active(&asked);
    } else if (is_back(&asked)) {
        put_list("test", &asked, *some, places);
        finish_all(&asked, *some, places);
    }
    return done(&asked, result);
}
ALSO_PMPI(Testsome)

int MPI_Request_get_status(MPI_Request handle, int *found, MPI_Status *status) {
    if (BEGINS_QUIETLY)
        left_out(NOTHING, "MPI_Request_get_status");
    if (is_strict())
        strict_look(handle);
    int result = CALL(Request_get_status, (handle, found, status));
    if (is_recorded() && result == MPI_SUCCESS && !*found)
        journal_polled(GET_STATUS, site());
    return over(result);
}
ALSO_PMPI(Request_get_status)
