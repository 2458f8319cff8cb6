/* Windows. See windows.h.
 *
 * From a barrier no rank goes on before all have come, nor from an allreduce, allgather or alltoall of at
 * least one byte. Behind such a call, of a communicator of all ranks, the ranks exchange what is under way
 * (sums.h), on a communicator of the recorder's own. If that is nothing, and some rank has written as many
 * lines as a window has, all cut their journals right there.
 *
 * No program may hang for that, so no rank waits for an exchange for more than a second. It may be that the
 * others never come: the ranks' collectives may differ, or those of some rank may not be seen. Then the rank
 * goes on, and remembers what the next journal begins with. If a later look finds that the exchange is
 * complete after all, it cuts its journal where it was then, as the others did. At most one exchange is under
 * way, so their numbers differ by one at most. In MPI_Finalize a rank that has none under way begins another
 * one, so that all are complete.
 *
 * All ranks compute from one exchange when the next one is: so many such calls of this communicator later
 * that some eight fall into a window, but at most twice as many as last time. It is never far off, since
 * much more may be called between these calls than before. So they count them whether or not they are still
 * recorded. The first one comes with the 64th call. A rank with many lines begins it before: it has all ranks
 * agree on the next one, and cuts nothing.
 */
#define _GNU_SOURCE
#include "windows.h"
#include "sums.h"
#include <sched.h>
#include <string.h>
#include <time.h>

enum {
    EXCHANGES = 8,   /* in a window, some */
    MOST_CALLS = 64, /* from one to the next, and before the first */
    LEAST_CALLS = 8, /* to the next, if the ranks were at different calls */
    BUSY_LOOKS = 64
};

/* Seconds for which a rank waits in an exchange, and for those in vain together. Each one that is complete in
 * time gives some back. */
static const double A_WHILE = 1, MOST_PATIENCE = 4, GIVEN_BACK = 0.01;
static double patience = MOST_PATIENCE;

/* The calls of one communicator. */
typedef struct {
    bool is_of_all, is_planned;       /* by an exchange */
    unsigned long calls, next, period; /* so far; at the next exchange; from the last one to that */
    unsigned long last, lines;        /* the calls and lines at the last exchange that this rank began */
} Meetings;

/* What ranks exchange: the most of the first fields, and the sums of the others. */
enum { LINES, A_CALL, IS_FULL, CALLS, LESS_CALLS, NO_CUT, MOST_OF, MESSAGES = MOST_OF, WAVES, DOUBTS, SENT };

/* The last exchange that this rank began. */
static struct {
    bool is_under_way, is_remembered; /* the place where it was begun */
    MPI_Request request;
    uint64_t sent[SENT], all[SENT];
    Meetings *here; /* NULL if its communicator is gone, or it has none */
    unsigned long lines;
    Field *moved; /* the receives that go on in the next window */
    int moved_count;
} now;
static MPI_Datatype fields_type;
static MPI_Op combine_op;

static char marks[4096];
static unsigned long wanted, cut_at; /* the lines of a window; those at the last cut */
static bool are_cut;
static MPI_Comm own = MPI_COMM_NULL;
static MPI_Group world;
static int world_size, key = MPI_KEYVAL_INVALID;
static const char *why_none;

/* ---- Beginning --------------------------------------------------------------------------------- */

void windows_announce(const char *folder) {
    const char *given = getenv("MPIWAIT_WINDOW");
    wanted = given ? strtoul(given, NULL, 10) : 0;
    if (wanted)
        put_mark(folder, "windows", marks);
}

static bool all_are_marked(int ranks) {
    for (int rank = 0; rank < ranks; rank++)
        if (!has_mark(marks, rank))
            return false;
    return true;
}

static int forget_meetings(MPI_Comm comm, int which, void *meetings, void *none) {
    (void)comm, (void)which, (void)none;
    now.here = now.here == meetings ? NULL : now.here;
    free(meetings);
    return MPI_SUCCESS;
}

static void combine(void *more, void *all, int *count, MPI_Datatype *type) {
    (void)type;
    const uint64_t *one = more;
    uint64_t *other = all;
    for (int i = 0; i < *count * SENT; i++) {
        if (i % SENT >= MOST_OF)
            other[i] += one[i];
        else if (one[i] > other[i])
            other[i] = one[i];
    }
}

/* The least of what all ranks want, and whether each is recorded and calls from one thread at a time. */
bool windows_open(bool is_recorded, int level, int ranks) {
    if (!wanted)
        return false;
    why_none = "no windows, since a rank isn't recorded";
    if (!all_are_marked(ranks))
        return false;
    uint64_t mine[] = {wanted, is_recorded, level != MPI_THREAD_MULTIPLE}, all[3];
    REAL(Comm_dup)(MPI_COMM_WORLD, &own);
    REAL(Allreduce)(mine, all, 3, MPI_UINT64_T, MPI_MIN, own);
    if (!all[2])
        why_none = "no windows, with MPI_THREAD_MULTIPLE";
    if (!all[1] || !all[2])
        return false;
    why_none = NULL;
    wanted = all[0];
    world_size = ranks;
    REAL(Comm_group)(MPI_COMM_WORLD, &world);
    REAL(Comm_create_keyval)(MPI_COMM_NULL_COPY_FN, forget_meetings, &key, NULL);
    REAL(Type_contiguous)(SENT, MPI_UINT64_T, &fields_type);
    REAL(Type_commit)(&fields_type);
    REAL(Op_create)(combine, true, &combine_op);
    return are_cut = sums_are_kept = true;
}

void windows_count(void) {
    if (why_none)
        left_out(NOTHING, why_none);
}

/* ---- Cuts -------------------------------------------------------------------------------------- */

/* A receive of which it isn't written yet what it got is one in the next window. */
static bool goes_on(const Request *request) { return request->receive.is_there && !request->told; }

/* Whether the program freed the communicator of a persistent request. In another window its next start couldn't
 * name it. */
static bool may_start_on_freed(void) {
    size_t place = 0;
    for (const Request *one; (one = requests_next_persistent(&place));)
        if (!is_had(one->template->fields[0]))
            return true;
    return false;
}

/* What isn't known, or can't go on in another window. */
static bool has_doubts(void) {
    int count;
    Request **active = requests_active(&count);
    bool found = !active || in_doubt || !recording || holds_messages() || may_start_on_freed();
    for (int i = 0; i < count && !found; i++) {
        const Request *one = active[i];
        bool is_lost = goes_on(one) && !is_had(one->receive.comm);
        found = is_lost || one->cancelled || one->comm || one->place;
    }
    free(active);
    return found;
}

/* The number of its receive: of one that both sends and receives that of the second half. */
static int number_of_receive(const Request *request) {
    return request->second ? request->second : request->number;
}

static void put_start(const Request *request) {
    Receive wanted = request->receive;
    if (!wanted.is_there || request->second)
        journal_call("isend", FIELDS(request->number, WORLD, NULL_PEER, 0), request->site);
    if (goes_on(request))
        journal_call("irecv", FIELDS(number_of_receive(request), wanted.comm, wanted.source, wanted.tag),
                     request->site);
    else if (wanted.is_there)
        journal_call("isend", FIELDS(number_of_receive(request), WORLD, NULL_PEER, 0), request->site);
}

/* The requests that are active go on in the next window, with new numbers. */
static void cut(void) {
    int count;
    Request **active = requests_active(&count);
    cut_at = journal_lines();
    if (!active)
        journal_stop("there is no memory for its requests");
    if (!active || !journal_begin_window()) {
        free(active);
        return;
    }
    for (int i = 0; i < count; i++)
        if (goes_on(active[i]))
            journal_report("=moved", FIELDS(number_of_receive(active[i])));
    journal_cut();
    report_communicators();
    restart_numbers();
    for (int i = 0; i < count && recording; i++) {
        active[i]->number = new_number();
        active[i]->second = active[i]->second ? new_number() : 0;
        put_start(active[i]);
    }
    free(active);
}

/* ---- Cuts that are made later ------------------------------------------------------------------ */

/* Writes what the next journal begins with, if it does. The requests keep their numbers. */
static void remember_place(void) {
    int count;
    Request **active = requests_active(&count);
    now.moved = malloc((count + 1) * sizeof *now.moved);
    now.moved_count = 0;
    now.is_remembered = active && now.moved && journal_remember();
    if (now.is_remembered) {
        report_communicators();
        for (int i = 0; i < count; i++) {
            put_start(active[i]);
            if (goes_on(active[i]))
                now.moved[now.moved_count++] = number_of_receive(active[i]);
        }
        journal_go_on();
    }
    free(active);
}

static void cut_there(void) {
    cut_at = now.lines;
    journal_cut_there(now.moved_count, now.moved);
}

static void forget_place(void) {
    now.is_remembered = false;
    free(now.moved);
    now.moved = NULL;
}

/* ---- Exchanges --------------------------------------------------------------------------------- */

static void note_why(const uint64_t all[SENT]) {
    if (all[DOUBTS])
        left_out(NOTHING,
                 "moments without a cut: calls failed, aren't recorded, or aren't known to be complete");
    else if (all[MESSAGES])
        left_out(NOTHING, "moments without a cut: messages were under way");
    else
        left_out(NOTHING, "moments without a cut: collective calls were under way");
}

static void plan_next(Meetings *here) {
    unsigned long a_call = now.all[A_CALL], calls = wanted / EXCHANGES / (a_call ? a_call : 1);
    unsigned long last = now.all[CALLS], first = ~now.all[LESS_CALLS];
    unsigned long period = here->is_planned ? here->period : last;
    calls = calls > 2 * period ? 2 * period : calls;
    calls = calls > MOST_CALLS ? MOST_CALLS : calls ? calls : 1;
    here->period = calls;
    here->next = last + (last != first && calls < LEAST_CALLS ? LEAST_CALLS : calls);
    here->is_planned = true;
}

static void begin_exchange(Meetings *here, bool may_cut) {
    unsigned long lines = journal_lines(), calls = here && here->calls > here->last ? here->calls - here->last : 1;
    uint64_t sent[SENT] = {
        [LINES] = lines - cut_at,
        [A_CALL] = here ? (lines - here->lines) / calls : 0,
        [IS_FULL] = journal_is_full,
        [CALLS] = here ? here->calls : 0,
        [LESS_CALLS] = here ? ~here->calls : 0,
        [NO_CUT] = !may_cut,
        [MESSAGES] = may_cut ? sum_of_messages() : 0,
        [WAVES] = may_cut ? sum_of_waves() : 0,
        [DOUBTS] = may_cut && has_doubts(),
    };
    memcpy(now.sent, sent, sizeof sent);
    now.here = here;
    now.lines = lines;
    now.is_under_way = true;
    if (here)
        here->last = here->calls, here->lines = lines;
    CALL(Iallreduce, (now.sent, now.all, 1, fields_type, combine_op, own, &now.request));
}

static bool is_complete(void) {
    int done = 0;
    CALL(Test, (&now.request, &done, MPI_STATUS_IGNORE));
    return done;
}

static double seconds(void) {
    struct timespec time;
    clock_gettime(CLOCK_MONOTONIC, &time);
    return time.tv_sec + time.tv_nsec / 1e9;
}

/* Whether it is complete after a while. */
static bool wait_a_while(void) {
    double began = seconds(), most = patience < A_WHILE ? patience : A_WHILE;
    bool done = is_complete();
    for (int looks = 0; !done && seconds() - began < most; looks++) {
        if (looks > BUSY_LOOKS)
            sched_yield();
        done = is_complete();
    }
    patience += done ? GIVEN_BACK : began - seconds();
    patience = patience > MOST_PATIENCE ? MOST_PATIENCE : patience;
    return done;
}

/* The exchange is complete. All ranks come to the same answer. */
static void end_exchange(bool is_late) {
    bool is_cut = now.all[LINES] >= wanted && !now.all[IS_FULL] && !now.all[NO_CUT];
    bool is_clean = !now.all[MESSAGES] && !now.all[WAVES] && !now.all[DOUBTS];
    now.is_under_way = false;
    if (now.here)
        plan_next(now.here);
    if (is_cut && !is_clean)
        note_why(now.all);
    else if (is_cut && !is_late)
        cut();
    else if (is_cut && now.is_remembered)
        cut_there();
    if (now.is_remembered && !(is_cut && is_clean))
        journal_forget();
    forget_place();
}

void windows_close(void) {
    if (!are_cut)
        return;
    bool was_under_way = now.is_under_way;
    if (!was_under_way)
        begin_exchange(NULL, false);
    if (wait_a_while())
        end_exchange(was_under_way);
    else if (now.is_remembered)
        journal_forget();
    REAL(Type_free)(&fields_type);
    REAL(Op_free)(&combine_op);
    are_cut = false;
}

/* ---- Meetings ---------------------------------------------------------------------------------- */

static bool is_of_all(MPI_Comm comm) {
    int inter = 1, size = 0, result = MPI_UNEQUAL;
    MPI_Group group;
    if (REAL(Comm_test_inter)(comm, &inter) != MPI_SUCCESS || inter)
        return false;
    REAL(Comm_size)(comm, &size);
    if (size != world_size)
        return false;
    REAL(Comm_group)(comm, &group);
    REAL(Group_compare)(group, world, &result);
    REAL(Group_free)(&group);
    return result != MPI_UNEQUAL;
}

static Meetings *meetings_of(MPI_Comm comm) {
    void *known = NULL;
    int found = 0;
    REAL(Comm_get_attr)(comm, key, &known, &found);
    if (found)
        return known;
    Meetings *new = calloc(1, sizeof *new);
    if (!new)
        return NULL;
    *new = (Meetings){.is_of_all = is_of_all(comm), .next = MOST_CALLS, .lines = journal_lines()};
    REAL(Comm_set_attr)(comm, key, new);
    return new;
}

/* The first exchange is a mere plan if it comes early. */
static void meet(Meetings *here) {
    if (here->calls >= here->next) {
        begin_exchange(here, true);
        if (wait_a_while())
            end_exchange(false);
        else if (!now.sent[DOUBTS])
            remember_place();
    } else if (!here->is_planned && journal_lines() - here->lines >= wanted / EXCHANGES) {
        begin_exchange(here, false);
    }
}

void windows_meet(MPI_Comm comm, int result) {
    if (!are_cut || result != MPI_SUCCESS || !is_of_program())
        return;
    Meetings *here = meetings_of(comm);
    if (!here || !here->is_of_all)
        return;
    here->calls++;
    if (now.is_under_way && is_complete())
        end_exchange(true);
    if (!now.is_under_way)
        meet(here);
}

void windows_meet_with(MPI_Comm comm, long long count, MPI_Datatype type, int result) {
    int size = 0;
    if (!are_cut || count <= 0 || result != MPI_SUCCESS)
        return;
    if (REAL(Type_size)(type, &size) == MPI_SUCCESS && size != 0)
        windows_meet(comm, result);
}
