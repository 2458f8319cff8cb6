/* Records the MPI calls of a program in one journal for each rank. An unproved companion of mpiwait, like all
 * of tools/.
 *
 * The recorder is preloaded between the program and its MPI library (MPI 4.0, section 15.2): it defines
 * `MPI_Send` and others, and they call the library's `PMPI_Send`. It never communicates and never waits for
 * another rank; only a strict run adds barriers (strict.h), and one with windows exchanges (windows.h). The
 * variable MPIWAIT_JOURNAL names the folder for
 * the journals.
 *
 * A call is written when it begins, so that a call that never returns is in the journal. Its results are
 * written when it returns: the source of a wildcard, the request that completed, a new communicator. A test
 * that finds nothing is only counted. tools/README.md has the table of all calls.
 *
 * This file has the beginning and the end of a recording, and the calls that are only counted. calls.h lists
 * the other files.
 */
#define _GNU_SOURCE
#include "calls.h"
#include "bypasses.h"
#include "fatal.h"
#include "messages.h"
#include "modules.h"
#include "strict.h"
#include "windows.h"
#include <stdio.h>
#include <string.h>
#include <pthread.h>
#include <unistd.h>

void *found_in_library(const char *name) {
    void *found = dlsym(RTLD_NEXT, name);
    if (!found) {
        fprintf(stderr,
                "mpiwait-record: there is no %s after the recorder: it can't be run with this program\n",
                name);
        exit(3);
    }
    return found;
}

/* ---- Calls that are only counted --------------------------------------------------------------- */

/* The Makefile generates these lists from the library's mpi.h. If such a call starts a request or makes a
 * persistent one, the recorder remembers that request, so that a later wait for it isn't taken for another.
 */
#define COUNT(Name, meaning, params, args, then) \
    int MPI_##Name params { \
        if (BEGINS) \
            left_out(meaning, "MPI_" #Name); \
        int result = CALL(Name, args); \
        if (is_recorded() && result == MPI_SUCCESS) { \
            then; \
        } \
        return over(result); \
    } \
    ALSO_PMPI(Name)

#define X(Name, meaning, params, args) COUNT(Name, meaning, params, args, )
COUNTED(X)
#undef X
#define X(Name, meaning, params, args) COUNT(Name, meaning, params, args, started(request, 0))
COUNTED_STARTS(X)
#undef X
#define X(Name, meaning, params, args) COUNT(Name, meaning, params, args, made_persistent(request))
COUNTED_INITS(X)
#undef X
#define X(Name, meaning, params, args) COUNT(Name, meaning, params, args, watch_window_errors(*win))
COUNTED_WINDOWS(X)
#undef X

/* ---- Beginning and end ------------------------------------------------------------------------- */

#ifdef OPEN_MPI
#define TEXT_OF(number) #number
#define TEXT(number) TEXT_OF(number)
static const char library[] = "Open MPI", other_library[] = "libmpich.so";
static const char version[] =
    "Open MPI " TEXT(OMPI_MAJOR_VERSION) "." TEXT(OMPI_MINOR_VERSION) "." TEXT(OMPI_RELEASE_VERSION);
#else
static const char library[] = "MPICH", other_library[] = "libmpi.so.40";
static const char version[] = "MPICH " MPICH_VERSION;
#endif

/* A program of the other library would pass its handles to this library's functions. */
static void refuse_other_library(void) {
    if (!is_loaded(other_library))
        return;
    fprintf(
        stderr,
        "mpiwait-record: this is the recorder for %s, and the program loads %s: it can't be run with it\n",
        library, other_library);
    exit(3);
}

/* Keeps the reason in a file, from which the report takes it. */
static bool note_unrecorded(const char *folder, const char *why) {
    char path[4096];
    if (!folder || !*folder || snprintf(path, sizeof path, "%s/unrecorded", folder) >= (int)sizeof path)
        return false;
    FILE *file = fopen(path, "ae");
    if (!file)
        return false;
    bool has_room = fseek(file, 0, SEEK_END) == 0 && may_have(ftell(file) + strlen(why) + 1);
    bool written = has_room && fprintf(file, "%s\n", why) > 0;
    return fclose(file) == 0 && written;
}

static void not_recorded(const char *folder, const char *named, int rank, const char *why) {
    fprintf(stderr, "mpiwait-record: rank %d isn't recorded: %s\n", rank, why);
    if (!note_unrecorded(folder, why))
        note_unrecorded(named, why);
}

static pid_t process; /* the process that called MPI_Init */

static const char *open_texts(const char *named, int rank, int ranks, bool is_spawned, char *folder,
                              unsigned long room) {
    char words[512], host[256] = "";
    int level = MPI_THREAD_SINGLE;
    const char *id = NULL, *why = NULL;
    if (!named || !*named)
        why = "the variable MPIWAIT_JOURNAL names no folder";
    else if (is_spawned)
        why = "it was spawned by another run";
    else
        why = run_open(named, ranks, folder, room, &id);
    gethostname(host, sizeof host - 1);
    REAL(Query_thread)(&level);
    turns_open(level);
    bool has_windows = windows_open(!why, level, ranks);
    snprintf(words, sizeof words, "%s%s%s on %s", version, is_strict() ? " strict" : "",
             level == MPI_THREAD_MULTIPLE ? " multiple" : "", host);
    return why ? why : journal_open(folder, id, rank, ranks, words, has_windows);
}

/* The recorder calls the library directly, so another tool must come before it in LD_PRELOAD. */
static void look_for_tools(int rank) {
    const char *tool = passed_tool();
    if (!tool)
        return;
    left_out(NOTHING, "another tool comes after the recorder in LD_PRELOAD, and isn't called");
    fprintf(stderr, "mpiwait-record: rank %d: %s comes after the recorder in LD_PRELOAD, and isn't called\n",
            rank, tool);
}

static void start(void) {
    int rank, ranks;
    MPI_Comm parent;
    char folder[4096] = "";
    const char *named = getenv("MPIWAIT_JOURNAL");
    REAL(Comm_rank)(MPI_COMM_WORLD, &rank);
    REAL(Comm_size)(MPI_COMM_WORLD, &ranks);
    REAL(Comm_get_parent)(&parent);
    strict_open(ranks);
    const char *why = open_texts(named, rank, ranks, parent != MPI_COMM_NULL, folder, sizeof folder);
    if (why) {
        not_recorded(folder, named, rank, why);
        return;
    }
    sites_open(folder, rank);
    fatal_notes_open(folder, rank);
    number_communicators();
    learn_sizes();
    process = getpid();
    look_for_tools(rank);
    windows_count();
    recording = true;
    find_bypasses();
    watch_errors();
}

/* Nothing is recorded before `start`, so the calls that MPI itself makes in MPI_Init aren't either. A second
 * MPI_Init fails, and has the turn of a recorded call. */
static int initialized(bool is_second, int result) {
    if (is_second)
        return over(result);
    if (result == MPI_SUCCESS && !recording)
        start();
    if (recording && take_turn())
        journal_call("init", 0, NULL, site());
    return over(result);
}

static void before_mpi(void) {
    refuse_other_library();
    strict_announce(getenv("MPIWAIT_JOURNAL"));
    windows_announce(getenv("MPIWAIT_JOURNAL"));
}

int MPI_Init(int *argc, char ***argv) {
    before_mpi();
    bool is_second = BEGINS;
    return initialized(is_second, CALL(Init, (argc, argv)));
}
ALSO_PMPI(Init)

int MPI_Init_thread(int *argc, char ***argv, int required, int *provided) {
    before_mpi();
    bool is_second = BEGINS;
    return initialized(is_second, CALL(Init_thread, (argc, argv, required, provided)));
}
ALSO_PMPI(Init_thread)

/* Nothing is recorded after this, not even the program's functions that MPI calls in MPI_Finalize. */
int MPI_Finalize(void) {
    bool begun = BEGINS;
    windows_close();
    if (!begun && recording && is_of_program())
        journal_stop("MPI_Finalize was called by a thread that isn't recorded");
    if (begun) {
        find_bypasses();
        journal_call("finalize", 0, NULL, site());
        journal_close();
        recording = false;
        free_unused_requests();
    }
    return over(CALL(Finalize, ()));
}
ALSO_PMPI(Finalize)

/* A call that another thread is in, or this one below a handler of a signal, never returns. Then its line is
 * the last one, as of a rank that is killed. */
int MPI_Abort(MPI_Comm comm, int code) {
    if (another_calls())
        return REAL(Abort)(comm, code);
    if (BEGINS_QUIETLY) {
        journal_call("abort", 0, NULL, site());
        journal_close();
        recording = false;
    }
    return over(CALL(Abort, (comm, code)));
}
ALSO_PMPI(Abort)

/* The program ends without MPI_Finalize. If a thread is inside a call, that call never returns, and the line
 * `exit` isn't written. So it is if MPI itself ends the program inside a call. */
static void ended(int status, void *none) {
    (void)status, (void)none;
    if (!recording || getpid() != process || !last_turn_begins())
        return;
    find_bypasses();
    journal_begin();
    journal_call("exit", 0, NULL, 0);
    journal_came_back();
    journal_close();
    last_turn_ends();
}

/* A forked child isn't the rank, so it records nothing. */
static void forget(void) { recording = false; }

/* Functions of on_exit run in reverse order. This one is registered before the program begins, so it runs
 * after all of the program's. */
__attribute__((constructor)) static void load(void) {
    bypasses_open();
    on_exit(ended, NULL);
    pthread_atfork(NULL, NULL, forget);
}
