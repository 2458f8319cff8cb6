/* Errors that end the run. See calls.h.
 *
 * Under MPI_ERRORS_ARE_FATAL, which is the default, the library ends the program inside the call that failed,
 * and nothing is left to tell which one that was. So a handler of ours takes its place: it notes the call and
 * MPI's message in failedR (journal.h), and then has the library end the program by its own handler. The
 * program never sees ours: if it asks, it gets MPI_ERRORS_ARE_FATAL.
 */
#define _GNU_SOURCE
#include "fatal.h"
#include "calls.h"
#include "modules.h"
#include "sites.h"
#include <stdio.h>
#include <string.h>
#include <unwind.h>

enum { LONGEST_NOTE = 4 * MPI_MAX_ERROR_STRING + 256 };

static char path[4096]; /* of failedR; empty if there is none */

void fatal_notes_open(const char *folder, int rank) {
    if (snprintf(path, sizeof path, "%s/failed%d", folder, rank) >= (int)sizeof path)
        path[0] = '\0';
}

static void note(const char *what, int site, const char *name, const char *text) {
    FILE *file = *path && may_have(LONGEST_NOTE) ? fopen(path, "wxe") : NULL;
    if (!file)
        return;
    fprintf(file, "%s %d %s ", what, site, name);
    put_name(file, text);
    fputc('\n', file);
    fclose(file);
}

/* ---- The call that failed ---------------------------------------------------------------------- */

/* The outermost function of MPI that the program is in, and where the program called it. The name may be
 * unknown, since functions of a library may jump to others that have none. */
typedef struct {
    const char *name;
    void *caller;
    bool is_known; /* the walk has come to functions of MPI */
} Inside;

static _Unwind_Reason_Code step(struct _Unwind_Context *context, void *state) {
    Inside *inside = state;
    char *address = (char *)_Unwind_GetIP(context);
    Dl_info found;
    if (!address)
        return _URC_END_OF_STACK;
    Owner owner = module_of(address);
    if (inside->is_known && owner == OF_PROGRAM) {
        inside->caller = address;
        return _URC_END_OF_STACK;
    }
    inside->is_known = inside->is_known || owner == OF_MPI;
    if (dladdr(address - 1, &found) && found.dli_sname) {
        const char *name = found.dli_sname + has_prefix(found.dli_sname, "PMPI_");
        if (has_prefix(name, "MPI_"))
            inside->name = name, inside->is_known = true;
    }
    return _URC_NO_REASON;
}

static Inside find_call(void) {
    Inside inside = {0};
    _Unwind_Backtrace(step, &inside);
    if (!inside.name)
        inside.name = "MPI";
    return inside;
}

/* Needs the recorder's lock. */
static int site_in(Inside inside) { return inside.caller ? site_of(inside.caller, NULL) : 0; }

void note_two_threads(const void *other) {
    char text[32] = "0";
    Inside inside = find_call();
    if (module_of(other) == OF_PROGRAM) /* else its site can't be found without its stack */
        snprintf(text, sizeof text, "%d", site_of((void *)other, NULL));
    note("threads", site_in(inside), inside.name, text);
}

/* The call failed, and is the last one that is recorded. No barrier of a strict run comes after it. */
static void note_error(int code) {
    MPI_Comm none;
    char text[MPI_MAX_ERROR_STRING + 1] = "";
    int length = 0;
    Inside inside = find_call();
    take_barrier(&none);
    leave_by_error();
    REAL(Error_string)(code, text, &length);
    bool is_alone = last_turn_begins();
    note("error", is_alone ? site_in(inside) : 0, inside.name, text);
    if (is_alone)
        last_turn_ends();
}

/* ---- The handlers ------------------------------------------------------------------------------ */

/* Of each kind of object: ours, and the calls of the program that name a handler or call it. A handle that is
 * answered has a reference of its own, which the program gives back. */
#define KIND(Kind, Object) \
    static MPI_Errhandler fatal_##Kind = MPI_ERRHANDLER_NULL; \
    static void fail_##Kind(Object *object, int *code, ...) { \
        note_error(*code); \
        REAL(Kind##_set_errhandler)(*object, MPI_ERRORS_ARE_FATAL); \
        REAL(Kind##_call_errhandler)(*object, *code); \
    } \
    static void watch_##Kind(Object object) { \
        MPI_Errhandler had; \
        if (fatal_##Kind == MPI_ERRHANDLER_NULL) \
            REAL(Kind##_create_errhandler)(fail_##Kind, &fatal_##Kind); \
        if (REAL(Kind##_get_errhandler)(object, &had) != MPI_SUCCESS) \
            return; \
        if (had == MPI_ERRORS_ARE_FATAL) \
            REAL(Kind##_set_errhandler)(object, fatal_##Kind); \
        REAL(Errhandler_free)(&had); \
    } \
    int MPI_##Kind##_set_errhandler(Object object, MPI_Errhandler handler) { \
        BEGINS_QUIETLY; \
        int result = CALL(Kind##_set_errhandler, (object, handler)); \
        if (result == MPI_SUCCESS && handler == MPI_ERRORS_ARE_FATAL && *path) \
            watch_##Kind(object); \
        return over(result); \
    } \
    ALSO_PMPI(Kind##_set_errhandler) \
    int MPI_##Kind##_get_errhandler(Object object, MPI_Errhandler *handler) { \
        BEGINS_QUIETLY; \
        int result = CALL(Kind##_get_errhandler, (object, handler)); \
        if (result == MPI_SUCCESS && *handler == fatal_##Kind && *handler != MPI_ERRHANDLER_NULL) { \
            REAL(Errhandler_free)(handler); \
            REAL(Kind##_set_errhandler)(object, MPI_ERRORS_ARE_FATAL); \
            REAL(Kind##_get_errhandler)(object, handler); \
            REAL(Kind##_set_errhandler)(object, fatal_##Kind); \
        } \
        return over(result); \
    } \
    ALSO_PMPI(Kind##_get_errhandler) \
    int MPI_##Kind##_call_errhandler(Object object, int code) { \
        BEGINS_QUIETLY; \
        return over(CALL(Kind##_call_errhandler, (object, code))); \
    } \
    ALSO_PMPI(Kind##_call_errhandler)

KIND(Comm, MPI_Comm)
KIND(Win, MPI_Win)
KIND(File, MPI_File)

/* Functions of MPI 1. Libraries still have them for old programs, but no declarations of them that compile. */
#define ALSO_OLD(name, Old, Name) \
    extern __typeof__(MPI_##Name) name __asm__(Old) __attribute__((alias("MPI_" #Name)));
ALSO_OLD(old_get, "MPI_Errhandler_get", Comm_get_errhandler)
ALSO_OLD(old_profiled_get, "PMPI_Errhandler_get", Comm_get_errhandler)
ALSO_OLD(old_set, "MPI_Errhandler_set", Comm_set_errhandler)
ALSO_OLD(old_profiled_set, "PMPI_Errhandler_set", Comm_set_errhandler)

#ifdef HAS_Session_call_errhandler
int MPI_Session_call_errhandler(MPI_Session session, int code) {
    BEGINS_QUIETLY;
    return over(CALL(Session_call_errhandler, (session, code)));
}
ALSO_PMPI(Session_call_errhandler)
#endif

/* Communicators that are made of these get their handlers. */
void watch_errors(void) {
    watch_Comm(MPI_COMM_WORLD);
    watch_Comm(MPI_COMM_SELF);
}

void watch_window_errors(MPI_Win win) {
    if (*path)
        watch_Win(win);
}
