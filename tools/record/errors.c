/* Error handlers of the program. See calls.h.
 *
 * A handler may jump or throw an exception, and so never return to MPI. Therefore MPI calls a function of
 * ours, which writes that the call failed and then calls the program's. It passes on four arguments, whether
 * the program's function is in C, C++ or Fortran. A variadic C function then finds the same further arguments
 * as without us.
 */
#define _GNU_SOURCE
#include "calls.h"

typedef void Handler(void *object, int *code, void *third, void *fourth);

enum { MOST_HANDLERS = 64 };
static Handler *handlers[MOST_HANDLERS];

static void hand_on(int place, void *object, int *code, void *third, void *fourth) {
    Thread before = leave_by_error();
    handlers[place](object, code, third, fourth);
    come_back_to_error(before);
}

#define ONE(place) \
    static void handler##place(void *object, int *code, void *third, void *fourth) { \
        hand_on(place, object, code, third, fourth); \
    }
#define EIGHT(X, row) X(row##0) X(row##1) X(row##2) X(row##3) X(row##4) X(row##5) X(row##6) X(row##7)
#define ALL(X) \
    EIGHT(X, 0) EIGHT(X, 01) EIGHT(X, 02) EIGHT(X, 03) EIGHT(X, 04) EIGHT(X, 05) EIGHT(X, 06) EIGHT(X, 07)
ALL(ONE)

#define NAME(place) handler##place,
static Handler *const ours[MOST_HANDLERS] = {ALL(NAME)};

/* The function of ours that calls theirs. If ours are used up it is theirs, and a jump is seen only when the
 * next call begins. */
static void *ours_for(void *theirs) {
    int place = 0;
    while (place < MOST_HANDLERS && handlers[place] && handlers[place] != (Handler *)theirs)
        place++;
    if (place == MOST_HANDLERS || !theirs)
        return theirs;
    handlers[place] = (Handler *)theirs;
    return (void *)ours[place];
}

#define CREATE(Name, Function) \
    int MPI_##Name(Function *function, MPI_Errhandler *handler) { \
        Function *called = BEGINS_QUIETLY ? ours_for((void *)function) : function; \
        return over(CALL(Name, (called, handler))); \
    } \
    ALSO_PMPI(Name)

CREATE(Comm_create_errhandler, MPI_Comm_errhandler_function)
CREATE(File_create_errhandler, MPI_File_errhandler_function)
CREATE(Win_create_errhandler, MPI_Win_errhandler_function)

/* A function of MPI 1. Libraries still have it for old programs, but no declaration of it that compiles. */
#undef MPI_Errhandler_create
#undef PMPI_Errhandler_create
#define MPI_Errhandler_create old_create
int old_create(MPI_Comm_errhandler_function *function,
               MPI_Errhandler *handler) __asm__("MPI_Errhandler_create");
