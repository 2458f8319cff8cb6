/* Collectives, in both forms. See calls.h. */
#define _GNU_SOURCE
#include "strict.h"
#include "sums.h"
#include "windows.h"
#include <string.h>

static const char unnumbered[] = "collectives on communicators that have no number";

static inline bool is_barrier(const char *word) { return strcmp(word, "barrier") == 0; }

/* Both forms of a collective. `meet' is done behind the blocking one (windows.h). */
#define BOTH(Name, Iname, word, root, params, args, meet) \
    int MPI_##Name(UNPACK params MPI_Comm comm) { \
        int number = BEGINS ? numbered(comm, unnumbered) : UNNUMBERED; \
        if (number != UNNUMBERED) \
            PUT(word, number, root); \
        joins(MADE, number); \
        strict_ask(); \
        is_barrier(word) ? (void)0 : collective_begins(comm); \
        int result = CALL(Name, (UNPACK args comm)); \
        collective_ends(result); \
        meet; \
        return over(result); \
    } \
    ALSO_PMPI(Name) \
    int MPI_##Iname(UNPACK params MPI_Comm comm, MPI_Request *handle) { \
        int number = BEGINS ? numbered(comm, unnumbered) : UNNUMBERED; \
        int request = number == UNNUMBERED ? 0 : new_number(); \
        if (request) \
            PUT("i" word, request, number, root); \
        joins(MADE, number); \
        int result = CALL(Iname, (UNPACK args comm, handle)); \
        if (is_recorded() && result == MPI_SUCCESS) \
            started(handle, request); \
        return over(result); \
    } \
    ALSO_PMPI(Iname)

/* So that names are made before they are joined. */
#define COLLECTIVE(...) BOTH(__VA_ARGS__)

BOTH(Barrier, Ibarrier, "barrier", UNKNOWN, (), (), windows_meet(comm, result))

#define NO_MEETING (void)0
#define MEETING windows_meet_with(comm, n, t, result)

#define N int
#define D int
#define S(Name) Name
#include "collectives.def"
#undef N
#undef D
#undef S

#ifdef HAS_Bcast_c
#define N MPI_Count
#define D MPI_Aint
#define S(Name) Name##_c
#include "collectives.def"
#endif
