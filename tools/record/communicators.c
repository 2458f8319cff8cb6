/* Communicators and their numbers. See calls.h. */
#define _GNU_SOURCE
#include "strict.h"
#include "sums.h"

/* Each rank numbers its communicators by itself; what reads the journals finds which are the same. The number
 * is an attribute of the communicator. */
static MPI_Group world;
static int number_key, next_comm = SELF + 1;
static const char unnumbered[] = "calls that make communicators, of ones that have no number";
static MPI_Comm last_asked = MPI_COMM_NULL;
static int last_number;

/* A function of the program that MPI calls may free it, and MPI_Comm_free isn't recorded there. */
static int forget_number(MPI_Comm comm, int key, void *number, void *none) {
    (void)comm, (void)key, (void)none;
    frees_communicator((int)(intptr_t)number);
    last_asked = MPI_COMM_NULL;
    return MPI_SUCCESS;
}

/* Needs the recorder's lock, so it is called for recorded calls only. */
static int number_of(MPI_Comm comm) {
    void *number = NULL;
    int found = 0;
    if (comm == MPI_COMM_NULL)
        return UNNUMBERED;
    if (comm == last_asked)
        return last_number;
    REAL(Comm_get_attr)(comm, number_key, &number, &found);
    last_asked = comm;
    return last_number = found ? (int)(intptr_t)number : UNNUMBERED;
}

int numbered(MPI_Comm comm, const char *call) {
    int number = number_of(comm);
    if (number == UNNUMBERED)
        left_out(WAITS, call);
    return number;
}

static void set_number(MPI_Comm comm, int number) {
    REAL(Comm_set_attr)(comm, number_key, (void *)(intptr_t)number);
    last_asked = MPI_COMM_NULL;
}

/* ---- Groups ------------------------------------------------------------------------------------ */

/* The world ranks of a group's members, after `before` free fields. NULL if a member is of another world, or
 * if there is no memory. */
static Field *members_of(MPI_Group group, int before, int *size) {
    REAL(Group_size)(group, size);
    size_t count = *size;
    Field *fields = malloc((before + count + 1) * sizeof *fields);
    int *places = malloc((2 * count + 1) * sizeof *places), *ranks = places + count;
    bool is_of_world = fields && places;
    if (!is_of_world)
        journal_stop("there is no memory for the members of a communicator");
    for (int i = 0; is_of_world && i < *size; i++)
        places[i] = i;
    if (is_of_world)
        REAL(Group_translate_ranks)(group, *size, places, world, ranks);
    for (int i = 0; is_of_world && i < *size; i++) {
        is_of_world = ranks[i] != MPI_UNDEFINED;
        fields[before + i] = ranks[i];
    }
    free(places);
    if (is_of_world)
        return fields;
    free(fields);
    return NULL;
}

static Field *members_of_communicator(MPI_Comm comm, int before, int *size) {
    MPI_Group group;
    REAL(Comm_group)(comm, &group);
    Field *fields = members_of(group, before, size);
    REAL(Group_free)(&group);
    return fields;
}

/* The world and MPI_COMM_SELF have no origin; their groups differ where they do. */
static void number_first(MPI_Comm comm, int number) {
    int size;
    Field *members = members_of_communicator(comm, 0, &size);
    set_number(comm, number);
    if (members)
        has_communicator(number, comm, number, size, members);
    free(members);
}

void number_communicators(void) {
    REAL(Comm_group)(MPI_COMM_WORLD, &world);
    REAL(Comm_create_keyval)(MPI_COMM_NULL_COPY_FN, forget_number, &number_key, NULL);
    number_first(MPI_COMM_WORLD, WORLD);
    number_first(MPI_COMM_SELF, SELF);
}

/* Gives a communicator the next number and writes its group, after the request that made it, if any. A
 * communicator with members of another world gets no number. */
static void report_group(const char *word, int request, MPI_Comm comm, uint64_t origin) {
    int size, before = request ? 2 : 1;
    Field *fields = members_of_communicator(comm, before, &size);
    if (!fields)
        return;
    fields[0] = next_comm;
    if (request)
        fields[1] = request;
    journal_report(word, before + size, fields);
    has_communicator(next_comm, comm, origin, size, fields + before);
    set_number(comm, next_comm++);
    free(fields);
}

static void adopt_by(const char *word, int request, MPI_Comm new, uint64_t origin) {
    int inter = 0;
    REAL(Comm_test_inter)(new, &inter);
    if (inter)
        in_doubt = true;
    else if (!journal_is_full)
        report_group(word, request, new, origin);
}

/* A call made a communicator, or gave this rank none. */
static void adopt(const char *word, MPI_Comm new, uint64_t origin) {
    if (new == MPI_COMM_NULL)
        journal_report("=none", 0, NULL);
    else
        adopt_by(word, 0, new, origin);
}

void adopt_duplicate(int request, MPI_Comm comm, uint64_t origin) {
    adopt_by("=idup", request, comm, origin);
}

void report_communicators(void) {
    int count, size;
    int *numbers = communicators_had(&count);
    if (!numbers)
        journal_stop("there is no memory for its communicators");
    for (int i = 0; i < count && recording; i++) {
        Field *fields = members_of_communicator(communicator_of(numbers[i]), 1, &size);
        if (!fields)
            break;
        fields[0] = numbers[i];
        journal_report("=apart", 1 + size, fields);
        free(fields);
    }
    free(numbers);
}

/* ---- Calls of all members ---------------------------------------------------------------------- */

/* A call by which all members of a communicator make new ones: name, word, parameters, arguments, fields. */
#define MAKER(Name, word, params, args, ...) \
    int MPI_##Name params { \
        int number = BEGINS ? numbered(comm, unnumbered) : UNNUMBERED; \
        if (number != UNNUMBERED) \
            PUT(word, number, ##__VA_ARGS__); \
        uint64_t origin = joins(MADE, number); \
        strict_ask(); \
        int result = CALL(Name, args); \
        if (is_recorded() && number != UNNUMBERED && result == MPI_SUCCESS) \
            adopt("=comm", *new, origin); \
        return over(result); \
    } \
    ALSO_PMPI(Name)

MAKER(Comm_dup, "comm_dup", (MPI_Comm comm, MPI_Comm *new), (comm, new))
MAKER(Comm_dup_with_info, "comm_dup", (MPI_Comm comm, MPI_Info info, MPI_Comm *new), (comm, info, new))
MAKER(Comm_split, "comm_split", (MPI_Comm comm, int colour, int key, MPI_Comm *new), (comm, colour, key, new),
      colour == MPI_UNDEFINED ? UNDEFINED : colour, key)
MAKER(Comm_split_type, "comm_make", (MPI_Comm comm, int type, int key, MPI_Info info, MPI_Comm *new),
      (comm, type, key, info, new))
MAKER(Comm_create, "comm_make", (MPI_Comm comm, MPI_Group group, MPI_Comm *new), (comm, group, new))
MAKER(Cart_create, "comm_make",
      (MPI_Comm comm, int n, const int dims[], const int periods[], int reorder, MPI_Comm *new),
      (comm, n, dims, periods, reorder, new))
MAKER(Cart_sub, "comm_make", (MPI_Comm comm, const int remain[], MPI_Comm *new), (comm, remain, new))
MAKER(Graph_create, "comm_make",
      (MPI_Comm comm, int n, const int index[], const int edges[], int reorder, MPI_Comm *new),
      (comm, n, index, edges, reorder, new))
MAKER(Dist_graph_create, "comm_make",
      (MPI_Comm comm, int n, const int sources[], const int degrees[], const int dests[], const int weights[],
       MPI_Info info, int reorder, MPI_Comm *new),
      (comm, n, sources, degrees, dests, weights, info, reorder, new))
MAKER(Dist_graph_create_adjacent, "comm_make",
      (MPI_Comm comm, int in, const int sources[], const int in_weights[], int out, const int dests[],
       const int out_weights[], MPI_Info info, int reorder, MPI_Comm *new),
      (comm, in, sources, in_weights, out, dests, out_weights, info, reorder, new))

/* The communicator exists when its request is complete. Some libraries give its handle at once. With others
 * it is read later from the variable that the program passed; a Fortran program has none that can be read. */
#define IDUP(Name, params, args) \
    int MPI_##Name(UNPACK params, MPI_Comm *new, MPI_Request *handle) { \
        int number = BEGINS ? numbered(comm, unnumbered) : UNNUMBERED; \
        int request = number == UNNUMBERED ? 0 : new_number(); \
        if (request) \
            PUT("comm_idup", request, number); \
        uint64_t origin = joins(BY_IDUP, number); \
        int result = CALL(Name, (UNPACK args, new, handle)); \
        Request *known = is_recorded() && result == MPI_SUCCESS ? started(handle, request) : NULL; \
        if (known) \
            known->origin = origin; \
        if (known && *new != MPI_COMM_NULL) \
            known->comm = (uintptr_t) * new; \
        else if (known) \
            known->place = new; \
        return over(result); \
    } \
    ALSO_PMPI(Name)

IDUP(Comm_idup, (MPI_Comm comm), (comm))
#ifdef HAS_Comm_idup_with_info
IDUP(Comm_idup_with_info, (MPI_Comm comm, MPI_Info info), (comm, info))
#endif

/* ---- Calls of some ----------------------------------------------------------------------------- */

/* Only the members of the new communicator call it. A caller outside the group gets none. */
static bool put_create_group(MPI_Group group, uint64_t *origin) {
    int size = 0, rank = MPI_UNDEFINED;
    REAL(Group_rank)(group, &rank);
    Field *fields = rank == MPI_UNDEFINED ? NULL : members_of(group, 0, &size);
    if (fields)
        journal_call("comm_create_group", size, fields, site()), *origin = origin_of_group(size, fields);
    else
        left_out(rank == MPI_UNDEFINED ? NOTHING : WAITS,
                 "MPI_Comm_create_group of a group that isn't of the world");
    free(fields);
    return fields;
}

int MPI_Comm_create_group(MPI_Comm comm, MPI_Group group, int tag, MPI_Comm *new) {
    uint64_t origin = 0;
    bool is_put = BEGINS && put_create_group(group, &origin);
    int result = CALL(Comm_create_group, (comm, group, tag, new));
    if (is_put && is_recorded() && result == MPI_SUCCESS && *new != MPI_COMM_NULL)
        adopt("=comm", *new, origin);
    return over(result);
}
ALSO_PMPI(Comm_create_group)

/* A communicator that no call on a numbered communicator makes. What the call itself waits for is left out.
 */
#define MAKER_APART(Name, params, args) \
    int MPI_##Name params { \
        if (BEGINS) \
            left_out(WAITS, "MPI_" #Name " itself (calls on what it makes are recorded)"); \
        int result = CALL(Name, args); \
        if (is_recorded() && result == MPI_SUCCESS && *new != MPI_COMM_NULL) \
            adopt("=apart", *new, origin_of(APART, 0, next_comm)); \
        return over(result); \
    } \
    ALSO_PMPI(Name)

MAKER_APART(Intercomm_merge, (MPI_Comm comm, int high, MPI_Comm *new), (comm, high, new))

/* ---- Names ------------------------------------------------------------------------------------- */

int MPI_Comm_set_name(MPI_Comm comm, const char *name) {
    int number = BEGINS_QUIETLY ? number_of(comm) : UNNUMBERED;
    int result = CALL(Comm_set_name, (comm, name));
    if (number != UNNUMBERED && is_recorded() && result == MPI_SUCCESS)
        name_communicator(number, name);
    return over(result);
}
ALSO_PMPI(Comm_set_name)

/* ---- Free -------------------------------------------------------------------------------------- */

#define FREE(Name) \
    int MPI_##Name(MPI_Comm *comm) { \
        int number = BEGINS_QUIETLY ? number_of(*comm) : UNNUMBERED; \
        if (number > SELF) \
            PUT("comm_free", number); \
        int result = CALL(Name, (comm)); \
        if (number > SELF && is_recorded() && result == MPI_SUCCESS) \
            frees_communicator(number); \
        return over(result); \
    } \
    ALSO_PMPI(Name)

FREE(Comm_free)
FREE(Comm_disconnect)
