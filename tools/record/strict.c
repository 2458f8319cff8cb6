/* Strict runs. See strict.h.
 *
 * All members of a communicator must agree whether a barrier follows. It does if each member is a rank of
 * this world with a strict recorder, even if its recording has stopped.
 *
 * A process shows by a mark that it has such a recorder (run.c). All see the same marks, so no barrier of
 * ours waits for a rank without a recorder.
 */
#define _GNU_SOURCE
#include "strict.h"
#include <string.h>

enum { FOR_NONE = 1, FOR_ALL = 2 };

bool strict;
static char marks[4096];   /* the folder of these files, empty if there is none */
static bool *has_recorder; /* of each rank of the world */
static int world_size, answer_key = MPI_KEYVAL_INVALID;
static MPI_Group world;

/* ---- Who has a recorder ------------------------------------------------------------------------ */

void strict_announce(const char *folder) {
    const char *wanted = getenv("MPIWAIT_STRICT");
    strict = wanted && *wanted && strcmp(wanted, "0") != 0;
    if (strict)
        put_mark(folder, "strict", marks);
}

/* The answer for a communicator is kept as its attribute. */
void strict_open(int ranks) {
    if (!strict || !*marks || !(has_recorder = calloc(ranks, sizeof *has_recorder)))
        return;
    world_size = ranks;
    for (int rank = 0; rank < ranks; rank++)
        has_recorder[rank] = has_mark(marks, rank);
    REAL(Comm_group)(MPI_COMM_WORLD, &world);
    REAL(Comm_create_keyval)(MPI_COMM_NULL_COPY_FN, MPI_COMM_NULL_DELETE_FN, &answer_key, NULL);
}

static bool all_have_recorders(MPI_Group group) {
    int size = 0;
    REAL(Group_size)(group, &size);
    for (int place = 0; place < size; place++) {
        int rank = MPI_UNDEFINED;
        REAL(Group_translate_ranks)(group, 1, &place, world, &rank);
        if (rank == MPI_UNDEFINED || rank >= world_size || !has_recorder[rank])
            return false;
    }
    return true;
}

static bool is_intracommunicator(MPI_Comm comm) {
    int inter = 1;
    return comm != MPI_COMM_NULL && REAL(Comm_test_inter)(comm, &inter) == MPI_SUCCESS && !inter;
}

static bool has_barriers(MPI_Comm comm) {
    void *answer = NULL;
    int found = 0;
    MPI_Group group;
    if (answer_key == MPI_KEYVAL_INVALID || !is_intracommunicator(comm))
        return false;
    REAL(Comm_get_attr)(comm, answer_key, &answer, &found);
    if (found)
        return (intptr_t)answer == FOR_ALL;
    REAL(Comm_group)(comm, &group);
    bool all = all_have_recorders(group);
    REAL(Group_free)(&group);
    REAL(Comm_set_attr)(comm, answer_key, (void *)(intptr_t)(all ? FOR_ALL : FOR_NONE));
    return all;
}

/* ---- Collectives ------------------------------------------------------------------------------- */

void collective_begins(MPI_Comm comm) {
    if (!strict || !is_of_program() || !is_intracommunicator(comm))
        return;
    if (has_barriers(comm))
        want_barrier(comm);
    else if (is_recorded())
        left_out(NOTHING, "collectives of a strict run without a barrier after them");
}

void collective_ends(int result) {
    MPI_Comm comm;
    if (!is_of_program() || !take_barrier(&comm))
        return;
    if (result != MPI_SUCCESS && is_recorded())
        journal_failed();
    OUTSIDE(REAL(Barrier)(comm));
}

/* ---- Sends ------------------------------------------------------------------------------------- */

bool makes_synchronous(MPI_Comm comm) { return is_of_program() && is_intracommunicator(comm); }

int check_halves(Half out, Half in, MPI_Comm comm) {
    MPI_Request request;
    int result = BY_COUNT(Ssend_init)(out.data, out.count, out.type, out.rank, out.tag, comm, &request);
    if (result != MPI_SUCCESS)
        return result;
    REAL(Request_free)(&request);
    result = BY_COUNT(Recv_init)(in.data, in.count, in.type, in.rank, in.tag, comm, &request);
    return result == MPI_SUCCESS ? REAL(Request_free)(&request) : result;
}

void set_status_of_nobody(MPI_Status *status) {
    if (status == MPI_STATUS_IGNORE)
        return;
    REAL(Status_set_elements)(status, MPI_BYTE, 0);
    REAL(Status_set_cancelled)(status, 0);
    status->MPI_SOURCE = MPI_PROC_NULL;
    status->MPI_TAG = MPI_ANY_TAG;
}

static int exchange(Half out, Half in, MPI_Comm comm, MPI_Status *status) {
    MPI_Request sent, received;
    int result = BY_COUNT(Irecv)(in.data, in.count, in.type, in.rank, in.tag, comm, &received);
    if (result != MPI_SUCCESS)
        return result;
    result = BY_COUNT(Issend)(out.data, out.count, out.type, out.rank, out.tag, comm, &sent);
    int sending = result == MPI_SUCCESS ? strict_finish(&sent, MPI_STATUS_IGNORE) : result;
    int receiving = strict_finish(&received, status);
    if (in.rank == MPI_PROC_NULL)
        set_status_of_nobody(status);
    return receiving == MPI_SUCCESS ? sending : receiving;
}

int strict_exchange(Half out, Half in, MPI_Comm comm, MPI_Status *status) {
    int result = check_halves(out, in, comm);
    return result == MPI_SUCCESS ? exchange(out, in, comm, status) : result;
}

char *pack_half(Half *out, MPI_Comm comm) {
    Size size = 0, end = 0;
    if (BY_COUNT(Pack_size)(out->count, out->type, comm, &size) != MPI_SUCCESS)
        return NULL;
    char *packed = malloc(size > 0 ? size : 1);
    if (packed && BY_COUNT(Pack)(out->data, out->count, out->type, packed, size, &end, comm) == MPI_SUCCESS) {
        out->data = packed;
        out->count = end;
        out->type = MPI_PACKED;
        return packed;
    }
    free(packed);
    return NULL;
}

int strict_replace(Half out, Half in, MPI_Comm comm, MPI_Status *status) {
    int result = check_halves(out, in, comm);
    if (result != MPI_SUCCESS)
        return result;
    char *packed = pack_half(&out, comm);
    if (!packed)
        return BY_COUNT(Sendrecv_replace)(in.data, in.count, in.type, out.rank, out.tag, in.rank, in.tag,
                                          comm, status);
    result = exchange(out, in, comm, status);
    free(packed);
    return result;
}
