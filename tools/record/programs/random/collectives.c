/* Collectives in both forms. See random.h. */
#include "random.h"

int counts[MOST_RANKS], places[MOST_RANKS], offsets[MOST_RANKS];
MPI_Datatype types[MOST_RANKS];

enum { KINDS = 17, INTER_KINDS = 6 };

/* A call of one rank: blocking where there is no request. */
typedef struct {
    int kind, root;
    int *out, *in;
    MPI_Comm comm;
    MPI_Request *request;
} Call;

#define DO(Name, Iname, ...) \
    (call->request ? MPI_##Iname(__VA_ARGS__, comm, call->request) : MPI_##Name(__VA_ARGS__, comm))
#define ONE 1, MPI_INT
#define EACH counts, places, MPI_INT

static void make(const Call *call) {
    int *out = call->out, *in = call->in, root = call->root;
    MPI_Comm comm = call->comm;
    switch (call->kind) {
    case 0: call->request ? MPI_Ibarrier(comm, call->request) : MPI_Barrier(comm); break;
    case 1: DO(Bcast, Ibcast, out, ONE, root); break;
    case 2: DO(Allgather, Iallgather, out, ONE, in, ONE); break;
    case 3: DO(Alltoall, Ialltoall, out, ONE, in, ONE); break;
    case 4: DO(Allreduce, Iallreduce, out, in, ONE, MPI_SUM); break;
    case 5: DO(Reduce, Ireduce, out, in, ONE, MPI_SUM, root); break;
    case 6: DO(Gather, Igather, out, ONE, in, ONE, root); break;
    case 7: DO(Gatherv, Igatherv, out, ONE, in, EACH, root); break;
    case 8: DO(Scatter, Iscatter, out, ONE, in, ONE, root); break;
    case 9: DO(Scatterv, Iscatterv, out, EACH, in, ONE, root); break;
    case 10: DO(Allgatherv, Iallgatherv, out, ONE, in, EACH); break;
    case 11: DO(Alltoallv, Ialltoallv, out, EACH, in, EACH); break;
    case 12: DO(Alltoallw, Ialltoallw, out, counts, offsets, types, in, counts, offsets, types); break;
    case 13: DO(Reduce_scatter, Ireduce_scatter, out, in, counts, MPI_INT, MPI_SUM); break;
    case 14: DO(Reduce_scatter_block, Ireduce_scatter_block, out, in, ONE, MPI_SUM); break;
    case 15: DO(Scan, Iscan, out, in, ONE, MPI_SUM); break;
    case 16: DO(Exscan, Iexscan, out, in, ONE, MPI_SUM); break;
    }
}

/* The root as a rank of an intercommunicator names it: that of the other side by its place there. */
static int root_for(int comm, int root) {
    if (!comms[comm].is_inter)
        return place_in(comm, root);
    if (side_of(comm, root) != side_of(comm, me))
        return place_in(comm, root);
    return root == me ? MPI_ROOT : MPI_PROC_NULL;
}

/* The collective is the same for all members; this rank's own call is made if it is one of them. */
static Call any_call(int comm) {
    int kind = draw(comms[comm].is_inter ? INTER_KINDS : KINDS);
    int root = comms[comm].members[draw(comms[comm].size)];
    Call call = {.kind = is_faulty ? 0 : kind, .comm = comms[comm].handle};
    if (is_member(comm, me))
        call.root = root_for(comm, root);
    return call;
}

static int *room_for(Call *call) {
    int *data = calloc(2 * MOST_RANKS, sizeof *data);
    call->out = data;
    call->in = data + MOST_RANKS;
    return data;
}

void barrier_of(int comm) {
    int skips = take_fault(FAULT_NO_BARRIER) ? comms[comm].members[draw(comms[comm].size)] : NOBODY;
    if (is_member(comm, me) && me != skips)
        MPI_Barrier(comms[comm].handle);
}

void step_collective(void) {
    int comm = any_comm(true);
    if (is_faulty) {
        barrier_of(comm);
        return;
    }
    Call call = any_call(comm);
    if (!is_member(comm, me))
        return;
    int *data = room_for(&call);
    make(&call);
    free(data);
}

/* Open MPI 4.1 may take a collective that was started after an MPI_Comm_idup for one of that one's own. */
static bool is_being_copied(int comm) {
    for (int i = 0; i < MOST_COMMS; i++)
        if (comms[i].unborn > 0 && comms[i].parent == comm)
            return true;
    return false;
}

void step_started_collective(void) {
    int comm = any_comm(true);
    Call call = any_call(comm);
    if (is_being_copied(comm))
        return;
    for (int i = 0; i < comms[comm].size; i++) {
        Open *open = new_open(comms[comm].members[i], NOBODY, false);
        open->comm = comm;
        if (open->owner != me)
            continue;
        open->data = room_for(&call);
        call.request = &open->handle;
        make(&call);
    }
}
