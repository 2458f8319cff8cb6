/* What a rank does by itself, and receives that are cancelled. See random.h. */
#include "random.h"

/* ---- MPI_PROC_NULL ----------------------------------------------------------------------------- */

static void blocking_with_nobody(MPI_Comm comm, int *data) {
    MPI_Status status;
    MPI_Message taken;
    int found;
    MPI_Send(data, 1, MPI_INT, MPI_PROC_NULL, 3, comm);
    MPI_Ssend(data, 1, MPI_INT, MPI_PROC_NULL, 3, comm);
    MPI_Recv(data, 1, MPI_INT, MPI_PROC_NULL, MPI_ANY_TAG, comm, &status);
    MPI_Probe(MPI_PROC_NULL, MPI_ANY_TAG, comm, &status);
    MPI_Iprobe(MPI_PROC_NULL, 5, comm, &found, &status);
    MPI_Mprobe(MPI_PROC_NULL, MPI_ANY_TAG, comm, &taken, MPI_STATUS_IGNORE);
    MPI_Mrecv(data, 1, MPI_INT, &taken, &status);
    MPI_Sendrecv_replace(data, 1, MPI_INT, MPI_PROC_NULL, 3, MPI_PROC_NULL, MPI_ANY_TAG, comm, &status);
    if (status.MPI_SOURCE != MPI_PROC_NULL)
        complain("nobody's message has a source");
}

static void started_with_nobody(MPI_Comm comm, int *data) {
    MPI_Request handles[5];
    MPI_Status statuses[5];
    MPI_Message taken;
    int found = 0;
    MPI_Improbe(MPI_PROC_NULL, MPI_ANY_TAG, comm, &found, &taken, MPI_STATUS_IGNORE);
    MPI_Imrecv(data, 1, MPI_INT, &taken, &handles[0]);
    MPI_Isend(data, 1, MPI_INT, MPI_PROC_NULL, 3, comm, &handles[1]);
    MPI_Irecv(data, 1, MPI_INT, MPI_PROC_NULL, MPI_ANY_TAG, comm, &handles[2]);
    MPI_Ibsend(data, 1, MPI_INT, MPI_PROC_NULL, 3, comm, &handles[3]);
    handles[4] = MPI_REQUEST_NULL;
    MPI_Waitall(5, handles, statuses);
}

static void persistent_with_nobody(MPI_Comm comm, int *data) {
    MPI_Request handles[3] = {MPI_REQUEST_NULL};
    int chosen, count, places_done[3], done;
    MPI_Recv_init(data, 1, MPI_INT, MPI_PROC_NULL, MPI_ANY_TAG, comm, &handles[1]);
    MPI_Send_init(data, 1, MPI_INT, MPI_PROC_NULL, 3, comm, &handles[2]);
    MPI_Startall(2, handles + 1);
    MPI_Waitany(3, handles, &chosen, MPI_STATUS_IGNORE);
    MPI_Testany(3, handles, &chosen, &done, MPI_STATUS_IGNORE);
    MPI_Waitall(3, handles, MPI_STATUSES_IGNORE);
    MPI_Start(&handles[1]);
    MPI_Waitsome(3, handles, &count, places_done, MPI_STATUSES_IGNORE);
    MPI_Waitall(3, handles, MPI_STATUSES_IGNORE);
    MPI_Request_free(&handles[1]);
    MPI_Request_free(&handles[2]);
}

static void nothing_at_all(void) {
    MPI_Request handles[2] = {MPI_REQUEST_NULL, MPI_REQUEST_NULL};
    int chosen, done, count, places_done[2];
    MPI_Wait(&handles[0], MPI_STATUS_IGNORE);
    MPI_Waitall(2, handles, MPI_STATUSES_IGNORE);
    MPI_Waitall(0, NULL, MPI_STATUSES_IGNORE);
    MPI_Waitany(2, handles, &chosen, MPI_STATUS_IGNORE);
    MPI_Waitsome(2, handles, &count, places_done, MPI_STATUSES_IGNORE);
    MPI_Test(&handles[0], &done, MPI_STATUS_IGNORE);
    MPI_Testall(2, handles, &done, MPI_STATUSES_IGNORE);
    MPI_Testany(2, handles, &chosen, &done, MPI_STATUS_IGNORE);
    MPI_Testsome(2, handles, &count, places_done, MPI_STATUSES_IGNORE);
}

void step_alone(void) {
    static void (*const ways[])(MPI_Comm, int *) = {
        blocking_with_nobody,
        started_with_nobody,
        persistent_with_nobody,
    };
    int comm = any_comm(true), rank = draw(ranks), way = draw(4), data = 0;
    if (rank != me || !is_member(comm, me))
        return;
    if (way < 3)
        ways[way](comms[comm].handle, &data);
    else
        nothing_at_all();
}

/* ---- MPI_COMM_SELF ----------------------------------------------------------------------------- */

static void talk_to_oneself(MPI_Comm comm) {
    int out = 1, in = 0, tag = mine(9);
    MPI_Request handles[2];
    MPI_Status statuses[2];
    MPI_Sendrecv(&out, 1, MPI_INT, 0, tag, &in, 1, MPI_INT, MPI_ANY_SOURCE, tag, comm, &statuses[0]);
    MPI_Irecv(&in, 1, MPI_INT, 0, MPI_ANY_TAG, comm, &handles[0]);
    MPI_Isend(&out, 1, MPI_INT, 0, tag, comm, &handles[1]);
    complete(2, handles, statuses);
    MPI_Allreduce(&out, &in, 1, MPI_INT, MPI_SUM, comm);
    MPI_Bcast(&in, 1, MPI_INT, 0, comm);
}

void step_self(void) {
    MPI_Comm copy;
    int rank = draw(ranks), copies = draw(2);
    if (rank != me)
        return;
    talk_to_oneself(MPI_COMM_SELF);
    if (!copies)
        return;
    MPI_Comm_dup(MPI_COMM_SELF, &copy);
    talk_to_oneself(copy);
    MPI_Comm_free(&copy);
}

/* ---- Cancelled receives ------------------------------------------------------------------------ */

/* Nobody sends with its tag. */
void step_cancelled(void) {
    int comm = any_comm(true), rank = draw(ranks), tag = next_tag(), data, gone = 0, done = 0;
    MPI_Request handle;
    MPI_Status status;
    if (rank != me || !is_member(comm, me))
        return;
    bool is_persistent = mine(3) == 0;
    int source = mine(2) ? 0 : any_source(0);
    if (is_persistent) {
        MPI_Recv_init(&data, 1, MPI_INT, source, tag, comms[comm].handle, &handle);
        MPI_Start(&handle);
    } else {
        MPI_Irecv(&data, 1, MPI_INT, source, tag, comms[comm].handle, &handle);
    }
    MPI_Cancel(&handle);
    if (mine(2))
        MPI_Wait(&handle, &status);
    else
        while (!done)
            MPI_Test(&handle, &done, &status);
    MPI_Test_cancelled(&status, &gone);
    if (!gone)
        complain("a receive isn't cancelled");
    if (is_persistent)
        MPI_Request_free(&handle);
}

/* Its message has been received when it is cancelled. */
void step_kept(void) {
    int comm = any_comm(false), size = comms[comm].size, tag = next_tag(), data = 0, gone = 1;
    int from = comms[comm].members[draw(size)], to = comms[comm].members[draw(size)];
    MPI_Request handle = MPI_REQUEST_NULL;
    MPI_Status status;
    if (from == to || !is_clear(comm, from, to))
        return;
    int source = is_member(comm, me) ? place_in(comm, from) : 0;
    if (to == me)
        MPI_Irecv(&data, 1, MPI_INT, mine(2) ? source : any_source(source), tag, comms[comm].handle,
                  &handle);
    if (from == me)
        MPI_Ssend(&data, 1, MPI_INT, place_in(comm, to), tag, comms[comm].handle);
    barrier_of(comm);
    if (to != me)
        return;
    MPI_Cancel(&handle);
    MPI_Wait(&handle, &status);
    MPI_Test_cancelled(&status, &gone);
    if (gone)
        complain("a receive that was done is cancelled");
}

/* A look at a request that may not be complete. */
void step_look(void) {
    int at = open_count > 0 ? draw(open_count) : NOBODY, done;
    if (at != NOBODY && opens[at].owner == me && opens[at].handle != MPI_REQUEST_NULL)
        MPI_Request_get_status(opens[at].handle, &done, MPI_STATUS_IGNORE);
}
