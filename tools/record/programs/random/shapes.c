/* Steps of several messages at once. See random.h. */
#include "random.h"
#include <sched.h>

static MPI_Comm wild; /* of the world; each step on it ends with a barrier, so that no message is early */

/* ---- Rings ------------------------------------------------------------------------------------- */

/* This rank's neighbours in a ring or a row of some members, and the tags of their messages. */
typedef struct {
    MPI_Comm comm;
    int to, from, tag_to, tag_from;
} Place;

/* Draws such members; answers whether this rank is one. A row ends with MPI_PROC_NULL. */
static bool any_place(Place *place) {
    int comm = any_comm(false), chosen[MOST_RANKS], size = comms[comm].size, tag = next_tag();
    bool is_row = draw(4) == 0;
    for (int i = 0; i < size; i++)
        chosen[i] = comms[comm].members[i];
    shuffle(size, chosen);
    size = 1 + draw(size);
    bool is_mine = false;
    for (int i = 0; i < size; i++) {
        int next = chosen[(i + 1) % size], before = chosen[(i + size - 1) % size];
        if (!is_clear(comm, chosen[i], next))
            return false;
        if (chosen[i] != me)
            continue;
        is_mine = true;
        *place = (Place){.comm = comms[comm].handle, .tag_to = tag, .tag_from = tag};
        place->to = place_in(comm, next);
        place->from = place_in(comm, before);
        if (is_row && i == 0)
            place->from = MPI_PROC_NULL;
        if (is_row && i == size - 1)
            place->to = MPI_PROC_NULL;
    }
    return is_mine;
}

static void both_started(const Place *place, int *out, int *in) {
    MPI_Request handles[2];
    MPI_Status statuses[2];
    int source = mine(2) || place->from == MPI_PROC_NULL ? place->from : any_source(place->from);
    MPI_Irecv(in, 1, MPI_INT, source, place->tag_from, place->comm, &handles[0]);
    MPI_Isend(out, 1, MPI_INT, place->to, place->tag_to, place->comm, &handles[1]);
    complete(2, handles, statuses);
}

static void one_started(const Place *place, int *out, int *in) {
    MPI_Request handle;
    if (mine(2)) {
        int tag = mine(2) ? place->tag_from : any_tag(place->tag_from);
        MPI_Irecv(in, 1, MPI_INT, place->from, tag, place->comm, &handle);
        MPI_Send(out, 1, MPI_INT, place->to, place->tag_to, place->comm);
    } else {
        MPI_Isend(out, 1, MPI_INT, place->to, place->tag_to, place->comm, &handle);
        MPI_Recv(in, 1, MPI_INT, place->from, place->tag_from, place->comm, MPI_STATUS_IGNORE);
    }
    MPI_Wait(&handle, MPI_STATUS_IGNORE);
}

/* MPI 4.0 has them. MPICH 4.0 takes no MPI_PROC_NULL there. */
static void both_in_one(const Place *place, int *out, int *in) {
#if MPI_VERSION >= 4
    if (place->to == MPI_PROC_NULL || place->from == MPI_PROC_NULL) {
        one_started(place, out, in);
        return;
    }
    MPI_Request handle;
    MPI_Status status;
    if (mine(2)) {
        MPI_Isendrecv(out, 1, MPI_INT, place->to, place->tag_to, in, 1, MPI_INT, place->from,
                      place->tag_from, place->comm, &handle);
    } else {
        *in = *out;
        MPI_Isendrecv_replace(in, 1, MPI_INT, place->to, place->tag_to, place->from, place->tag_from,
                              place->comm, &handle);
    }
    complete(1, &handle, &status);
#else
    both_started(place, out, in);
#endif
}

static void exchange(const Place *place, int *out, int *in) {
    int form = mine(6), is_wild = place->from != MPI_PROC_NULL && mine(3) == 0;
    int source = is_wild ? any_source(place->from) : place->from;
    int tag = is_wild || mine(3) ? place->tag_from : any_tag(place->tag_from);
    if (form == 0) {
        MPI_Sendrecv(out, 1, MPI_INT, place->to, place->tag_to, in, 1, MPI_INT, source, tag, place->comm,
                     mine(2) ? MPI_STATUS_IGNORE : &(MPI_Status){0});
    } else if (form == 1) {
        *in = *out;
        MPI_Sendrecv_replace(in, 1, MPI_INT, place->to, place->tag_to, source, tag, place->comm,
                             MPI_STATUS_IGNORE);
    } else if (form == 2) {
        both_in_one(place, out, in);
    } else if (form == 3) {
        both_started(place, out, in);
    } else {
        one_started(place, out, in);
    }
}

void step_ring(void) {
    Place place = {0};
    bool is_wrong = take_fault(FAULT_ORDER), takes_part = any_place(&place);
    int out = place.tag_to, in = -1;
    if (!takes_part)
        return;
    if (is_wrong) { /* each sends before it receives */
        MPI_Send(&out, 1, MPI_INT, place.to, place.tag_to, place.comm);
        MPI_Recv(&in, 1, MPI_INT, place.from, place.tag_from, place.comm, MPI_STATUS_IGNORE);
        return;
    }
    exchange(&place, &out, &in);
    if (place.from != MPI_PROC_NULL && in != place.tag_from)
        complain("another message came in a ring");
}

void step_persistent_ring(void) {
    Place place = {0};
    int rounds = 1 + draw(3), out = 0, in = 0;
    MPI_Request handles[2];
    MPI_Status statuses[2];
    if (!any_place(&place))
        return;
    MPI_Send_init(&out, 1, MPI_INT, place.to, place.tag_to, place.comm, &handles[0]);
    MPI_Recv_init(&in, 1, MPI_INT, place.from, place.tag_from, place.comm, &handles[1]);
    for (; rounds > 0; rounds--) {
        MPI_Startall(2, handles);
        complete_with_nobody(2, handles, statuses);
    }
    MPI_Request_free(&handles[0]);
    MPI_Request_free(&handles[1]);
}

/* ---- Pairs ------------------------------------------------------------------------------------- */

/* Two members of a communicator between which no half is missing; whether there are such. */
static bool any_pair(int *comm, int *from, int *to) {
    *comm = any_comm(false);
    *from = comms[*comm].members[draw(comms[*comm].size)];
    *to = comms[*comm].members[draw(comms[*comm].size)];
    return *from != *to && is_clear(*comm, *from, *to);
}

/* The receive has surely begun when the send does. */
void step_ready(void) {
    int comm, from, to, starts = draw(2);
    if (!any_pair(&comm, &from, &to))
        return;
    int number = new_message(comm, from, to), *data = NULL;
    const Message *message = &messages[number];
    receive_half(number, false, false);
    barrier_of(comm);
    Open *open = starts ? new_open(from, number, false) : NULL;
    messages[number].is_sent = true;
    if (from != me)
        return;
    data = malloc(message->count * sizeof *data);
    for (int i = 0; i < message->count; i++)
        data[i] = number;
    if (open) {
        open->data = data;
        MPI_Irsend(data, message->count, MPI_INT, place_in(comm, to), message->tag, comms[comm].handle,
                   &open->handle);
    } else {
        MPI_Rsend(data, message->count, MPI_INT, place_in(comm, to), message->tag, comms[comm].handle);
        free(data);
    }
}

/* Two messages, of which the second is received first. */
void step_crossed(void) {
    int comm, from, to, first = next_tag(), second = next_tag(), data[2] = {1, 2};
    MPI_Request handles[2];
    MPI_Status statuses[2];
    if (!any_pair(&comm, &from, &to))
        return;
    MPI_Comm handle = comms[comm].handle;
    if (from == me) {
        MPI_Isend(&data[0], 1, MPI_INT, place_in(comm, to), first, handle, &handles[0]);
        MPI_Issend(&data[1], 1, MPI_INT, place_in(comm, to), second, handle, &handles[1]);
        complete(2, handles, statuses);
    } else if (to == me) {
        int source = place_in(comm, from);
        MPI_Recv(&data[0], 1, MPI_INT, mine(2) ? any_source(source) : source, second, handle, &statuses[0]);
        MPI_Recv(&data[1], 1, MPI_INT, source, first, handle, MPI_STATUS_IGNORE);
        if (data[0] != 2 || data[1] != 1)
            complain("crossed messages came otherwise");
    }
}

/* A probe takes the first message, a receive after it the second, and then the first is received. */
static void take_matched(int source, int tag, MPI_Comm comm) {
    int first = 0, second = 0;
    MPI_Message taken;
    MPI_Request handle;
    MPI_Mprobe(mine(2) ? source : any_source(source), tag, comm, &taken, MPI_STATUS_IGNORE);
    MPI_Recv(&second, 1, MPI_INT, source, tag, comm, MPI_STATUS_IGNORE);
    if (mine(2)) {
        MPI_Mrecv(&first, 1, MPI_INT, &taken, MPI_STATUS_IGNORE);
    } else {
        MPI_Imrecv(&first, 1, MPI_INT, &taken, &handle);
        MPI_Wait(&handle, MPI_STATUS_IGNORE);
    }
    if (first != 1 || second != 2)
        complain("a matched probe took another message");
}

void step_matched(void) {
    int comm, from, to, tag = next_tag(), data[2] = {1, 2};
    MPI_Request handles[2];
    MPI_Status statuses[2];
    if (!any_pair(&comm, &from, &to))
        return;
    if (from == me) {
        MPI_Isend(&data[0], 1, MPI_INT, place_in(comm, to), tag, comms[comm].handle, &handles[0]);
        MPI_Isend(&data[1], 1, MPI_INT, place_in(comm, to), tag, comms[comm].handle, &handles[1]);
        complete(2, handles, statuses);
    } else if (to == me) {
        take_matched(place_in(comm, from), tag, comms[comm].handle);
    }
}

/* A send that nobody waits for. */
void step_freed(void) {
    static int sent[MOST_RANKS];
    int comm, from, to, tag = next_tag(), got;
    MPI_Request handle;
    if (!any_pair(&comm, &from, &to))
        return;
    if (from == me) {
        MPI_Isend(&sent[to], 1, MPI_INT, place_in(comm, to), tag, comms[comm].handle, &handle);
        MPI_Request_free(&handle);
    } else if (to == me) {
        MPI_Recv(&got, 1, MPI_INT, place_in(comm, from), tag, comms[comm].handle, MPI_STATUS_IGNORE);
    }
}

/* ---- Wildcards --------------------------------------------------------------------------------- */

enum { MOST_EACH = 3, MOST_WILD = MOST_EACH * MOST_RANKS };

static void receive_wild(int form, int *data) {
    MPI_Status status;
    MPI_Message taken;
    MPI_Request handle;
    int found = 0;
    if (form == 0) {
        MPI_Recv(data, 1, MPI_INT, MPI_ANY_SOURCE, MPI_ANY_TAG, wild, &status);
    } else if (form == 1) {
        MPI_Probe(MPI_ANY_SOURCE, MPI_ANY_TAG, wild, &status);
        MPI_Recv(data, 1, MPI_INT, status.MPI_SOURCE, status.MPI_TAG, wild, MPI_STATUS_IGNORE);
    } else if (form == 2) {
        for (; !found; sched_yield())
            MPI_Iprobe(MPI_ANY_SOURCE, MPI_ANY_TAG, wild, &found, &status);
        MPI_Recv(data, 1, MPI_INT, status.MPI_SOURCE, status.MPI_TAG, wild, &status);
    } else {
        MPI_Mprobe(MPI_ANY_SOURCE, MPI_ANY_TAG, wild, &taken, &status);
        MPI_Imrecv(data, 1, MPI_INT, &taken, &handle);
        MPI_Wait(&handle, &status);
    }
}

static void receive_all_wild(int count) {
    int data[MOST_WILD], is_persistent = mine(3) == 0, form = mine(6);
    MPI_Request handles[MOST_WILD];
    MPI_Status statuses[MOST_WILD];
    if (form < 4) {
        for (int i = 0; i < count; i++)
            receive_wild(form, &data[i]);
        return;
    }
    for (int i = 0; i < count; i++)
        if (is_persistent)
            MPI_Recv_init(&data[i], 1, MPI_INT, MPI_ANY_SOURCE, MPI_ANY_TAG, wild, &handles[i]);
        else
            MPI_Irecv(&data[i], 1, MPI_INT, MPI_ANY_SOURCE, MPI_ANY_TAG, wild, &handles[i]);
    if (is_persistent)
        MPI_Startall(count, handles);
    complete(count, handles, statuses);
    for (int i = 0; is_persistent && i < count; i++)
        MPI_Request_free(&handles[i]);
}

static void send_wild(int count, int to) {
    int data[MOST_EACH] = {0};
    MPI_Request handles[MOST_EACH];
    MPI_Status statuses[MOST_EACH];
    if (mine(2)) {
        for (int i = 0; i < count; i++)
            MPI_Send(&data[i], 1, MPI_INT, to, mine(4), wild);
        return;
    }
    for (int i = 0; i < count; i++)
        MPI_Isend(&data[i], 1, MPI_INT, to, mine(4), wild, &handles[i]);
    complete(count, handles, statuses);
}

/* One rank receives what all others send, from any source with any tag. */
void step_wildcards(void) {
    int to = draw(ranks), all = 0, sent = 0;
    for (int rank = 0; rank < ranks; rank++) {
        int count = rank == to ? 0 : draw(MOST_EACH + 1);
        all += count;
        if (rank == me)
            sent = count;
    }
    if (to == me)
        receive_all_wild(all);
    else
        send_wild(sent, to);
    MPI_Barrier(wild);
}

void begin_wildcards(void) { MPI_Comm_dup(MPI_COMM_WORLD, &wild); }

void end_wildcards(void) { MPI_Comm_free(&wild); }
