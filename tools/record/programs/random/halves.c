/* The two halves of a message, each in many forms. See random.h. */
#include "random.h"
#include <sched.h>

/* A receive or probe as it is asked for. */
typedef struct {
    int source, tag;
    MPI_Comm comm;
} Asked;

/* ---- Sends ------------------------------------------------------------------------------------- */

static int *filled(int number) {
    int count = messages[number].count, *data = malloc(count * sizeof *data);
    for (int i = 0; i < count; i++)
        data[i] = number;
    return data;
}

static void send_now(const Message *message, int *data, int tag) {
    int peer = place_in(message->comm, message->to), count = message->count;
    MPI_Comm comm = comms[message->comm].handle;
    switch (mine(5)) {
    case 0: MPI_Ssend(data, count, MPI_INT, peer, tag, comm); break;
    case 1: MPI_Bsend(data, count, MPI_INT, peer, tag, comm); break;
#if MPI_VERSION >= 4
    case 2: MPI_Send_c(data, count, MPI_INT, peer, tag, comm); break;
#endif
    default: MPI_Send(data, count, MPI_INT, peer, tag, comm);
    }
    free(data);
}

static void start(MPI_Request *handle) {
    if (mine(2))
        MPI_Start(handle);
    else
        MPI_Startall(1, handle);
}

static void start_send(Open *open, int tag) {
    const Message *message = &messages[open->message];
    int peer = place_in(message->comm, message->to), count = message->count, *data = open->data;
    MPI_Comm comm = comms[message->comm].handle;
    int form = mine(5) + 5 * open->is_persistent;
    switch (form) {
    case 0: MPI_Issend(data, count, MPI_INT, peer, tag, comm, &open->handle); break;
    case 1: MPI_Ibsend(data, count, MPI_INT, peer, tag, comm, &open->handle); break;
#if MPI_VERSION >= 4
    case 2: MPI_Isend_c(data, count, MPI_INT, peer, tag, comm, &open->handle); break;
#endif
    case 5: MPI_Ssend_init(data, count, MPI_INT, peer, tag, comm, &open->handle); break;
    case 6: MPI_Bsend_init(data, count, MPI_INT, peer, tag, comm, &open->handle); break;
    case 7:
    case 8:
    case 9: MPI_Send_init(data, count, MPI_INT, peer, tag, comm, &open->handle); break;
    default: MPI_Isend(data, count, MPI_INT, peer, tag, comm, &open->handle);
    }
    if (open->is_persistent)
        start(&open->handle);
}

void send_half(int number, bool may_block) {
    Message *message = &messages[number];
    bool blocks = may_block && draw(2), buffers = !may_block && draw(8) == 0;
    bool lacks = take_fault(FAULT_NO_SEND);
    int tag = message->tag + 15000 * take_fault(FAULT_TAG);
    Open *open = blocks || buffers ? NULL : new_open(message->from, number, false);
    if (open)
        open->is_persistent = draw(5) == 0;
    message->is_sent = true;
    if (message->from != me || lacks)
        return;
    int *data = filled(number);
    if (open) {
        open->data = data;
        start_send(open, tag);
    } else if (buffers) {
        MPI_Bsend(data, message->count, MPI_INT, place_in(message->comm, message->to), tag,
                  comms[message->comm].handle);
        free(data);
    } else {
        send_now(message, data, tag);
    }
}

/* ---- Receives ---------------------------------------------------------------------------------- */

void check_message(const Message *message, const int *data, const MPI_Status *status) {
    int number = (int)(message - messages);
    if (data[0] != number || data[message->count - 1] != number)
        complain("another message came");
    if (status && status->MPI_SOURCE != message->source)
        complain("a status has another source");
    if (status && status->MPI_TAG != message->tag)
        complain("a status has another tag");
}

/* By its source, its tag or both. No other message has its tag; those of one source come in order. */
static Asked asked_for(const Message *message) {
    Asked asked = {message->source, message->tag, comms[message->comm].handle};
    switch (mine(4)) {
    case 0: asked.source = any_source(asked.source); break;
    case 1: asked.tag = any_tag(asked.tag); break;
    }
    return asked;
}

static void receive_probed(const Message *message, int *data, Asked asked) {
    MPI_Status status;
    int found = 0;
    if (mine(2))
        MPI_Probe(asked.source, asked.tag, asked.comm, mine(3) ? &status : MPI_STATUS_IGNORE);
    else
        for (; !found; sched_yield())
            MPI_Iprobe(asked.source, asked.tag, asked.comm, &found, &status);
    MPI_Recv(data, message->count, MPI_INT, asked.source, asked.tag, asked.comm, &status);
    check_message(message, data, &status);
}

static MPI_Message matched(Asked asked) {
    MPI_Message taken = MPI_MESSAGE_NULL;
    MPI_Status status;
    int found = 0;
    if (mine(2))
        MPI_Mprobe(asked.source, asked.tag, asked.comm, &taken, mine(3) ? &status : MPI_STATUS_IGNORE);
    else
        for (; !found; sched_yield())
            MPI_Improbe(asked.source, asked.tag, asked.comm, &found, &taken,
                        mine(3) ? &status : MPI_STATUS_IGNORE);
    return taken;
}

static void receive_now(const Message *message, Asked asked, bool may_probe) {
    int *data = malloc(message->count * sizeof *data);
    MPI_Status status;
    int form = mine(may_probe ? 6 : 3);
    if (form >= 4) {
        MPI_Message taken = matched(asked);
        MPI_Mrecv(data, message->count, MPI_INT, &taken, &status);
        check_message(message, data, &status);
    } else if (form == 3) {
        receive_probed(message, data, asked);
    } else if (form == 2) {
        MPI_Recv(data, message->count, MPI_INT, asked.source, asked.tag, asked.comm, MPI_STATUS_IGNORE);
        check_message(message, data, NULL);
    } else {
#if MPI_VERSION >= 4
        MPI_Recv_c(data, message->count, MPI_INT, asked.source, asked.tag, asked.comm, &status);
#else
        MPI_Recv(data, message->count, MPI_INT, asked.source, asked.tag, asked.comm, &status);
#endif
        check_message(message, data, &status);
    }
    free(data);
}

static void start_receive(Open *open, Asked asked, bool may_probe) {
    int count = messages[open->message].count;
    open->data = malloc(count * sizeof *open->data);
    if (open->is_persistent) {
        MPI_Recv_init(open->data, count, MPI_INT, asked.source, asked.tag, asked.comm, &open->handle);
        start(&open->handle);
    } else if (may_probe && mine(3) == 0) {
        MPI_Message taken = matched(asked);
        MPI_Imrecv(open->data, count, MPI_INT, &taken, &open->handle);
    } else {
        MPI_Irecv(open->data, count, MPI_INT, asked.source, asked.tag, asked.comm, &open->handle);
    }
}

void receive_half(int number, bool may_block, bool may_probe) {
    Message *message = &messages[number];
    bool blocks = may_block && draw(2);
    bool lacks = take_fault(FAULT_NO_RECEIVE), errs = take_fault(FAULT_SOURCE);
    Open *open = blocks ? NULL : new_open(message->to, number, true);
    if (open)
        open->is_persistent = draw(5) == 0;
    message->is_received = true;
    if (message->to != me || lacks)
        return;
    Asked asked = asked_for(message);
    if (errs)
        asked = (Asked){(message->source + 1) % comms[message->comm].left, message->tag,
                        comms[message->comm].handle};
    if (open)
        start_receive(open, asked, may_probe);
    else
        receive_now(message, asked, may_probe);
}

/* ---- Steps ------------------------------------------------------------------------------------- */

/* Sender and receiver of some communicator: the other side's of an intercommunicator. */
static void any_pair(int comm, int *from, int *to) {
    *from = comms[comm].members[draw(comms[comm].size)];
    do
        *to = comms[comm].members[draw(comms[comm].size)];
    while (comms[comm].is_inter && side_of(comm, *from) == side_of(comm, *to));
}

static const Message *first_pending(int comm, int from, int to) {
    for (int i = 0; i < message_count; i++) {
        const Message *message = &messages[i];
        if (message->comm == comm && message->from == from && message->to == to &&
            message->is_sent != message->is_received)
            return message;
    }
    return NULL;
}

/* Where a half of an earlier message is missing, the same half of this one is left for later. */
void step_message(void) {
    int comm = any_comm(true), from, to, first = draw(3);
    any_pair(comm, &from, &to);
    const Message *pending = first_pending(comm, from, to);
    if (pending)
        first = pending->is_received;
    int number = new_message(comm, from, to);
    if (first == 0) {
        send_half(number, false);
    } else if (first == 1) {
        receive_half(number, false, false);
    } else if (from == to) {
        send_half(number, false);
        receive_half(number, true, true);
    } else {
        send_half(number, true);
        receive_half(number, true, true);
    }
}

/* The missing half of some message, the first one that misses it. */
void step_other_half(void) {
    int missing[MOST_MESSAGES], count = 0;
    for (int i = 0; i < message_count; i++)
        if (messages[i].is_sent != messages[i].is_received)
            missing[count++] = i;
    if (count == 0)
        return;
    const Message *some = &messages[missing[draw(count)]];
    const Message *message = first_pending(some->comm, some->from, some->to);
    if (message->is_sent)
        receive_half((int)(message - messages), true, true);
    else
        send_half((int)(message - messages), true);
}
