/* What all ranks know of the plan, and the numbers that are drawn for it. See random.h. */
#include "random.h"
#include <stdint.h>
#include <stdio.h>

int me, ranks;
Comm comms[MOST_COMMS];
Message messages[MOST_MESSAGES];
int message_count;
Open opens[MOST_OPEN];
int open_count;
MPI_Comm bridge;
Fault fault;
bool is_faulty, has_pauses;

static uint64_t shared, own;
static int tags;

/* ---- Numbers ----------------------------------------------------------------------------------- */

/* Splitmix64. */
static uint64_t next(uint64_t *state) {
    uint64_t x = *state += 0x9e3779b97f4a7c15u;
    x = (x ^ x >> 30) * 0xbf58476d1ce4e5b9u;
    x = (x ^ x >> 27) * 0x94d049bb133111ebu;
    return x ^ x >> 31;
}

int draw(int below) { return (int)(next(&shared) % (unsigned)below); }
int mine(int below) { return (int)(next(&own) % (unsigned)below); }

void seed_plan(unsigned seed, int rank) {
    shared = seed;
    own = seed ^ (uint64_t)(rank + 1) << 40;
}

void shuffle(int count, int list[]) {
    for (int i = count - 1; i > 0; i--) {
        int j = draw(i + 1), kept = list[i];
        list[i] = list[j];
        list[j] = kept;
    }
}

bool take_fault(Fault here) {
    bool is_here = fault == here;
    if (is_here)
        fault = FAULT_NONE;
    return is_here;
}

/* What the program got isn't what was sent to it. */
void complain(const char *what) {
    if (is_faulty)
        return;
    fprintf(stderr, "random-program: rank %d: %s\n", me, what);
    MPI_Abort(MPI_COMM_WORLD, 9);
}

/* ---- Communicators ----------------------------------------------------------------------------- */

int new_comm(void) {
    int comm = 0;
    while (comm < MOST_COMMS && (comms[comm].is_alive || comms[comm].unborn > 0))
        comm++;
    if (comm == MOST_COMMS)
        return NOBODY;
    comms[comm] = (Comm){.handle = MPI_COMM_NULL, .parent = NOBODY};
    return comm;
}

/* One that may be used; the world is always there. */
int any_comm(bool inter_too) {
    int comm;
    do
        comm = draw(MOST_COMMS);
    while (!comms[comm].is_alive || (comms[comm].is_inter && !inter_too));
    return comm;
}

bool is_member(int comm, int rank) {
    for (int i = 0; i < comms[comm].size; i++)
        if (comms[comm].members[i] == rank)
            return true;
    return false;
}

static int index_of(int comm, int rank) {
    int at = 0;
    while (comms[comm].members[at] != rank)
        at++;
    return at;
}

int side_of(int comm, int rank) { return index_of(comm, rank) >= comms[comm].left; }

int place_in(int comm, int rank) {
    int at = index_of(comm, rank);
    return at < comms[comm].left ? at : at - comms[comm].left;
}

/* ---- Messages ---------------------------------------------------------------------------------- */

int next_tag(void) { return 1 + tags++ % 12000; }

int new_message(int comm, int from, int to) {
    static const int sizes[] = {1, 1, 2, 4, 8, 100, 1000, 40000};
    if (message_count == MOST_MESSAGES) {
        fputs("random-program: more steps than there is room for\n", stderr);
        MPI_Abort(MPI_COMM_WORLD, 9);
    }
    int count = sizes[draw(8)];
    messages[message_count] =
        (Message){.comm = comm, .from = from, .to = to, .tag = next_tag(), .count = is_faulty ? 1 : count,
                  .source = place_in(comm, from)};
    return message_count++;
}

static bool is_pending(const Message *message) { return message->is_sent != message->is_received; }

bool has_pending(int comm) {
    for (int i = 0; i < message_count; i++)
        if (messages[i].comm == comm && is_pending(&messages[i]))
            return true;
    return false;
}

bool is_clear(int comm, int from, int to) {
    for (int i = 0; i < message_count; i++) {
        const Message *message = &messages[i];
        if (message->comm == comm && message->from == from && message->to == to && is_pending(message))
            return false;
    }
    return true;
}

/* ---- Requests ---------------------------------------------------------------------------------- */

Open *new_open(int owner, int message, bool is_receive) {
    if (open_count == MOST_OPEN) {
        fputs("random-program: more requests than there is room for\n", stderr);
        MPI_Abort(MPI_COMM_WORLD, 9);
    }
    Open *open = &opens[open_count++];
    *open = (Open){.owner = owner, .message = message, .is_receive = is_receive, .made = NOBODY,
                   .comm = message == NOBODY ? NOBODY : messages[message].comm, .handle = MPI_REQUEST_NULL};
    return open;
}

/* Whether a wait for it may block: the other half has begun, if it is one of a message. */
bool is_ready(const Open *open) {
    if (open->message == NOBODY)
        return true;
    return open->is_receive ? messages[open->message].is_sent : messages[open->message].is_received;
}

void forget(Open *open) {
    if (open->made != NOBODY && --comms[open->made].unborn == 0)
        comms[open->made].is_alive = true;
    *open = opens[--open_count];
}
