/* What is under way in a run. See sums.h.
 *
 * Each message adds a hash of its communicator, source, destination and tag when its send is started, and
 * takes it away when its receive completes. Each rank adds a hash of each communicator with the number of its
 * calls there, and the first member takes away those of all others. So both sums over all ranks are zero if
 * nothing is under way, and else with a chance of 1 in 2^64.
 *
 * The members of a communicator know it by a hash of its parent, the number of the call on the parent that
 * made it, and its group. So they agree on it without a word.
 */
#define _GNU_SOURCE
#include "sums.h"
#include <stdlib.h>

typedef struct {
    uint64_t identity;
    MPI_Comm handle;
    long calls; /* by which all members take part */
    int rank, size;
    bool is_had;
} Known;

bool sums_are_kept;
static Known *known; /* by number; none if the sums aren't kept */
static int known_room;
static uint64_t messages;

static uint64_t mixed(uint64_t hash, uint64_t more) {
    hash ^= more + 0x9e3779b97f4a7c15u + (hash << 6) + (hash >> 2);
    hash = (hash ^ hash >> 30) * 0xbf58476d1ce4e5b9u;
    hash = (hash ^ hash >> 27) * 0x94d049bb133111ebu;
    return hash ^ hash >> 31;
}

/* ---- Communicators ----------------------------------------------------------------------------- */

uint64_t origin_of(Way way, uint64_t parent, long count) { return mixed(mixed(way, parent), count); }

static uint64_t hash_of_group(uint64_t hash, int size, const Field members[]) {
    for (int i = 0; i < size; i++)
        hash = mixed(hash, members[i]);
    return mixed(hash, size);
}

static bool make_room(int number) {
    int room = known_room ? known_room : 64;
    while (room <= number)
        room *= 2;
    Known *more = room == known_room ? known : realloc(known, room * sizeof *known);
    if (!more) {
        journal_stop("there is no memory for its communicators");
        return false;
    }
    for (int i = known_room; i < room; i++)
        more[i] = (Known){.handle = MPI_COMM_NULL};
    known = more;
    known_room = room;
    return true;
}

void has_communicator(int number, MPI_Comm comm, uint64_t origin, int size, const Field members[]) {
    if (!sums_are_kept || !make_room(number))
        return;
    Known new = {
        .identity = hash_of_group(origin, size, members), .handle = comm, .size = size, .is_had = true};
    REAL(Comm_rank)(comm, &new.rank);
    known[number] = new;
}

void frees_communicator(int number) {
    if (number < known_room)
        known[number].is_had = false;
}

bool is_had(int number) { return number < known_room && known[number].is_had; }

MPI_Comm communicator_of(int number) { return known[number].handle; }

uint64_t joins(Way way, int number) {
    if (number < 0 || number >= known_room)
        return 0;
    return origin_of(way, known[number].identity, known[number].calls++);
}

uint64_t origin_of_group(int size, const Field members[]) {
    static struct {
        uint64_t group;
        long calls;
    } * groups;
    static int count, room;
    int at = 0;
    if (!sums_are_kept)
        return 0;
    uint64_t group = hash_of_group(OF_GROUP, size, members);
    while (at < count && groups[at].group != group)
        at++;
    if (at == room) {
        void *more = realloc(groups, (room = 2 * room + 16) * sizeof *groups);
        if (!more) {
            journal_stop("there is no memory for its communicators");
            return 0;
        }
        groups = more;
    }
    if (at == count) {
        groups[count].calls = 0;
        groups[count++].group = group;
    }
    return origin_of(OF_GROUP, 0, groups[at].calls++);
}

static int by_identity(const void *one, const void *other) {
    uint64_t first = known[*(const int *)one].identity, second = known[*(const int *)other].identity;
    return first < second ? -1 : first > second;
}

int *communicators_had(int *count) {
    int *numbers = malloc((known_room + 1) * sizeof *numbers);
    *count = 0;
    for (int number = SELF + 1; numbers && number < known_room; number++)
        if (known[number].is_had)
            numbers[(*count)++] = number;
    if (numbers)
        qsort(numbers, *count, sizeof *numbers, by_identity);
    return numbers;
}

uint64_t sum_of_waves(void) {
    uint64_t sum = 0;
    for (int number = 0; number < known_room; number++) {
        const Known *one = &known[number];
        uint64_t hash = mixed(one->identity, one->calls);
        if (one->is_had)
            sum += one->rank == 0 ? -hash * (uint64_t)(one->size - 1) : hash;
    }
    return sum;
}

/* ---- Messages ---------------------------------------------------------------------------------- */

static uint64_t hash_of_message(int number, Field source, Field dest, Field tag) {
    if (number < 0 || number >= known_room)
        return 0;
    uint64_t ranks = (uint64_t)source << 32 | (uint32_t)dest;
    return mixed(mixed(known[number].identity, ranks), tag);
}

uint64_t adds_send(int number, Field dest, Field tag) {
    if (number < 0 || number >= known_room || dest == NULL_PEER)
        return 0;
    uint64_t sent = hash_of_message(number, known[number].rank, dest, tag);
    messages += sent;
    return sent;
}

void takes_back(uint64_t sent) { messages -= sent; }

uint64_t message_from(int number, Field source, Field tag) {
    if (number < 0 || number >= known_room || source == NULL_PEER)
        return 0;
    return hash_of_message(number, source, known[number].rank, tag);
}

void receives_message(uint64_t message) { messages -= message; }

void takes_receive(int number, Field source, Field tag) { messages -= message_from(number, source, tag); }

/* What a wildcard took is known by the status alone. */
static void settles_receive(const Request *request, const MPI_Status *status) {
    Receive wanted = request->receive;
    bool has_wildcard = wanted.source != NULL_PEER && (wanted.source == ANY || wanted.tag == ANY);
    if (!has_wildcard)
        receives(wanted.comm, wanted.source, wanted.tag);
    else if (request->wild && status)
        receives(wanted.comm, status->MPI_SOURCE, status->MPI_TAG);
    else
        in_doubt = true;
}

void settles(const Request *request, bool gone_send, bool gone_receive, const MPI_Status *status) {
    if (!sums_are_kept)
        return;
    if (gone_send)
        takes_back(request->sent);
    receives_message(request->message);
    if (request->receive.is_there && !gone_receive)
        settles_receive(request, status);
}

uint64_t sum_of_messages(void) { return messages; }
