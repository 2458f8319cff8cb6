/* MPI_Isendrecv and MPI_Isendrecv_replace of strict runs. See strict.h.
 *
 * The synchronous send and the receive are two requests of the library. The program gets one generalized
 * request, which tests both whenever it is waited for or tested. That needs MPIX_Grequest_start of MPICH; MPI
 * itself has no such requests. With other libraries these calls stay as they are.
 */
#define _GNU_SOURCE
#include "strict.h"

#if defined HAS_Isendrecv && defined MPICH
#define HAS_PAIRS
#endif

#ifdef HAS_PAIRS
#include <pthread.h>

typedef struct Pair {
    MPI_Request whole, sent, received; /* the last two are null once they are complete */
    MPI_Status status;                 /* of the receive */
    int error;
    bool is_from_nobody;
    char *packed; /* the message to be sent, if it isn't in the program's own buffer */
    struct Pair *next;
} Pair;

/* The pairs that aren't complete. */
static Pair *open_pairs;
static pthread_mutex_t pairs_lock = PTHREAD_MUTEX_INITIALIZER;

static void add_pair(Pair *pair) {
    pthread_mutex_lock(&pairs_lock);
    pair->next = open_pairs;
    open_pairs = pair;
    pthread_mutex_unlock(&pairs_lock);
}

static void remove_pair(const Pair *pair) {
    pthread_mutex_lock(&pairs_lock);
    Pair **place = &open_pairs;
    while (*place && *place != pair)
        place = &(*place)->next;
    if (*place)
        *place = pair->next;
    pthread_mutex_unlock(&pairs_lock);
}

static void note(Pair *pair, int result) {
    if (result != MPI_SUCCESS)
        pair->error = result;
}

static int poll_pair(void *state, MPI_Status *none) {
    (void)none;
    Pair *pair = state;
    int done;
    if (pair->whole == MPI_REQUEST_NULL)
        return MPI_SUCCESS;
    if (pair->sent != MPI_REQUEST_NULL)
        note(pair, REAL(Test)(&pair->sent, &done, MPI_STATUS_IGNORE));
    if (pair->received != MPI_REQUEST_NULL)
        note(pair,
             REAL(Test)(&pair->received, &done, pair->is_from_nobody ? MPI_STATUS_IGNORE : &pair->status));
    if (pair->sent == MPI_REQUEST_NULL && pair->received == MPI_REQUEST_NULL) {
        remove_pair(pair);
        REAL(Grequest_complete)(pair->whole);
        pair->whole = MPI_REQUEST_NULL;
    }
    return MPI_SUCCESS;
}

/* In MPI_Request_get_status MPICH doesn't test the two. */
void strict_look(MPI_Request handle) {
    pthread_mutex_lock(&pairs_lock);
    Pair *pair = open_pairs;
    while (pair && pair->whole != handle)
        pair = pair->next;
    pthread_mutex_unlock(&pairs_lock);
    if (pair)
        poll_pair(pair, NULL);
}

static void finish_pair(Pair *pair) {
    while (pair->whole != MPI_REQUEST_NULL)
        poll_pair(pair, NULL);
}

static int wait_pairs(int count, void **states, double most, MPI_Status *none) {
    (void)most, (void)none;
    for (int i = 0; i < count; i++)
        finish_pair(states[i]);
    return MPI_SUCCESS;
}

static int query_pair(void *state, MPI_Status *status) {
    Pair *pair = state;
    int error = status->MPI_ERROR; /* which the library sets by itself */
    *status = pair->status;
    status->MPI_ERROR = error;
    return pair->error;
}

static int free_pair(void *state) {
    Pair *pair = state;
    free(pair->packed);
    free(pair);
    return MPI_SUCCESS;
}

static int cancel_pair(void *state, int complete) {
    Pair *pair = state;
    if (!complete && pair->sent != MPI_REQUEST_NULL)
        REAL(Cancel)(&pair->sent);
    if (!complete && pair->received != MPI_REQUEST_NULL)
        REAL(Cancel)(&pair->received);
    return MPI_SUCCESS;
}

typedef __typeof__(MPIX_Grequest_start) StartPolled;

static int start_pair(Half out, Half in, MPI_Comm comm, Pair *pair) {
    static StartPolled *start;
    if (!start)
        start = (StartPolled *)found_in_library("PMPIX_Grequest_start");
    int result = BY_COUNT(Irecv)(in.data, in.count, in.type, in.rank, in.tag, comm, &pair->received);
    if (result == MPI_SUCCESS)
        result = BY_COUNT(Issend)(out.data, out.count, out.type, out.rank, out.tag, comm, &pair->sent);
    if (result == MPI_SUCCESS)
        result = start(query_pair, free_pair, cancel_pair, poll_pair, wait_pairs, pair, &pair->whole);
    return result;
}

static int start_with(Half out, Half in, MPI_Comm comm, MPI_Request *handle, char *packed) {
    Pair *pair = calloc(1, sizeof *pair);
    if (!pair) {
        free(packed);
        return MPI_ERR_NO_MEM;
    }
    pair->whole = pair->sent = pair->received = MPI_REQUEST_NULL;
    pair->packed = packed;
    pair->is_from_nobody = in.rank == MPI_PROC_NULL;
    set_status_of_nobody(&pair->status);
    int result = start_pair(out, in, comm, pair);
    *handle = pair->whole;
    if (result == MPI_SUCCESS)
        add_pair(pair);
    return result;
}

int strict_start_exchange(Half out, Half in, MPI_Comm comm, MPI_Request *handle) {
    int result = check_halves(out, in, comm);
    return result == MPI_SUCCESS ? start_with(out, in, comm, handle, NULL) : result;
}

int strict_start_replace(Half out, Half in, MPI_Comm comm, MPI_Request *handle) {
    int result = check_halves(out, in, comm);
    if (result != MPI_SUCCESS)
        return result;
    char *packed = pack_half(&out, comm);
    return packed ? start_with(out, in, comm, handle, packed) : MPI_ERR_NO_MEM;
}

#elif defined HAS_Isendrecv

static const char stays[] =
    "MPI_Isendrecv, MPI_Isendrecv_replace of a strict run (whose sends may be buffered)";

int strict_start_exchange(Half out, Half in, MPI_Comm comm, MPI_Request *handle) {
    left_out(NOTHING, stays);
    return REAL(Isendrecv)(out.data, out.count, out.type, out.rank, out.tag, in.data, in.count, in.type,
                           in.rank, in.tag, comm, handle);
}

int strict_start_replace(Half out, Half in, MPI_Comm comm, MPI_Request *handle) {
    left_out(NOTHING, stays);
    return REAL(Isendrecv_replace)(in.data, in.count, in.type, out.rank, out.tag, in.rank, in.tag, comm,
                                   handle);
}
#endif

#ifndef HAS_PAIRS
void strict_look(MPI_Request handle) { (void)handle; }
#endif
