/* Sends and receives. See messages.h. */
#define _GNU_SOURCE
#include "messages.h"
#include "strict.h"

const char unnumbered[] = "sends, receives and probes on communicators that have no number";

/* The sizes of types that are never freed: each of these handles has one meaning. */
enum { MOST_TYPES = 64 };
typedef struct {
    MPI_Datatype type;
    int size; /* 0: there is none */
} Basic;
static Basic basics[MOST_TYPES];

static Basic *basic_of(MPI_Datatype type) {
    return &basics[((uintptr_t)type * (uint64_t)0x9e3779b97f4a7c15u) >> 58];
}

void learn_sizes(void) {
    const MPI_Datatype types[] = {MPI_CHAR,      MPI_BYTE,          MPI_INT,     MPI_LONG,
                                  MPI_LONG_LONG, MPI_UNSIGNED_LONG, MPI_FLOAT,   MPI_DOUBLE,
                                  MPI_CHARACTER, MPI_REAL,          MPI_INTEGER, MPI_DOUBLE_PRECISION};
    for (size_t i = 0; i < sizeof types / sizeof *types; i++) {
        Basic one = {.type = types[i]};
        if (one.type != MPI_DATATYPE_NULL && REAL(Type_size)(one.type, &one.size) == MPI_SUCCESS)
            *basic_of(one.type) = one;
    }
}

static int size_of(MPI_Datatype type, int *size) {
    const Basic *basic = basic_of(type);
    *size = basic->size;
    return *size && basic->type == type ? MPI_SUCCESS : REAL(Type_size)(type, size);
}

/* For a wrong type or count the call itself returns an error. Multiplied, since a division costs more. */
Field bytes(long long count, MPI_Datatype type) {
    int size;
    if (type == MPI_DATATYPE_NULL || !is_recorded() || size_of(type, &size) != MPI_SUCCESS)
        return UNKNOWN;
    if (size == MPI_UNDEFINED || count < 0 || (size > 0 && (count > INT_MAX || count * size > INT_MAX)))
        return UNKNOWN;
    return count * size;
}

void report_message(int number, int source, int result, const MPI_Status *status) {
    if (number != UNNUMBERED && source != MPI_PROC_NULL && result == MPI_SUCCESS && is_recorded())
        REPORT("=got", status->MPI_SOURCE, status->MPI_TAG);
}

/* The same of a receive, which completed. */
static void report_received(int number, int source, int result, const MPI_Status *status) {
    report_message(number, source, result, status);
    if (number != UNNUMBERED && result == MPI_SUCCESS && is_recorded())
        receives(number, source == MPI_PROC_NULL ? NULL_PEER : status->MPI_SOURCE, status->MPI_TAG);
}

/* ---- Sends ------------------------------------------------------------------------------------- */

/* Whether such a blocking send waits for its receive. */
static bool is_synchronous(const char *word, MPI_Comm comm) {
    return strcmp(word, "ssend") == 0 || (strcmp(word, "send") == 0 && sends_synchronously(comm));
}

/* `Synchronous` is what a standard send becomes in a strict run. Other sends name themselves. */
#define CALL_SEND(Name, Synchronous, args) \
    (sends_synchronously(comm) ? CALL(Synchronous, args) : CALL(Name, args))

/* While requests are to be asked it becomes `Started` and a wait. */
#define SEND(Name, Synchronous, Started, Count, word) \
    int MPI_##Name(const void *data, Count count, MPI_Datatype type, int dest, int tag, MPI_Comm comm) { \
        int number = BEGINS ? numbered(comm, unnumbered) : UNNUMBERED; \
        if (number != UNNUMBERED) \
            PUT(word, number, receiver(dest), tag, is_standard(word) ? bytes(count, type) : UNKNOWN); \
        sends(number, receiver(dest), tag); \
        MPI_Request sent; \
        bool asks = is_synchronous(word, comm) && strict_asks(); \
        int result = asks ? CALL(Started, (data, count, type, dest, tag, comm, &sent)) \
                          : CALL_SEND(Name, Synchronous, (data, count, type, dest, tag, comm)); \
        if (asks && result == MPI_SUCCESS) \
            result = OUTSIDE(strict_finish(&sent, MPI_STATUS_IGNORE)); \
        return over(result); \
    } \
    ALSO_PMPI(Name)

#define ISEND(Name, Synchronous, Count, word) \
    int MPI_##Name(const void *data, Count count, MPI_Datatype type, int dest, int tag, MPI_Comm comm, \
                   MPI_Request *handle) { \
        int number = BEGINS ? numbered(comm, unnumbered) : UNNUMBERED; \
        int request = number == UNNUMBERED ? 0 : new_number(); \
        if (request) \
            PUT(word, request, number, receiver(dest), tag, \
                is_standard(word) ? bytes(count, type) : UNKNOWN); \
        uint64_t sent = sends(number, receiver(dest), tag); \
        int result = CALL_SEND(Name, Synchronous, (data, count, type, dest, tag, comm, handle)); \
        Request *known = is_recorded() && result == MPI_SUCCESS ? started(handle, request) : NULL; \
        if (known) \
            known->sent = sent; \
        return over(result); \
    } \
    ALSO_PMPI(Name)

SEND(Send, Ssend, Issend, int, "send")
SEND(Ssend, Ssend, Issend, int, "ssend")
SEND(Bsend, Bsend, Ibsend, int, "bsend")
SEND(Rsend, Rsend, Irsend, int, "rsend")
ISEND(Isend, Issend, int, "isend")
ISEND(Issend, Issend, int, "issend")
ISEND(Ibsend, Ibsend, int, "ibsend")
ISEND(Irsend, Irsend, int, "irsend")

#ifdef HAS_Send_c
SEND(Send_c, Ssend_c, Issend_c, MPI_Count, "send")
SEND(Ssend_c, Ssend_c, Issend_c, MPI_Count, "ssend")
SEND(Bsend_c, Bsend_c, Ibsend_c, MPI_Count, "bsend")
SEND(Rsend_c, Rsend_c, Irsend_c, MPI_Count, "rsend")
ISEND(Isend_c, Issend_c, MPI_Count, "isend")
ISEND(Issend_c, Issend_c, MPI_Count, "issend")
ISEND(Ibsend_c, Ibsend_c, MPI_Count, "ibsend")
ISEND(Irsend_c, Irsend_c, MPI_Count, "irsend")
#endif

/* ---- Receives ---------------------------------------------------------------------------------- */

/* As with sends. */
#define RECV(Name, Started, Count) \
    int MPI_##Name(void *data, Count count, MPI_Datatype type, int source, int tag, MPI_Comm comm, \
                   MPI_Status *status) { \
        MPI_Status mine, *seen = status == MPI_STATUS_IGNORE ? &mine : status; \
        int number = BEGINS ? numbered(comm, unnumbered) : UNNUMBERED; \
        if (number != UNNUMBERED) \
            PUT("recv", number, sender(source), tag_of_receive(tag)); \
        MPI_Status *place = number == UNNUMBERED ? status : seen; \
        MPI_Request taken; \
        bool asks = source != MPI_PROC_NULL && strict_asks(); \
        int result = asks ? CALL(Started, (data, count, type, source, tag, comm, &taken)) \
                          : CALL(Name, (data, count, type, source, tag, comm, place)); \
        if (asks && result == MPI_SUCCESS) \
            result = OUTSIDE(strict_finish(&taken, place)); \
        report_received(number, source, result, seen); \
        return over(result); \
    } \
    ALSO_PMPI(Name)

#define IRECV(Name, Count) \
    int MPI_##Name(void *data, Count count, MPI_Datatype type, int source, int tag, MPI_Comm comm, \
                   MPI_Request *handle) { \
        int number = BEGINS ? numbered(comm, unnumbered) : UNNUMBERED; \
        int request = number == UNNUMBERED ? 0 : new_number(); \
        if (request) \
            PUT("irecv", request, number, sender(source), tag_of_receive(tag)); \
        int result = CALL(Name, (data, count, type, source, tag, comm, handle)); \
        Request *known = is_recorded() && result == MPI_SUCCESS ? started(handle, request) : NULL; \
        if (known) \
            known->receive = receive_of(number, source, tag), request_is_wild(known, is_wild(source, tag)); \
        return over(result); \
    } \
    ALSO_PMPI(Name)

RECV(Recv, Irecv, int)
IRECV(Irecv, int)

#ifdef HAS_Recv_c
RECV(Recv_c, Irecv_c, MPI_Count)
IRECV(Irecv_c, MPI_Count)
#endif

/* ---- Both -------------------------------------------------------------------------------------- */

/* The count and the type in the line are those of the message that is sent. */
#define EXCHANGE(Name, params, args, become, in_data, received, received_type) \
    int MPI_##Name(UNPACK params MPI_Comm comm, MPI_Status *status) { \
        MPI_Status mine, *seen = status == MPI_STATUS_IGNORE ? &mine : status; \
        int number = BEGINS ? numbered(comm, unnumbered) : UNNUMBERED; \
        if (number != UNNUMBERED) \
            PUT("sendrecv", number, receiver(dest), out_tag, sender(source), tag_of_receive(in_tag), \
                bytes(count, type)); \
        sends(number, receiver(dest), out_tag); \
        MPI_Status *place = number == UNNUMBERED ? status : seen; \
        Half out = {(void *)data, count, type, dest, out_tag}; \
        Half taken = {in_data, received, received_type, source, in_tag}; \
        int result = sends_synchronously(comm) ? OUTSIDE(become(out, taken, comm, place)) \
                                               : CALL(Name, (UNPACK args comm, place)); \
        report_received(number, source, result, seen); \
        return over(result); \
    } \
    ALSO_PMPI(Name)

#ifdef HAS_Isendrecv
/* Whether the library's status of such a request says what was received; that of MPICH 4.0 doesn't. This is
 * tried with a message of the rank to itself, on a communicator where no other receive can take it. */
static bool try_status(void) {
    MPI_Comm self;
    MPI_Request request;
    MPI_Status status = {0};
    const int tag = 5;
    if (REAL(Comm_dup)(MPI_COMM_SELF, &self) != MPI_SUCCESS)
        return false;
    REAL(Isendrecv)(NULL, 0, MPI_INT, 0, tag, NULL, 0, MPI_INT, MPI_ANY_SOURCE, MPI_ANY_TAG, self, &request);
    REAL(Wait)(&request, &status);
    REAL(Comm_free)(&self);
    return status.MPI_SOURCE == 0 && status.MPI_TAG == tag;
}

/* If it doesn't, what a wildcard received is never known. */
static bool is_known(MPI_Comm comm) {
    static int known = -1;
    if (STRICT_PAIRS_ARE_KNOWN && sends_synchronously(comm))
        return true;
    if (known < 0)
        known = try_status();
    return known;
}
#endif

#define IEXCHANGE(Name, params, args, become, in_data, received, received_type) \
    int MPI_##Name(UNPACK params MPI_Comm comm, MPI_Request *handle) { \
        int number = BEGINS ? numbered(comm, unnumbered) : UNNUMBERED; \
        int first = number == UNNUMBERED ? 0 : new_number(), second = first ? new_number() : 0; \
        if (first) \
            PUT("isendrecv", first, second, number, receiver(dest), out_tag, sender(source), \
                tag_of_receive(in_tag), bytes(count, type)); \
        uint64_t sent = sends(number, receiver(dest), out_tag); \
        Half out = {(void *)data, count, type, dest, out_tag}; \
        Half taken = {in_data, received, received_type, source, in_tag}; \
        int result = sends_synchronously(comm) ? OUTSIDE(become(out, taken, comm, handle)) \
                                               : CALL(Name, (UNPACK args comm, handle)); \
        Request *known = is_recorded() && result == MPI_SUCCESS ? started(handle, first) : NULL; \
        if (known) { \
            known->second = second; \
            known->sent = sent; \
            known->receive = receive_of(number, source, in_tag); \
            request_is_wild(known, is_wild(source, in_tag) && is_known(comm)); \
        } \
        return over(result); \
    } \
    ALSO_PMPI(Name)

#define EXCHANGE_PARAMS(Count) \
    (const void *data, Count count, MPI_Datatype type, int dest, int out_tag, void *in, Count in_count, \
     MPI_Datatype in_type, int source, int in_tag, )
#define EXCHANGE_ARGS (data, count, type, dest, out_tag, in, in_count, in_type, source, in_tag, )
#define REPLACE_PARAMS(Count) \
    (void *data, Count count, MPI_Datatype type, int dest, int out_tag, int source, int in_tag, )
#define REPLACE_ARGS (data, count, type, dest, out_tag, source, in_tag, )

EXCHANGE(Sendrecv, EXCHANGE_PARAMS(int), EXCHANGE_ARGS, strict_exchange, in, in_count, in_type)
EXCHANGE(Sendrecv_replace, REPLACE_PARAMS(int), REPLACE_ARGS, strict_replace, data, count, type)

#ifdef HAS_Sendrecv_c
EXCHANGE(Sendrecv_c, EXCHANGE_PARAMS(MPI_Count), EXCHANGE_ARGS, strict_exchange, in, in_count, in_type)
EXCHANGE(Sendrecv_replace_c, REPLACE_PARAMS(MPI_Count), REPLACE_ARGS, strict_replace, data, count, type)
#endif
#ifdef HAS_Isendrecv
IEXCHANGE(Isendrecv, EXCHANGE_PARAMS(int), EXCHANGE_ARGS, strict_start_exchange, in, in_count, in_type)
IEXCHANGE(Isendrecv_replace, REPLACE_PARAMS(int), REPLACE_ARGS, strict_start_replace, data, count, type)
#endif
#ifdef HAS_Isendrecv_c
IEXCHANGE(Isendrecv_c, EXCHANGE_PARAMS(MPI_Count), EXCHANGE_ARGS, strict_start_exchange, in, in_count,
          in_type)
IEXCHANGE(Isendrecv_replace_c, REPLACE_PARAMS(MPI_Count), REPLACE_ARGS, strict_start_replace, data, count,
          type)
#endif
