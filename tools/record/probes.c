/* Probes, and the messages that they take. See calls.h. */
#define _GNU_SOURCE
#include "messages.h"
#include "strict.h"

/* The messages that MPI_Mprobe took and that no receive has received yet. */
static struct {
    MPI_Message handle;
    int number;
    uint64_t sum; /* what it adds to the sum of messages */
} * messages;
static int message_count, message_room;

/* The number is 0 if the message isn't recorded. */
static void keep_message(MPI_Message handle, int number, uint64_t sum) {
    if (message_count == message_room) {
        int room = message_room ? 2 * message_room : 64;
        void *more = realloc(messages, room * sizeof *messages);
        if (!more) {
            journal_stop("there is no memory for its messages");
            return;
        }
        messages = more;
        message_room = room;
    }
    messages[message_count].handle = handle;
    messages[message_count].sum = sum;
    messages[message_count++].number = number;
}

bool holds_messages(void) { return message_count > 0; }

/* Removes a message and answers its number, or 0. All messages from MPI_PROC_NULL have one handle. */
static int take_message(MPI_Message handle, uint64_t *sum) {
    *sum = 0;
    for (int i = message_count - 1; i >= 0; i--) {
        if (messages[i].handle != handle)
            continue;
        int number = messages[i].number;
        *sum = messages[i].sum;
        messages[i] = messages[--message_count];
        if (number)
            return number;
        break;
    }
    if (handle != MPI_MESSAGE_NO_PROC)
        left_out(WAITS, "MPI_Mrecv of messages that aren't recorded");
    return 0;
}

/* ---- Probes ------------------------------------------------------------------------------------ */

/* The source of the message that a probe found without waiting. MPI_PROC_NULL has none, whatever the status
 * says. */
static Field source_found(int source, const MPI_Status *status) {
    return source == MPI_PROC_NULL ? NULL_PEER : status->MPI_SOURCE;
}

static Field tag_found(int source, const MPI_Status *status) {
    return source == MPI_PROC_NULL ? 0 : status->MPI_TAG;
}

int MPI_Probe(int source, int tag, MPI_Comm comm, MPI_Status *status) {
    MPI_Status mine, *seen = status == MPI_STATUS_IGNORE ? &mine : status;
    int number = BEGINS ? numbered(comm, unnumbered) : UNNUMBERED;
    if (number != UNNUMBERED)
        PUT("probe", number, sender(source), tag_of_receive(tag));
    MPI_Status *place = number == UNNUMBERED ? status : seen;
    int result = strict_asks() ? OUTSIDE(strict_probe(source, tag, comm, NULL, place))
                               : CALL(Probe, (source, tag, comm, place));
    report_message(number, source, result, seen);
    return over(result);
}
ALSO_PMPI(Probe)

int MPI_Mprobe(int source, int tag, MPI_Comm comm, MPI_Message *message, MPI_Status *status) {
    MPI_Status mine, *seen = status == MPI_STATUS_IGNORE ? &mine : status;
    int number = BEGINS ? numbered(comm, unnumbered) : UNNUMBERED;
    int taken = number == UNNUMBERED ? 0 : new_number();
    if (taken)
        PUT("mprobe", taken, number, sender(source), tag_of_receive(tag));
    MPI_Status *place = number == UNNUMBERED ? status : seen;
    int result = strict_asks() ? OUTSIDE(strict_probe(source, tag, comm, message, place))
                               : CALL(Mprobe, (source, tag, comm, message, place));
    report_message(number, source, result, seen);
    if (is_recorded() && result == MPI_SUCCESS)
        keep_message(*message, taken,
                     message_from(number, source_found(source, seen), tag_found(source, seen)));
    return over(result);
}
ALSO_PMPI(Mprobe)

int MPI_Iprobe(int source, int tag, MPI_Comm comm, int *found, MPI_Status *status) {
    MPI_Status mine, *seen = status == MPI_STATUS_IGNORE ? &mine : status;
    int number = BEGINS ? numbered(comm, unnumbered) : UNNUMBERED;
    int result = CALL(Iprobe, (source, tag, comm, found, number == UNNUMBERED ? status : seen));
    if (number == UNNUMBERED || result != MPI_SUCCESS || !is_recorded())
        return over(result);
    if (*found) {
        PUT("iprobe", number, source_found(source, seen), tag_found(source, seen));
    } else {
        left_out(NOTHING, "MPI_Iprobe, found nothing");
        journal_polled(IPROBE, site());
    }
    return over(result);
}
ALSO_PMPI(Iprobe)

int MPI_Improbe(int source, int tag, MPI_Comm comm, int *found, MPI_Message *message, MPI_Status *status) {
    MPI_Status mine, *seen = status == MPI_STATUS_IGNORE ? &mine : status;
    int number = BEGINS ? numbered(comm, unnumbered) : UNNUMBERED;
    int result = CALL(Improbe, (source, tag, comm, found, message, number == UNNUMBERED ? status : seen));
    if (result != MPI_SUCCESS || !is_recorded())
        return over(result);
    if (*found) {
        int taken = number == UNNUMBERED ? 0 : new_number();
        if (taken)
            PUT("improbe", taken, number, source_found(source, seen), tag_found(source, seen));
        keep_message(*message, taken,
                     message_from(number, source_found(source, seen), tag_found(source, seen)));
    } else if (number != UNNUMBERED) {
        left_out(NOTHING, "MPI_Improbe, found nothing");
        journal_polled(IMPROBE, site());
    }
    return over(result);
}
ALSO_PMPI(Improbe)

/* ---- Receives of messages ---------------------------------------------------------------------- */

#define MRECV(Name, Count) \
    int MPI_##Name(void *data, Count count, MPI_Datatype type, MPI_Message *message, MPI_Status *status) { \
        uint64_t sum = 0; \
        int taken = BEGINS ? take_message(*message, &sum) : 0; \
        if (taken) \
            PUT("mrecv", taken); \
        int result = CALL(Name, (data, count, type, message, status)); \
        if (is_recorded() && result == MPI_SUCCESS) \
            receives_message(sum); \
        return over(result); \
    } \
    ALSO_PMPI(Name)

#define IMRECV(Name, Count) \
    int MPI_##Name(void *data, Count count, MPI_Datatype type, MPI_Message *message, MPI_Request *handle) { \
        uint64_t sum = 0; \
        int taken = BEGINS ? take_message(*message, &sum) : 0, request = taken ? new_number() : 0; \
        if (request) \
            PUT("imrecv", request, taken); \
        int result = CALL(Name, (data, count, type, message, handle)); \
        Request *known = is_recorded() && result == MPI_SUCCESS ? started(handle, request) : NULL; \
        if (known) \
            known->message = sum; \
        return over(result); \
    } \
    ALSO_PMPI(Name)

MRECV(Mrecv, int)
IMRECV(Imrecv, int)

#ifdef HAS_Mrecv_c
MRECV(Mrecv_c, MPI_Count)
IMRECV(Imrecv_c, MPI_Count)
#endif
