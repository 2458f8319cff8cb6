/* Persistent sends and receives. See calls.h. */
#define _GNU_SOURCE
#include "messages.h"
#include "strict.h"

/* Each start is written as the nonblocking call of the same kind. */
static void keep_template(MPI_Request *handle, Template template) {
    Template *kept = malloc(sizeof *kept);
    made_persistent(handle);
    Request *request = requests_find(bits(*handle));
    if (!kept || !request) {
        journal_stop("there is no memory for its persistent requests");
        free(kept);
        return;
    }
    *kept = template;
    request->template = kept;
}

#define INIT(Name, Synchronous, params, args, ...) \
    int MPI_##Name(UNPACK params MPI_Comm comm, MPI_Request *handle) { \
        int number = BEGINS ? numbered(comm, unnumbered) : UNNUMBERED; \
        Template template = __VA_ARGS__; \
        int result = sends_synchronously(comm) ? CALL(Synchronous, (UNPACK args comm, handle)) \
                                               : CALL(Name, (UNPACK args comm, handle)); \
        if (is_recorded() && result == MPI_SUCCESS && number != UNNUMBERED) \
            keep_template(handle, template); \
        else if (is_recorded() && result == MPI_SUCCESS) \
            made_persistent(handle); \
        return over(result); \
    } \
    ALSO_PMPI(Name)

#define SEND_INIT(Name, Synchronous, Count, word) \
    INIT(Name, Synchronous, (const void *data, Count count, MPI_Datatype type, int dest, int tag, ), \
         (data, count, type, dest, tag, ), \
         {word, {number, receiver(dest), tag, is_standard(word) ? bytes(count, type) : UNKNOWN}, false})
#define RECV_INIT(Name, Count) \
    INIT(Name, Name, (void *data, Count count, MPI_Datatype type, int source, int tag, ), \
         (data, count, type, source, tag, ), \
         {"irecv", {number, sender(source), tag_of_receive(tag), UNKNOWN}, is_wild(source, tag)})

SEND_INIT(Send_init, Ssend_init, int, "isend")
SEND_INIT(Ssend_init, Ssend_init, int, "issend")
SEND_INIT(Bsend_init, Bsend_init, int, "ibsend")
SEND_INIT(Rsend_init, Rsend_init, int, "irsend")
RECV_INIT(Recv_init, int)

#ifdef HAS_Send_init_c
SEND_INIT(Send_init_c, Ssend_init_c, MPI_Count, "isend")
SEND_INIT(Ssend_init_c, Ssend_init_c, MPI_Count, "issend")
SEND_INIT(Bsend_init_c, Bsend_init_c, MPI_Count, "ibsend")
SEND_INIT(Rsend_init_c, Rsend_init_c, MPI_Count, "irsend")
RECV_INIT(Recv_init_c, MPI_Count)
#endif

/* ---- Starts ------------------------------------------------------------------------------------ */

static void start_one(MPI_Request handle) {
    Request *request = requests_find(bits(handle));
    if (!request || !request->template)
        left_out(WAITS, "MPI_Start of requests that aren't recorded");
    if (request)
        request->active = true;
    if (!request || !request->template)
        return;
    const Template *template = request->template;
    const Field *fields = template->fields;
    request_closes(request);
    request->told = false;
    request->number = new_number();
    request->receive = (Receive){strcmp(template->word, "irecv") == 0, fields[0], fields[1], fields[2]};
    request->sent = request->receive.is_there ? 0 : sends(fields[0], fields[1], fields[2]);
    if (request->number)
        PUT(template->word, request->number, fields[0], fields[1], fields[2], fields[3]);
    if (journal_is_full) /* perhaps since that line */
        request->number = 0;
    request_is_wild(request, template->wild);
    request->site = journal_site;
}

/* After an error it isn't known which of them were started. */
static void none_started(int count, const MPI_Request handles[]) {
    for (int i = 0; i < count; i++) {
        Request *request = requests_find(bits(handles[i]));
        if (!request)
            continue;
        request->active = false;
        request_closes(request);
    }
}

int MPI_Start(MPI_Request *handle) {
    if (BEGINS)
        start_one(*handle);
    int result = CALL(Start, (handle));
    if (is_recorded() && result != MPI_SUCCESS)
        none_started(1, handle);
    return over(result);
}
ALSO_PMPI(Start)

int MPI_Startall(int count, MPI_Request handles[]) {
    bool begun = BEGINS;
    for (int i = 0; begun && i < count; i++)
        start_one(handles[i]);
    int result = CALL(Startall, (count, handles));
    if (is_recorded() && result != MPI_SUCCESS)
        none_started(count, handles);
    return over(result);
}
ALSO_PMPI(Startall)
