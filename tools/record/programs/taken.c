/* Each rank has a receive from anybody that got a message, and no call has completed it. Then rank 0 calls
 * what the first word names, and rank 1 sends it a message with tag 4, for which it has no receive yet. If
 * all sends are buffered, the program ends. In a strict run both ranks hang, and for the verdict the recorder
 * has to ask what the two receives got. With `persistent' they are started by MPI_Start. */
#include <mpi.h>
#include <string.h>

static int out, in[2];
static const char *form;

static int is(const char *name) { return strcmp(form, name) == 0; }

static void send(int to, int tag) { MPI_Send(&out, 1, MPI_INT, to, tag, MPI_COMM_WORLD); }

static void receive(int from, int tag) {
    MPI_Recv(&in[1], 1, MPI_INT, from, tag, MPI_COMM_WORLD, MPI_STATUS_IGNORE);
}

static void start(MPI_Request *posted) {
    if (!is("persistent")) {
        MPI_Irecv(&in[0], 1, MPI_INT, MPI_ANY_SOURCE, MPI_ANY_TAG, MPI_COMM_WORLD, posted);
        return;
    }
    MPI_Recv_init(&in[0], 1, MPI_INT, MPI_ANY_SOURCE, MPI_ANY_TAG, MPI_COMM_WORLD, posted);
    MPI_Start(posted);
}

/* Rank 0 waits for a receive of its message with tag 2. */
static void wait_as_sender(MPI_Request requests[]) {
    if (is("sendrecv")) {
        MPI_Sendrecv(&out, 1, MPI_INT, 1, 2, &in[1], 1, MPI_INT, 1, 3, MPI_COMM_WORLD, MPI_STATUS_IGNORE);
    } else if (is("waitall")) {
        MPI_Isend(&out, 1, MPI_INT, 1, 2, MPI_COMM_WORLD, &requests[1]);
        MPI_Waitall(2, requests, MPI_STATUSES_IGNORE);
    } else if (is("waitany")) {
        MPI_Request some[] = {MPI_REQUEST_NULL, MPI_REQUEST_NULL};
        int chosen;
        MPI_Isend(&out, 1, MPI_INT, 1, 2, MPI_COMM_WORLD, &some[1]);
        MPI_Waitany(2, some, &chosen, MPI_STATUS_IGNORE);
    } else {
        send(1, 2);
    }
}

static void wait_as_receiver(void) {
    MPI_Message message;
    if (is("recv"))
        receive(1, 5);
    else if (is("probe"))
        MPI_Probe(1, 5, MPI_COMM_WORLD, MPI_STATUS_IGNORE);
    else if (is("mprobe"))
        MPI_Mprobe(1, 5, MPI_COMM_WORLD, &message, MPI_STATUS_IGNORE);
    else
        MPI_Barrier(MPI_COMM_WORLD);
    if (is("mprobe"))
        MPI_Mrecv(&in[1], 1, MPI_INT, &message, MPI_STATUS_IGNORE);
}

int main(int argc, char **argv) {
    MPI_Request requests[2];
    int rank;
    MPI_Init(&argc, &argv);
    MPI_Comm_rank(MPI_COMM_WORLD, &rank);
    form = argc > 1 ? argv[1] : "send";
    int is_receiver = is("recv") || is("probe") || is("mprobe"), is_barrier = is("barrier");
    start(&requests[0]);
    MPI_Barrier(MPI_COMM_WORLD);
    send(1 - rank, 1);
    if (is_barrier)
        MPI_Barrier(MPI_COMM_WORLD);
    if (rank == 0 && (is_receiver || is_barrier))
        wait_as_receiver();
    else if (rank == 0)
        wait_as_sender(requests);
    if (rank == 1 && is("sendrecv"))
        send(0, 3);
    rank == 0 ? receive(1, 4) : send(0, 4);
    if (rank == 1 && is_receiver)
        send(0, 5);
    if (rank == 0 && is("probe"))
        receive(1, 5);
    if (rank == 1 && is_barrier)
        MPI_Barrier(MPI_COMM_WORLD);
    if (rank == 1 && !is_receiver && !is_barrier)
        receive(0, 2);
    if (requests[0] != MPI_REQUEST_NULL)
        MPI_Wait(&requests[0], MPI_STATUS_IGNORE);
    if (is("persistent"))
        MPI_Request_free(&requests[0]);
    MPI_Finalize();
    return 0;
}
