/* A correct program whose receives with wildcards are asked in a strict run while a call waits. What became
 * of them is written before a call completes, cancels, frees or starts them again, and once. Nothing differs
 * for the program. It fails with status 1 where a status or an error isn't as it should be. */
#include <mpi.h>
#include <stdio.h>
#include <stdlib.h>
#include <unistd.h>

enum { FEW = 5, MANY = 8 };

static int rank, in[FEW + MANY];

static void expect(int is_right, const char *what) {
    if (is_right)
        return;
    fprintf(stderr, "asked.c: rank %d: %s\n", rank, what);
    MPI_Abort(MPI_COMM_WORLD, 1);
}

/* Rank 0 waits for a while in a call, so that the recorder asks. */
static void wait_a_while(void) {
    int value = 0;
    if (rank == 0) {
        MPI_Ssend(&value, 1, MPI_INT, 1, 99, MPI_COMM_WORLD);
        return;
    }
    usleep(1000000);
    MPI_Recv(&value, 1, MPI_INT, 0, 99, MPI_COMM_WORLD, MPI_STATUS_IGNORE);
}

static void send(int tag) {
    int value = tag;
    if (rank == 1)
        MPI_Send(&value, 1, MPI_INT, 0, tag, MPI_COMM_WORLD);
}

static void post(MPI_Request *request, int place, int tag) {
    MPI_Irecv(&in[place], 1, MPI_INT, MPI_ANY_SOURCE, tag, MPI_COMM_WORLD, request);
}

static void expect_message(const MPI_Status *status, int place, int tag) {
    int count, cancelled;
    MPI_Get_count(status, MPI_INT, &count);
    MPI_Test_cancelled(status, &cancelled);
    expect(status->MPI_SOURCE == 1 && status->MPI_TAG == tag && count == 1 && !cancelled, "wrong status");
    expect(in[place] == tag, "wrong message");
}

/* Completed by a wait; cancelled too late; freed; cancelled in time; got when the wait is already over. */
static void try_ends(void) {
    MPI_Request requests[FEW];
    MPI_Status status;
    int cancelled;
    for (int i = 0; rank == 0 && i < FEW; i++)
        post(&requests[i], i, i + 1);
    MPI_Barrier(MPI_COMM_WORLD);
    for (int i = 0; i < 3; i++)
        send(i + 1);
    wait_a_while();
    send(FEW);
    if (rank != 0)
        return;
    MPI_Wait(&requests[0], &status);
    expect_message(&status, 0, 1);
    MPI_Cancel(&requests[1]);
    MPI_Wait(&requests[1], &status);
    expect_message(&status, 1, 2);
    MPI_Request_free(&requests[2]);
    MPI_Cancel(&requests[3]);
    MPI_Wait(&requests[4], &status);
    expect_message(&status, 4, FEW);
    MPI_Wait(&requests[3], &status);
    MPI_Test_cancelled(&status, &cancelled);
    expect(cancelled, "not cancelled");
}

/* A persistent receive, three times. */
static void try_starts(void) {
    MPI_Request request;
    MPI_Status status;
    if (rank == 0)
        MPI_Recv_init(&in[0], 1, MPI_INT, 1, MPI_ANY_TAG, MPI_COMM_WORLD, &request);
    for (int i = 0; i < 3; i++) {
        if (rank == 0)
            MPI_Start(&request);
        send(10 + i);
        i < 2 ? wait_a_while() : (void)0;
        if (rank == 0)
            MPI_Wait(&request, &status), expect_message(&status, 0, 10 + i);
    }
    if (rank == 0)
        MPI_Request_free(&request);
}

/* A message that is too long: the wait for it has the error, and nothing before. */
static void try_error(void) {
    int values[2] = {0, 0}, class = MPI_SUCCESS;
    MPI_Comm comm;
    MPI_Request request;
    MPI_Comm_dup(MPI_COMM_WORLD, &comm);
    MPI_Comm_set_errhandler(comm, MPI_ERRORS_RETURN);
    if (rank == 0)
        MPI_Irecv(&in[0], 1, MPI_INT, MPI_ANY_SOURCE, MPI_ANY_TAG, comm, &request);
    MPI_Barrier(MPI_COMM_WORLD);
    if (rank == 1)
        MPI_Send(values, 2, MPI_INT, 0, 20, comm);
    wait_a_while();
    MPI_Comm_set_errhandler(MPI_COMM_WORLD, MPI_ERRORS_RETURN); /* to which MPICH passes it */
    if (rank == 0)
        MPI_Error_class(MPI_Wait(&request, MPI_STATUS_IGNORE), &class);
    expect(rank != 0 || class == MPI_ERR_TRUNCATE, "the message wasn't truncated");
    MPI_Comm_set_errhandler(MPI_COMM_WORLD, MPI_ERRORS_ARE_FATAL);
    MPI_Comm_free(&comm);
}

/* Waits for one, some and all of many while another one is open. */
static void try_many(void) {
    MPI_Request all[MANY], open;
    MPI_Status status, statuses[MANY];
    int chosen, count, places[MANY], left = MANY - 1;
    for (int i = 0; rank == 0 && i < MANY; i++)
        post(&all[i], i, 30 + i);
    if (rank == 0)
        post(&open, FEW + MANY - 1, 50);
    MPI_Barrier(MPI_COMM_WORLD);
    for (int i = MANY - 1; i >= 0; i--)
        send(30 + i);
    send(50);
    if (rank != 0)
        return;
    MPI_Waitany(MANY, all, &chosen, &status);
    expect_message(&status, chosen, 30 + chosen);
    for (; left > 3; left -= count) {
        MPI_Waitsome(MANY, all, &count, places, statuses);
        for (int i = 0; i < count; i++)
            expect_message(&statuses[i], places[i], 30 + places[i]);
    }
    MPI_Waitall(MANY, all, statuses);
    MPI_Wait(&open, &status);
    expect_message(&status, FEW + MANY - 1, 50);
}

int main(int argc, char **argv) {
    MPI_Init(&argc, &argv);
    MPI_Comm_rank(MPI_COMM_WORLD, &rank);
    try_ends();
    try_starts();
    try_many();
    if (argc > 1)
        try_error();
    MPI_Finalize();
    return 0;
}
