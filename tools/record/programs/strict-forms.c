/* A right program for a run that is strict: all kinds of standard sends, whose receives have begun;
 * collectives, with a word one that answers an error; an intercommunicator. */
#include <mpi.h>

static int rank, ranks, left, right, out[2], in[2];

static void sends(void) {
    MPI_Request request, persistent;
    MPI_Status status;
    MPI_Sendrecv(out, 1, MPI_INT, right, 1, in, 1, MPI_INT, left, 1, MPI_COMM_WORLD, &status);
    MPI_Sendrecv_replace(out, 1, MPI_INT, right, 2, left, 2, MPI_COMM_WORLD, MPI_STATUS_IGNORE);
    MPI_Irecv(in, 1, MPI_INT, left, 3, MPI_COMM_WORLD, &request);
    MPI_Send(out, 1, MPI_INT, right, 3, MPI_COMM_WORLD);
    MPI_Wait(&request, MPI_STATUS_IGNORE);
    MPI_Isend(out, 1, MPI_INT, right, 4, MPI_COMM_WORLD, &request);
    MPI_Recv(in, 1, MPI_INT, left, 4, MPI_COMM_WORLD, MPI_STATUS_IGNORE);
    MPI_Wait(&request, MPI_STATUS_IGNORE);
    MPI_Send_init(out, 1, MPI_INT, right, 5, MPI_COMM_WORLD, &persistent);
    MPI_Start(&persistent);
    MPI_Recv(in, 1, MPI_INT, left, 5, MPI_COMM_WORLD, MPI_STATUS_IGNORE);
    MPI_Wait(&persistent, MPI_STATUS_IGNORE);
    MPI_Request_free(&persistent);
}

static void collectives(void) {
    MPI_Request request;
    MPI_Bcast(out, 1, MPI_INT, 0, MPI_COMM_WORLD);
    MPI_Reduce(out, in, 1, MPI_INT, MPI_SUM, 0, MPI_COMM_WORLD);
    MPI_Ibcast(out, 1, MPI_INT, 0, MPI_COMM_WORLD, &request);
    MPI_Wait(&request, MPI_STATUS_IGNORE);
    MPI_Exscan(out, in, 1, MPI_INT, MPI_SUM, MPI_COMM_WORLD);
}

/* The collective fails on all ranks before any of them communicates. */
static void error(void) {
    MPI_Comm comm;
    MPI_Comm_dup(MPI_COMM_WORLD, &comm);
    MPI_Comm_set_errhandler(comm, MPI_ERRORS_RETURN);
    MPI_Bcast(out, rank == 0 ? 1 : -1, MPI_INT, 0, comm);
    MPI_Comm_free(&comm);
}

static void intercommunicator(void) {
    MPI_Comm half, inter;
    MPI_Comm_split(MPI_COMM_WORLD, rank % 2, rank, &half);
    MPI_Intercomm_create(half, 0, MPI_COMM_WORLD, 1 - rank % 2, 5, &inter);
    MPI_Bcast(out, 1, MPI_INT, rank % 2 ? 0 : rank == 0 ? MPI_ROOT : MPI_PROC_NULL, inter);
    MPI_Send(out, 1, MPI_INT, MPI_PROC_NULL, 0, inter);
    MPI_Comm_free(&inter);
    MPI_Comm_free(&half);
}

int main(int argc, char **argv) {
    MPI_Init(&argc, &argv);
    MPI_Comm_rank(MPI_COMM_WORLD, &rank);
    MPI_Comm_size(MPI_COMM_WORLD, &ranks);
    left = (rank + ranks - 1) % ranks;
    right = (rank + 1) % ranks;
    sends();
    collectives();
    intercommunicator();
    if (argc > 1)
        error();
    MPI_Finalize();
    return 0;
}
