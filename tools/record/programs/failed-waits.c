/* Errors that are returned. Without a word: a wait for a receive that fails, and for a communicator that
 * comes to be. With one: a cancel of a request that can't be cancelled, and a wait for it. */
#include <mpi.h>

static void wait_for_both(int data[2]) {
    int taken;
    MPI_Comm made;
    MPI_Request requests[2];
    MPI_Status statuses[2];
    MPI_Irecv(&taken, 1, MPI_INT, MPI_ANY_SOURCE, 0, MPI_COMM_WORLD, &requests[0]);
    MPI_Comm_idup(MPI_COMM_WORLD, &made, &requests[1]);
    MPI_Send(data, 2, MPI_INT, 0, 0, MPI_COMM_WORLD);
    MPI_Waitall(2, requests, statuses);
}

/* Needs MPI 4. */
static void cancel_both(int data[2]) {
#if MPI_VERSION >= 4
    MPI_Request request;
    MPI_Isendrecv(&data[0], 1, MPI_INT, 0, 0, &data[1], 1, MPI_INT, 0, 0, MPI_COMM_WORLD, &request);
    MPI_Cancel(&request);
    MPI_Wait(&request, MPI_STATUS_IGNORE);
#else
    (void)data;
#endif
}

int main(int argc, char **argv) {
    int data[2] = {0};
    MPI_Init(&argc, &argv);
    MPI_Comm_set_errhandler(MPI_COMM_WORLD, MPI_ERRORS_RETURN);
    if (argc > 1)
        cancel_both(data);
    else
        wait_for_both(data);
    MPI_Finalize();
    return 0;
}
