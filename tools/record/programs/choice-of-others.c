/* Rank 0 waits for one of two requests, of which one is of a call that isn't recorded. The other one completes. */
#include <mpi.h>
#include <stddef.h>

static int query(void *none, MPI_Status *status) {
    (void)none;
    MPI_Status_set_elements(status, MPI_INT, 0);
    MPI_Status_set_cancelled(status, 0);
    return MPI_SUCCESS;
}

static int release(void *none) { return (void)none, MPI_SUCCESS; }

static int cancel(void *none, int completed) { return (void)none, (void)completed, MPI_SUCCESS; }

int main(int argc, char **argv) {
    int rank, data = 0, chosen;
    MPI_Request requests[2];
    MPI_Init(&argc, &argv);
    MPI_Comm_rank(MPI_COMM_WORLD, &rank);
    if (rank == 1)
        MPI_Send(&data, 1, MPI_INT, 0, 0, MPI_COMM_WORLD);
    if (rank == 0) {
        MPI_Grequest_start(query, release, cancel, NULL, &requests[0]);
        MPI_Irecv(&data, 1, MPI_INT, 1, 0, MPI_COMM_WORLD, &requests[1]);
        MPI_Waitany(2, requests, &chosen, MPI_STATUS_IGNORE);
        MPI_Grequest_complete(requests[0]);
        MPI_Wait(&requests[0], MPI_STATUS_IGNORE);
    }
    MPI_Finalize();
    return 0;
}
