/* Rank 0 has a receive with a wildcard open while it waits in a barrier, and gets rank 1's message by it. Rank 1 aborts
 * the run before it comes to that barrier. */
#include <mpi.h>
#include <unistd.h>

int main(int argc, char **argv) {
    int rank, data = 0;
    MPI_Request request;
    MPI_Init(&argc, &argv);
    MPI_Comm_rank(MPI_COMM_WORLD, &rank);
    if (rank == 0) {
        MPI_Irecv(&data, 1, MPI_INT, MPI_ANY_SOURCE, 5, MPI_COMM_WORLD, &request);
    } else {
        MPI_Ssend(&data, 1, MPI_INT, 0, 5, MPI_COMM_WORLD);
        sleep(2);
        MPI_Abort(MPI_COMM_WORLD, 1);
    }
    MPI_Barrier(MPI_COMM_WORLD);
    MPI_Wait(&request, MPI_STATUS_IGNORE);
    MPI_Finalize();
    return 0;
}
