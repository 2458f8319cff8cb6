/* A wait for any and one for some name a receive and a call that isn't recorded, and it is that call which comes
 * back. Then each rank waits for the other, and nobody sends. */
#include <mpi.h>

int main(int argc, char **argv) {
    int rank, in, chosen, count, places[2];
    MPI_Comm dup;
    MPI_Request requests[2];
    MPI_Init(&argc, &argv);
    MPI_Comm_rank(MPI_COMM_WORLD, &rank);
    MPI_Irecv(&in, 1, MPI_INT, 1 - rank, 0, MPI_COMM_WORLD, &requests[0]);
    MPI_Comm_idup(MPI_COMM_WORLD, &dup, &requests[1]);
    MPI_Waitany(2, requests, &chosen, MPI_STATUS_IGNORE);
    MPI_Comm_idup(MPI_COMM_WORLD, &dup, &requests[1]);
    MPI_Waitsome(2, requests, &count, places, MPI_STATUSES_IGNORE);
    MPI_Wait(&requests[0], MPI_STATUS_IGNORE);
    MPI_Finalize();
    return 0;
}
