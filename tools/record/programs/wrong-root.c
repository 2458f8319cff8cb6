/* Rank 0 calls a broadcast whose root can't be, named by the first word; with a second one in its nonblocking
 * form. That aborts the run; the others wait for rank 0. */
#include <mpi.h>
#include <stdlib.h>
#include <unistd.h>

int main(int argc, char **argv) {
    int rank, data = 0, root = argc > 1 ? atoi(argv[1]) : 0;
    MPI_Request request;
    MPI_Init(&argc, &argv);
    MPI_Comm_rank(MPI_COMM_WORLD, &rank);
    MPI_Barrier(MPI_COMM_WORLD);
    if (rank > 0)
        MPI_Recv(&data, 1, MPI_INT, 0, 1, MPI_COMM_WORLD, MPI_STATUS_IGNORE);
    sleep(1);
    if (argc > 2)
        MPI_Ibcast(&data, 1, MPI_INT, root, MPI_COMM_WORLD, &request);
    else
        MPI_Bcast(&data, 1, MPI_INT, root, MPI_COMM_WORLD);
    MPI_Finalize();
    return 0;
}
