/* Rank 0 makes more calls than are written down; then both take part in collectives and messages. */
#include <mpi.h>

enum { MOST = 1000001 };

int main(int argc, char **argv) {
    int rank, data = 0;
    MPI_Request request;
    MPI_Init(&argc, &argv);
    MPI_Comm_rank(MPI_COMM_WORLD, &rank);
    for (int i = 0; rank == 0 && i < MOST; i++)
        MPI_Send(&data, 1, MPI_INT, MPI_PROC_NULL, 0, MPI_COMM_WORLD);
    for (int i = 0; i < 3; i++) {
        MPI_Irecv(&data, 1, MPI_INT, 1 - rank, 1, MPI_COMM_WORLD, &request);
        MPI_Bcast(&data, 1, MPI_INT, 0, MPI_COMM_WORLD);
        MPI_Send(&rank, 1, MPI_INT, 1 - rank, 1, MPI_COMM_WORLD);
        MPI_Wait(&request, MPI_STATUS_IGNORE);
    }
    MPI_Finalize();
    return 0;
}
