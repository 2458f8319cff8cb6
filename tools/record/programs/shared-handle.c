/* Small sends that are done at once may share one handle. Here one of the two is on an intercommunicator, and
 * each is waited for on its own side of a barrier. */
#include <mpi.h>

static MPI_Comm between_halves(int rank) {
    MPI_Comm half, inter;
    MPI_Comm_split(MPI_COMM_WORLD, rank % 2, rank, &half);
    MPI_Intercomm_create(half, 0, MPI_COMM_WORLD, 1 - rank % 2, 5, &inter);
    MPI_Comm_free(&half);
    return inter;
}

int main(int argc, char **argv) {
    int rank, out = 0, in;
    MPI_Request requests[2];
    MPI_Init(&argc, &argv);
    MPI_Comm_rank(MPI_COMM_WORLD, &rank);
    MPI_Comm inter = between_halves(rank);
    if (rank == 0) {
        MPI_Isend(&out, 1, MPI_INT, 0, 1, inter, &requests[0]);
        MPI_Isend(&out, 1, MPI_INT, 1, 1, MPI_COMM_WORLD, &requests[1]);
        MPI_Wait(&requests[0], MPI_STATUS_IGNORE);
        MPI_Barrier(MPI_COMM_WORLD);
        MPI_Wait(&requests[1], MPI_STATUS_IGNORE);
    } else {
        MPI_Recv(&in, 1, MPI_INT, 0, 1, inter, MPI_STATUS_IGNORE);
        MPI_Barrier(MPI_COMM_WORLD);
        MPI_Recv(&in, 1, MPI_INT, 0, 1, MPI_COMM_WORLD, MPI_STATUS_IGNORE);
    }
    MPI_Comm_free(&inter);
    MPI_Finalize();
    return 0;
}
