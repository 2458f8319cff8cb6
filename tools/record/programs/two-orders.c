/* Two communicators, and broadcasts on them whose order isn't the same for both ranks. Broadcasts may be
 * buffered, so it runs. */
#include <mpi.h>

int main(int argc, char **argv) {
    int rank, data = 0;
    MPI_Comm comms[2];
    MPI_Init(&argc, &argv);
    MPI_Comm_rank(MPI_COMM_WORLD, &rank);
    MPI_Comm_dup(MPI_COMM_WORLD, &comms[0]);
    MPI_Comm_dup(MPI_COMM_WORLD, &comms[1]);
    MPI_Bcast(&data, 1, MPI_INT, rank, comms[rank]);
    MPI_Bcast(&data, 1, MPI_INT, 1 - rank, comms[1 - rank]);
    MPI_Finalize();
    return 0;
}
