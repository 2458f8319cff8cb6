// Rank 1 sends by MPI_Bsend, with another tag than the one that rank 0 waits for.
#include <mpi.h>

int main(int argc, char **argv) {
    static char buffer[1000 + MPI_BSEND_OVERHEAD];
    char *place;
    int rank, size, data = 0;
    MPI_Init(&argc, &argv);
    MPI_Comm_rank(MPI_COMM_WORLD, &rank);
    MPI_Buffer_attach(buffer, sizeof buffer);
    if (rank == 0)
        MPI_Recv(&data, 1, MPI_INT, 1, 5, MPI_COMM_WORLD, MPI_STATUS_IGNORE);
    else
        MPI_Bsend(&data, 1, MPI_INT, 0, 7, MPI_COMM_WORLD);
    MPI_Barrier(MPI_COMM_WORLD);
    MPI_Buffer_detach(&place, &size);
    MPI_Finalize();
}
