/* Each rank calls MPI_Init a second time, which returns an error. Then it exchanges with the other one. */
#include <mpi.h>

int main(int argc, char **argv) {
    int rank, data = 0;
    MPI_Init(&argc, &argv);
    MPI_Comm_rank(MPI_COMM_WORLD, &rank);
    MPI_Comm_set_errhandler(MPI_COMM_WORLD, MPI_ERRORS_RETURN);
    if (MPI_Init(&argc, &argv) == MPI_SUCCESS)
        return 1;
    MPI_Sendrecv_replace(&data, 1, MPI_INT, 1 - rank, 0, 1 - rank, 0, MPI_COMM_WORLD, MPI_STATUS_IGNORE);
    MPI_Finalize();
    return 0;
}
