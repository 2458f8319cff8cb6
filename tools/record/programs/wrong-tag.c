/* Rank 0 collects results under another tag than the one with which the others send them: it hangs. */
#include <mpi.h>

enum { RESULT = 7, RESULTS = 8 };

static int collect(int ranks) {
    int sum = 0, result;
    for (int rank = 1; rank < ranks; rank++) {
        MPI_Recv(&result, 1, MPI_INT, rank, RESULTS, MPI_COMM_WORLD, MPI_STATUS_IGNORE);
        sum += result;
    }
    return sum;
}

int main(int argc, char **argv) {
    int rank, ranks, sum = 0;
    MPI_Init(&argc, &argv);
    MPI_Comm_rank(MPI_COMM_WORLD, &rank);
    MPI_Comm_size(MPI_COMM_WORLD, &ranks);
    if (rank == 0)
        sum = collect(ranks);
    else
        MPI_Send(&rank, 1, MPI_INT, 0, RESULT, MPI_COMM_WORLD);
    MPI_Bcast(&sum, 1, MPI_INT, 0, MPI_COMM_WORLD);
    MPI_Finalize();
    return 0;
}
