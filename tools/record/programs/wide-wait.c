/* Rank 0 waits for 3,000 messages in one call, of which rank 1 sends all but the first. */
#include <mpi.h>

enum { MANY = 3000 };

int main(int argc, char **argv) {
    static int in[MANY];
    static MPI_Request requests[MANY];
    static MPI_Status statuses[MANY];
    int rank, out = 0;
    MPI_Init(&argc, &argv);
    MPI_Comm_rank(MPI_COMM_WORLD, &rank);
    for (int i = 0; i < MANY && rank == 0; i++)
        MPI_Irecv(&in[i], 1, MPI_INT, 1, i, MPI_COMM_WORLD, &requests[i]);
    for (int i = 1; i < MANY && rank == 1; i++)
        MPI_Send(&out, 1, MPI_INT, 0, i, MPI_COMM_WORLD);
    if (rank == 0)
        MPI_Waitall(MANY, requests, statuses);
    MPI_Barrier(MPI_COMM_WORLD);
    MPI_Finalize();
    return 0;
}
