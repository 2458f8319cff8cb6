/* Rank 0 waits for any of many messages, of which rank 1 sends one, and then once more. The words: how many
 * messages, and which call. */
#include <mpi.h>
#include <stdlib.h>
#include <string.h>

static void wait_for_one(int many, MPI_Request requests[], int is_some) {
    static int places[10000];
    int chosen;
    if (is_some)
        MPI_Waitsome(many, requests, &chosen, places, MPI_STATUSES_IGNORE);
    else
        MPI_Waitany(many, requests, &chosen, MPI_STATUS_IGNORE);
}

int main(int argc, char **argv) {
    static int in[10000];
    static MPI_Request requests[10000];
    int rank, many = atoi(argv[1]), is_some = strcmp(argv[2], "waitsome") == 0;
    MPI_Init(&argc, &argv);
    MPI_Comm_rank(MPI_COMM_WORLD, &rank);
    for (int i = 0; i < many && rank == 0; i++)
        MPI_Irecv(&in[i], 1, MPI_INT, 1, i, MPI_COMM_WORLD, &requests[i]);
    if (rank == 1)
        MPI_Send(&rank, 1, MPI_INT, 0, many - 1, MPI_COMM_WORLD);
    if (rank == 0)
        wait_for_one(many, requests, is_some);
    if (rank == 0)
        wait_for_one(many, requests, is_some);
    MPI_Barrier(MPI_COMM_WORLD);
    MPI_Finalize();
    return 0;
}
