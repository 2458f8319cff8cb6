/* A row of ranks exchanges by persistent requests, at its ends with MPI_PROC_NULL, and waits for any. */
#include <mpi.h>

int main(int argc, char **argv) {
    int rank, ranks, out = 0, in[2], at;
    MPI_Request requests[4];
    MPI_Init(&argc, &argv);
    MPI_Comm_rank(MPI_COMM_WORLD, &rank);
    MPI_Comm_size(MPI_COMM_WORLD, &ranks);
    int left = rank > 0 ? rank - 1 : MPI_PROC_NULL, right = rank < ranks - 1 ? rank + 1 : MPI_PROC_NULL;
    MPI_Recv_init(&in[0], 1, MPI_INT, left, 1, MPI_COMM_WORLD, &requests[0]);
    MPI_Recv_init(&in[1], 1, MPI_INT, right, 2, MPI_COMM_WORLD, &requests[1]);
    MPI_Send_init(&out, 1, MPI_INT, left, 2, MPI_COMM_WORLD, &requests[2]);
    MPI_Send_init(&out, 1, MPI_INT, right, 1, MPI_COMM_WORLD, &requests[3]);
    for (int step = 0; step < 5; step++) {
        MPI_Startall(4, requests);
        do
            MPI_Waitany(4, requests, &at, MPI_STATUS_IGNORE);
        while (at != MPI_UNDEFINED);
    }
    MPI_Start(&requests[0]);
    MPI_Start(&requests[3]);
    MPI_Waitany(1, &requests[0], &at, MPI_STATUS_IGNORE);
    MPI_Waitany(1, &requests[3], &at, MPI_STATUS_IGNORE);
    for (int i = 0; i < 4; i++)
        MPI_Request_free(&requests[i]);
    MPI_Finalize();
    return 0;
}
