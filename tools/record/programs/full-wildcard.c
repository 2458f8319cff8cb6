/* The first call that a journal has no room for starts a receive from anybody; with a word it is a persistent one. */
#include <mpi.h>

enum { MOST = 1000000, TAG = 1 };

int main(int argc, char **argv) {
    int in, out = 0;
    MPI_Request requests[2];
    MPI_Init(&argc, &argv);
    MPI_Recv_init(&in, 1, MPI_INT, MPI_ANY_SOURCE, TAG, MPI_COMM_WORLD, &requests[0]);
    for (int i = 0; i < MOST; i++)
        MPI_Send(&out, 1, MPI_INT, MPI_PROC_NULL, TAG, MPI_COMM_WORLD);
    if (argc > 1) {
        MPI_Start(&requests[0]);
    } else {
        MPI_Request_free(&requests[0]);
        MPI_Irecv(&in, 1, MPI_INT, MPI_ANY_SOURCE, TAG, MPI_COMM_WORLD, &requests[0]);
    }
    MPI_Isend(&out, 1, MPI_INT, 0, TAG, MPI_COMM_WORLD, &requests[1]);
    MPI_Waitall(2, requests, MPI_STATUSES_IGNORE);
    MPI_Finalize();
    return 0;
}
