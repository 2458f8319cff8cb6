/* Each rank exchanges with its neighbours in the world and with a partner on an intercommunicator, and waits
 * for all of it in one call. */
#include <mpi.h>

int main(int argc, char **argv) {
    int rank, ranks, out = 0, in[3];
    MPI_Comm half, inter;
    MPI_Request requests[6];
    MPI_Init(&argc, &argv);
    MPI_Comm_rank(MPI_COMM_WORLD, &rank);
    MPI_Comm_size(MPI_COMM_WORLD, &ranks);
    MPI_Comm_split(MPI_COMM_WORLD, rank % 2, rank, &half);
    MPI_Intercomm_create(half, 0, MPI_COMM_WORLD, 1 - rank % 2, 5, &inter);
    int left = (rank + ranks - 1) % ranks, right = (rank + 1) % ranks;
    for (int step = 0; step < 20; step++) {
        MPI_Isend(&out, 1, MPI_INT, left, 1, MPI_COMM_WORLD, &requests[0]);
        MPI_Isend(&out, 1, MPI_INT, rank / 2, 2, inter, &requests[1]);
        MPI_Isend(&out, 1, MPI_INT, right, 3, MPI_COMM_WORLD, &requests[2]);
        MPI_Irecv(&in[0], 1, MPI_INT, left, 3, MPI_COMM_WORLD, &requests[3]);
        MPI_Irecv(&in[1], 1, MPI_INT, right, 1, MPI_COMM_WORLD, &requests[4]);
        MPI_Irecv(&in[2], 1, MPI_INT, rank / 2, 2, inter, &requests[5]);
        MPI_Waitall(6, requests, MPI_STATUSES_IGNORE);
    }
    MPI_Finalize();
    return 0;
}
