/* A ring of ranks exchanges halos with persistent requests, on a Cartesian communicator. */
#include <mpi.h>

enum { STEPS = 4 };

int main(int argc, char **argv) {
    int ranks, left, right, periodic = 1, cells[4] = {0}, sums[2];
    MPI_Comm ring;
    MPI_Request requests[4];
    MPI_Init(&argc, &argv);
    MPI_Comm_size(MPI_COMM_WORLD, &ranks);
    MPI_Cart_create(MPI_COMM_WORLD, 1, &ranks, &periodic, 1, &ring);
    MPI_Cart_shift(ring, 0, 1, &left, &right);
    MPI_Recv_init(&cells[0], 1, MPI_INT, left, 1, ring, &requests[0]);
    MPI_Recv_init(&cells[3], 1, MPI_INT, right, 2, ring, &requests[1]);
    MPI_Send_init(&cells[1], 1, MPI_INT, left, 2, ring, &requests[2]);
    MPI_Ssend_init(&cells[2], 1, MPI_INT, right, 1, ring, &requests[3]);
    for (int step = 0; step < STEPS; step++) {
        MPI_Startall(4, requests);
        MPI_Waitall(4, requests, MPI_STATUSES_IGNORE);
        MPI_Reduce_scatter_block(cells, sums, 1, MPI_INT, MPI_SUM, ring);
    }
    for (int i = 0; i < 4; i++)
        MPI_Request_free(&requests[i]);
    MPI_Comm_free(&ring);
    MPI_Finalize();
    return 0;
}
