/* A row of ranks exchanges halos with requests and sums up; rank 0 forgets one request at the end. */
#include <mpi.h>

enum { STEPS = 3, LEFT = 1, RIGHT = 2 };

static void exchange(MPI_Comm comm, int left, int right, int cells[4]) {
    MPI_Request requests[4];
    MPI_Irecv(&cells[0], 1, MPI_INT, left, RIGHT, comm, &requests[0]);
    MPI_Irecv(&cells[3], 1, MPI_INT, right, LEFT, comm, &requests[1]);
    MPI_Isend(&cells[1], 1, MPI_INT, left, LEFT, comm, &requests[2]);
    MPI_Isend(&cells[2], 1, MPI_INT, right, RIGHT, comm, &requests[3]);
    MPI_Waitall(4, requests, MPI_STATUSES_IGNORE);
}

/* The same again by the other calls for it. */
static void exchange_otherwise(MPI_Comm comm, int left, int right, int cells[4]) {
    MPI_Request requests[2];
    int first;
    MPI_Irecv(&cells[0], 1, MPI_INT, left, RIGHT, comm, &requests[0]);
    MPI_Issend(&cells[2], 1, MPI_INT, right, RIGHT, comm, &requests[1]);
    MPI_Waitany(2, requests, &first, MPI_STATUS_IGNORE);
    MPI_Wait(&requests[1 - first], MPI_STATUS_IGNORE);
    MPI_Sendrecv(&cells[1], 1, MPI_INT, left, LEFT, &cells[3], 1, MPI_INT, right, LEFT, comm, MPI_STATUS_IGNORE);
}

int main(int argc, char **argv) {
    int rank, ranks, sum = 0, cells[4] = {0};
    MPI_Comm comm;
    MPI_Request request;
    MPI_Init(&argc, &argv);
    MPI_Comm_dup(MPI_COMM_WORLD, &comm);
    MPI_Comm_rank(comm, &rank);
    MPI_Comm_size(comm, &ranks);
    int left = rank > 0 ? rank - 1 : MPI_PROC_NULL;
    int right = rank < ranks - 1 ? rank + 1 : MPI_PROC_NULL;
    cells[1] = cells[2] = rank;
    for (int step = 0; step < STEPS; step++) {
        exchange(comm, left, right, cells);
        exchange_otherwise(comm, left, right, cells);
        MPI_Iallreduce(&cells[1], &sum, 1, MPI_INT, MPI_SUM, comm, &request);
        MPI_Wait(&request, MPI_STATUS_IGNORE);
    }
    MPI_Bcast(&sum, 1, MPI_INT, 0, comm);
    if (rank == 0)
        MPI_Isend(&sum, 1, MPI_INT, right, LEFT, comm, &request);
    if (rank == 1)
        MPI_Recv(&sum, 1, MPI_INT, left, LEFT, comm, MPI_STATUS_IGNORE);
    MPI_Finalize();
    return 0;
}
