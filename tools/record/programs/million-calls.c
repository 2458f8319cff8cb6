/* Each rank makes nearly as many calls as are judged: messages to itself, and in some rounds messages to
 * a neighbour and a collective, on two communicators. With a word, rank 0 then waits for what nobody sends.
 */
#include <mpi.h>

enum { ROUNDS = 52500, EACH = 8, CALLS = 2 * EACH };

int main(int argc, char **argv) {
    int rank, ranks, data, sum, out[EACH] = {0}, in[EACH];
    MPI_Comm row;
    MPI_Request requests[CALLS];
    MPI_Init(&argc, &argv);
    MPI_Comm_rank(MPI_COMM_WORLD, &rank);
    MPI_Comm_size(MPI_COMM_WORLD, &ranks);
    MPI_Comm_dup(MPI_COMM_WORLD, &row);
    for (int round = 0; round < ROUNDS; round++) {
        MPI_Comm comm = round % 2 ? row : MPI_COMM_WORLD;
        int far = round % 101 == 0, left = (rank + ranks - far) % ranks, right = (rank + far) % ranks;
        for (int i = 0; i < EACH; i++)
            MPI_Irecv(&in[i], 1, MPI_INT, left, i, comm, &requests[i]);
        for (int i = 0; i < EACH; i++)
            MPI_Isend(&out[i], 1, MPI_INT, right, i, comm, &requests[EACH + i]);
        MPI_Waitall(CALLS, requests, MPI_STATUSES_IGNORE);
        for (int i = 0; i < 2; i++)
            MPI_Send(&rank, 1, MPI_INT, MPI_PROC_NULL, 0, comm);
        if (far)
            MPI_Allreduce(&rank, &sum, 1, MPI_INT, MPI_SUM, comm);
    }
    if (argc > 1 && rank == 0)
        MPI_Recv(&data, 1, MPI_INT, (rank + 1) % ranks, 99, row, MPI_STATUS_IGNORE);
    MPI_Finalize();
    return 0;
}
