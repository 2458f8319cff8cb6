/* A master hands out tasks and takes the results as they come. Then the workers pass something round
 * among themselves: each sends before it receives, which runs only as long as sends are buffered. */
#include <mpi.h>

enum { TASKS = 2, TASK = 1, RESULT = 2, ROUND = 3 };

static void be_master(int workers) {
    int task = 0, result, given[64] = {0};
    MPI_Status status;
    for (int worker = 1; worker <= workers; worker++)
        MPI_Send(&task, 1, MPI_INT, worker, TASK, MPI_COMM_WORLD);
    for (int left = workers * TASKS; left > 0; left--) {
        MPI_Recv(&result, 1, MPI_INT, MPI_ANY_SOURCE, RESULT, MPI_COMM_WORLD, &status);
        if (++given[status.MPI_SOURCE] < TASKS)
            MPI_Send(&task, 1, MPI_INT, status.MPI_SOURCE, TASK, MPI_COMM_WORLD);
    }
}

static void be_worker(MPI_Comm workers) {
    int task, rank, ranks;
    MPI_Request request;
    for (int i = 0; i < TASKS; i++) {
        MPI_Irecv(&task, 1, MPI_INT, MPI_ANY_SOURCE, MPI_ANY_TAG, MPI_COMM_WORLD, &request);
        MPI_Wait(&request, MPI_STATUS_IGNORE);
        MPI_Ssend(&task, 1, MPI_INT, 0, RESULT, MPI_COMM_WORLD);
    }
    MPI_Comm_rank(workers, &rank);
    MPI_Comm_size(workers, &ranks);
    MPI_Send(&task, 1, MPI_INT, (rank + 1) % ranks, ROUND, workers);
    MPI_Recv(&task, 1, MPI_INT, (rank + ranks - 1) % ranks, ROUND, workers, MPI_STATUS_IGNORE);
}

int main(int argc, char **argv) {
    int rank, ranks;
    MPI_Comm workers;
    MPI_Init(&argc, &argv);
    MPI_Comm_rank(MPI_COMM_WORLD, &rank);
    MPI_Comm_size(MPI_COMM_WORLD, &ranks);
    MPI_Comm_split(MPI_COMM_WORLD, rank == 0 ? MPI_UNDEFINED : 7, rank, &workers);
    if (rank == 0)
        be_master(ranks - 1);
    else
        be_worker(workers);
    MPI_Barrier(MPI_COMM_WORLD);
    MPI_Finalize();
    return 0;
}
