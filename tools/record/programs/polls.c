/* Rank 0 asks again and again for a message that nobody sends: by MPI_Test, or as a word says it. */
#include <mpi.h>
#include <sched.h>
#include <string.h>

int main(int argc, char **argv) {
    int rank, data, done = 0;
    MPI_Request request;
    MPI_Init(&argc, &argv);
    MPI_Comm_rank(MPI_COMM_WORLD, &rank);
    MPI_Barrier(MPI_COMM_WORLD);
    if (rank == 0 && argc > 1 && strcmp(argv[1], "status") == 0) {
        MPI_Irecv(&data, 1, MPI_INT, 1, 4, MPI_COMM_WORLD, &request);
        for (; !done; sched_yield())
            MPI_Request_get_status(request, &done, MPI_STATUS_IGNORE);
    } else if (rank == 0 && argc > 1) {
        for (; !done; sched_yield())
            MPI_Iprobe(1, 4, MPI_COMM_WORLD, &done, MPI_STATUS_IGNORE);
    } else if (rank == 0) {
        MPI_Irecv(&data, 1, MPI_INT, 1, 4, MPI_COMM_WORLD, &request);
        for (; !done; sched_yield())
            MPI_Test(&request, &done, MPI_STATUS_IGNORE);
    }
    MPI_Barrier(MPI_COMM_WORLD);
    MPI_Finalize();
    return 0;
}
