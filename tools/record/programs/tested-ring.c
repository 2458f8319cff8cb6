/* A ring in which each rank sends, and asks in turn whether its send is done and whether a message is there.
 * As long as neither is, it asks again, so it can't hang. */
#include <mpi.h>
#include <sched.h>

int main(int argc, char **argv) {
    int rank, ranks, out = 0, in, sent = 0, found = 0, received = 0;
    MPI_Request request;
    MPI_Init(&argc, &argv);
    MPI_Comm_rank(MPI_COMM_WORLD, &rank);
    MPI_Comm_size(MPI_COMM_WORLD, &ranks);
    int left = (rank + ranks - 1) % ranks;
    MPI_Isend(&out, 1, MPI_INT, (rank + 1) % ranks, 1, MPI_COMM_WORLD, &request);
    while (!sent || !received) {
        if (!sent)
            MPI_Test(&request, &sent, MPI_STATUS_IGNORE);
        if (!received)
            MPI_Iprobe(left, 1, MPI_COMM_WORLD, &found, MPI_STATUS_IGNORE);
        if (found && !received)
            received = MPI_Recv(&in, 1, MPI_INT, left, 1, MPI_COMM_WORLD, MPI_STATUS_IGNORE) == MPI_SUCCESS;
        sched_yield();
    }
    MPI_Finalize();
    return 0;
}
