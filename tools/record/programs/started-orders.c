/* The same as in two-orders.c with nonblocking broadcasts, each waited for at once: that they wait for their
 * roots alone can't be forced. */
#include <mpi.h>

int main(int argc, char **argv) {
    int rank, data = 0;
    MPI_Comm comms[2];
    MPI_Request request;
    MPI_Init(&argc, &argv);
    MPI_Comm_rank(MPI_COMM_WORLD, &rank);
    MPI_Comm_dup(MPI_COMM_WORLD, &comms[0]);
    MPI_Comm_dup(MPI_COMM_WORLD, &comms[1]);
    for (int i = 0; i < 2; i++) {
        int place = i == 0 ? rank : 1 - rank;
        MPI_Ibcast(&data, 1, MPI_INT, place, comms[place], &request);
        MPI_Wait(&request, MPI_STATUS_IGNORE);
    }
    MPI_Finalize();
    return 0;
}
