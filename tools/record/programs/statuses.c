/* Ends as the first word says. */
#include <mpi.h>
#include <signal.h>
#include <string.h>
#include <unistd.h>

static void broadcast(int root) {
    int data = 0;
    MPI_Request request;
    MPI_Ibcast(&data, 0, MPI_INT, root, MPI_COMM_WORLD, &request);
    MPI_Wait(&request, MPI_STATUS_IGNORE);
}

int main(int argc, char **argv) {
    int rank;
    MPI_Init(&argc, &argv);
    MPI_Comm_rank(MPI_COMM_WORLD, &rank);
    MPI_Barrier(MPI_COMM_WORLD);
    if (argc > 1 && strcmp(argv[1], "computes") == 0)
        sleep(60);
    if (argc > 1 && strcmp(argv[1], "kills") == 0 && rank == 1)
        raise(SIGKILL);
    if (argc > 1 && strcmp(argv[1], "differs") == 0)
        broadcast(rank);
    MPI_Finalize();
    return argc > 1 && strcmp(argv[1], "fails") == 0 ? 3 : 0;
}
