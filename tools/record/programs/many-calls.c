/* More calls than a trace holds, and a communicator made before and one after. */
#include <mpi.h>

enum { MOST = 1000000 };

int main(int argc, char **argv) {
    int none = 0;
    MPI_Comm before, after;
    MPI_Init(&argc, &argv);
    MPI_Comm_dup(MPI_COMM_WORLD, &before);
    for (int i = 0; i < MOST; i++)
        MPI_Send(&none, 1, MPI_INT, MPI_PROC_NULL, 0, before);
    MPI_Comm_dup(before, &after);
    MPI_Barrier(after);
    MPI_Finalize();
    return 0;
}
