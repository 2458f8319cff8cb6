/* Two ranks send to each other before either receives, and the messages are too large to be buffered: a
 * real hang, by the same mistake as in head-to-head.c. */
#include <mpi.h>

enum { COUNT = 1 << 20 };
static int out[COUNT], in[COUNT];

int main(int argc, char **argv) {
    int rank;
    MPI_Init(&argc, &argv);
    MPI_Comm_rank(MPI_COMM_WORLD, &rank);
    MPI_Barrier(MPI_COMM_WORLD);
    MPI_Send(out, COUNT, MPI_INT, 1 - rank, 0, MPI_COMM_WORLD);
    MPI_Recv(in, COUNT, MPI_INT, 1 - rank, 0, MPI_COMM_WORLD, MPI_STATUS_IGNORE);
    MPI_Finalize();
    return 0;
}
