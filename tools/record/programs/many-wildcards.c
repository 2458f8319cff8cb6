/* More calls than are written down, with receives by wildcards among them, also after the last line that is
 * written. */
#include <mpi.h>

enum { ROUNDS = 1000000 };

int main(int argc, char **argv) {
    int out = 0, in;
    MPI_Request request;
    MPI_Init(&argc, &argv);
    for (int i = 0; i < ROUNDS; i++) {
        MPI_Irecv(&in, 1, MPI_INT, MPI_ANY_SOURCE, MPI_ANY_TAG, MPI_COMM_SELF, &request);
        MPI_Send(&out, 1, MPI_INT, 0, 3, MPI_COMM_SELF);
        MPI_Wait(&request, MPI_STATUS_IGNORE);
    }
    MPI_Finalize();
    return 0;
}
