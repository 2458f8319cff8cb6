// Correct with every MPI library: rank 0 receives one message of each other rank, in any order. If the library
// buffers what rank 2 sends, its message may come first; without buffers that of rank 1 does.
#include <mpi.h>
#include <string.h>
#include <unistd.h>

static MPI_Comm world = MPI_COMM_WORLD;

static void receive_both(int is_started) {
    int data[2];
    MPI_Request requests[2];
    if (!is_started) {
        for (int place = 0; place < 2; place++)
            MPI_Recv(&data[place], 1, MPI_INT, MPI_ANY_SOURCE, 3, world, MPI_STATUS_IGNORE);
        return;
    }
    for (int place = 0; place < 2; place++) {
        MPI_Irecv(&data[place], 1, MPI_INT, MPI_ANY_SOURCE, 3, world, &requests[place]);
        MPI_Wait(&requests[place], MPI_STATUS_IGNORE);
    }
}

int main(int argc, char **argv) {
    int rank, data = 0;
    MPI_Init(&argc, &argv);
    MPI_Comm_rank(world, &rank);
    MPI_Barrier(world);
    if (rank == 0)
        receive_both(argc > 1 && strcmp(argv[1], "started") == 0);
    if (rank == 1) {
        sleep(1);
        MPI_Send(&data, 1, MPI_INT, 0, 3, world);
        MPI_Recv(&data, 1, MPI_INT, 2, 3, world, MPI_STATUS_IGNORE);
    }
    if (rank == 2) {
        MPI_Send(&data, 1, MPI_INT, 1, 3, world);
        MPI_Send(&data, 1, MPI_INT, 0, 3, world);
    }
    MPI_Finalize();
}
